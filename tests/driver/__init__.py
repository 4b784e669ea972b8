"""What `tests/run` runs: cases of what ships, plain slow readings, and the program of units. docs/TESTING.md says how cases are written."""
