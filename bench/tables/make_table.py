#!/usr/bin/env python3
"""Writes a table of four columns: make_table.py ROWS > FILE. `id` is unique, `group` has a fifth as many texts."""
import sys

rows = int(sys.argv[1])
out = sys.stdout
out.write("id,group,name,note\n")
for i in range(rows):
    out.write(f"{i},g{i % max(1, rows // 5)},name of {i},{'x' * (i % 12)}\n")
