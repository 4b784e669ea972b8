"""Files and ends of pipes that a run of a program meets: some have no end, some fail, and some take or give little at a time."""

import array
import fcntl
import os
import resource
import socket
import termios
import threading
import time
from collections.abc import Callable, Iterator
from contextlib import contextmanager
from functools import partial

BLOCK = 65_536
SHORT = 0.0002  # seconds
MOST_WAITS = 100_000


class Endless:
    """A pipe that gives a text always anew, to whoever opens its `path` in a process that got its end `reads`."""

    def __init__(self, text: bytes) -> None:
        self.reads, self.writes = os.pipe()
        self.path = f"/dev/fd/{self.reads}"
        self.block = text * (BLOCK // len(text) + 1)

    def start(self) -> None:
        """Gives the text from now on, until nobody is left who reads it."""
        os.close(self.reads)
        threading.Thread(target=self.give, daemon=True).start()

    def give(self) -> None:
        try:
            while True:
                os.write(self.writes, self.block)
        except BrokenPipeError:
            os.close(self.writes)


@contextmanager
def failing_input(text: bytes) -> Iterator[socket.socket]:
    """A standard input that has a text and fails behind it: its other end is closed while it holds a byte that nobody read."""
    inside, outside = socket.socketpair()
    with inside:
        with outside:
            inside.send(b"?")
            outside.sendall(text)
        yield inside


@contextmanager
def closed_output() -> Iterator[int]:
    """A standard output whose reader is gone."""
    reads, writes = os.pipe()
    os.close(reads)
    try:
        yield writes
    finally:
        os.close(writes)


def with_room(room: int) -> Callable[[], None]:
    """What a process does before it begins, so that each of its files takes this many bytes and then fails."""
    return partial(resource.setrlimit, resource.RLIMIT_FSIZE, (room, room))


def with_memory(size: int) -> Callable[[], None]:
    """What a process does before it begins, so that it gets this many bytes of memory in all."""
    return partial(resource.setrlimit, resource.RLIMIT_AS, (size, size))


def waiting(pipe: int) -> int:
    """How many bytes of a pipe nobody has read yet."""
    count = array.array("i", [0])
    fcntl.ioctl(pipe, termios.FIONREAD, count)
    return count[0]


def write_by_bytes(pipe: int, text: bytes) -> None:
    """Writes a byte at a time, the next one when the last was read."""
    for byte in text:
        os.write(pipe, bytes([byte]))
        for _ in range(MOST_WAITS):
            if not waiting(pipe):
                break
            time.sleep(SHORT)
