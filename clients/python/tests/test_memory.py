"""No leak: what is allocated is the same after many requests. `RUDZKVANO_REQUESTS` says after how many."""

import asyncio
import ctypes
import gc
import os
import sys
import unittest
from concurrent.futures import ThreadPoolExecutor
from typing import Any

import worlds

REQUESTS = int(os.environ.get("RUDZKVANO_REQUESTS", "10000"))
# how much more may be allocated at the end, whatever the number of requests: by the interpreter itself
MOST_BLOCKS, MOST_BYTES = 200, 20_000


class Heap(ctypes.Structure):
    """What `mallinfo2` of the C library tells. `uordblks` is how many bytes are allocated."""

    _fields_ = [(name, ctypes.c_size_t) for name in "arena ordblks smblks hblks hblkhd usmblks fsmblks uordblks fordblks keepcost".split()]


LIBC = ctypes.CDLL(None)


def allocated() -> tuple[int, int]:
    """The blocks that Python has allocated, and the bytes that C has."""
    gc.collect()
    heap = LIBC.mallinfo2()
    return sys.getallocatedblocks(), heap.uordblks + heap.hblkhd


class Memory(unittest.TestCase):
    def setUp(self) -> None:
        if not hasattr(LIBC, "mallinfo2"):
            self.skipTest("the C library has no mallinfo2, so memory isn't measured")
        LIBC.mallinfo2.restype = Heap
        self.world = worlds.WORLDS["examples"]
        self.server = self.world.server()
        self.addCleanup(self.server.close)
        self.functions = worlds.functions(self.server)

    def flat(self, run: Any) -> None:
        """Runs half of REQUESTS requests twice: the second time memory doesn't grow."""
        run(REQUESTS // 2)
        before = allocated()
        run(REQUESTS // 2)
        blocks, size = (now - then for now, then in zip(allocated(), before))
        self.assertLess(blocks, MOST_BLOCKS)
        self.assertLess(size, MOST_BYTES)

    def test_answers(self) -> None:
        lines = [line.encode() for line in self.world.lines]

        def run(count: int) -> None:
            for at in range(count):
                self.server.answer_text(lines[at % len(lines)], self.functions)

        self.flat(run)

    def test_threads(self) -> None:
        def answer(number: int) -> str:
            return self.server.answer_text(f"{{user(id:1){{name a{number}:id}}}}", self.functions)

        def run(count: int) -> None:
            for at in range(count // 20):
                with ThreadPoolExecutor(2) as pool:
                    list(pool.map(answer, range(20 * at, 20 * at + 20)))

        self.flat(run)

    def test_answers_by_coroutines(self) -> None:
        async def fails(keys: Any) -> Any:
            await asyncio.sleep(0)
            raise OSError("gone")

        functions: dict[str, Any] = {**self.functions, "postsByAuthor": fails}

        async def answers(count: int) -> None:
            for _ in range(count // 20):
                await asyncio.gather(*(self.server.answer_async("{users{name posts{title}}}", functions) for _ in range(20)))

        self.flat(lambda count: asyncio.run(answers(count)))

    def test_clients_and_servers(self) -> None:
        def run(count: int) -> None:
            for at in range(count // 12):
                server = self.world.server()
                client = server.client(self.functions, max_batch=2)
                for _ in range(10):
                    client.answer("{users{best{name}}}")
                    client.clear("userById", 1)
                    client.prime("userById", at, {"id": at, "name": "é" * 100})
                client.begin_request("{users{name}}")
                server.answer("{users{best{name}}}", self.functions, max_answer=10)

        self.flat(run)


if __name__ == "__main__":
    unittest.main()
