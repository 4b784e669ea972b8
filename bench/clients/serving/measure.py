#!/usr/bin/env python3
"""Measures the shop over one PostgreSQL: a process alone, and several behind nginx. It needs wrk, nginx and psycopg2.

    bench/clients/serving/with_postgres bench/clients/serving/measure.py [--seconds 20] [--connections 32] [--processes 1 2 4]

Prints requests a second, and how many milliseconds at most half, 99 % and 99.9 % of the requests took, and the slowest one. At the end one of
the processes behind nginx is killed in the middle of a run. The same is measured of node_client.js and
graphql_js.js, if NODE_PATH has graphql and pg."""

from __future__ import annotations

import json
import os
import subprocess
import sys
import time
from argparse import ArgumentParser, Namespace
from collections.abc import Iterator
from contextlib import ExitStack, contextmanager
from pathlib import Path
from tempfile import TemporaryDirectory
from threading import Timer
from typing import Any
from urllib.request import Request, urlopen

HERE = Path(__file__).resolve().parent
SHOP = [sys.executable, "-B", str(HERE.parents[2] / "clients/python/examples/shop"), "--port", "0"]
IN_NODE = {"Node client": ["node", str(HERE / "node_client.js")], "graphql-js": ["node", str(HERE / "graphql_js.js")]}
WORKLOADS = ["small", "large"]
# a query of each workload, whose answers are compared
COMPARED = [
    "{order(id: 7) {date status customer {name city} lines {quantity price product {name}}}}",
    '{customersIn(city: "Bergen") {name orders {date lines {quantity product {name category}}}}}',
]

Process = subprocess.Popen[str]


@contextmanager
def running(words: list[str]) -> Iterator[Process]:
    process = subprocess.Popen(words, stdout=subprocess.PIPE, text=True)
    try:
        yield process
    finally:
        process.terminate()
        process.wait()


def start_server(stack: ExitStack, words: list[str]) -> tuple[Process, str]:
    """A process, and the address that it prints."""
    process = stack.enter_context(running(words))
    assert process.stdout
    address = process.stdout.readline().strip().rstrip("/")
    if not address:
        sys.exit(f"{' '.join(words)} doesn't start")
    return process, address


def start_nginx(stack: ExitStack, addresses: list[str], port: int) -> str:
    folder = stack.enter_context(TemporaryDirectory())
    servers = "\n        ".join(f"server {address.removeprefix('http://')};" for address in addresses)
    text = (HERE / "nginx.conf").read_text()
    for word, value in {"@processes": servers, "@folder": folder, "@port": str(port)}.items():
        text = text.replace(word, value)
    Path(folder, "nginx.conf").write_text(text)
    stack.enter_context(running(["nginx", "-p", folder, "-c", f"{folder}/nginx.conf"]))
    address = f"http://127.0.0.1:{port}"
    wait_for(address)
    return address


def wait_for(address: str) -> None:
    for _ in range(100):
        try:
            urlopen(f"{address}/examples").close()
            return
        except OSError:
            time.sleep(0.05)
    sys.exit(f"nothing answers at {address}")


def answer(address: str, query: str) -> Any:
    headers = {"Content-Type": "application/json", "Accept": "application/graphql-response+json"}
    with urlopen(Request(f"{address}/graphql", json.dumps({"query": query}).encode(), headers)) as response:
        return json.load(response)


def measure(address: str, workload: str, seconds: int, connections: int) -> Any:
    words = ["wrk", "--latency", "--timeout=10s", "-t2", f"-c{connections}", f"-d{seconds}", "-s", str(HERE / "requests.lua")]
    said = subprocess.run([*words, address, "--", workload], stdout=subprocess.PIPE, text=True, check=True).stdout
    return json.loads(said.splitlines()[-1])


def told(name: str, workload: str, found: dict[str, float]) -> str:
    rate = found["requests"] / found["seconds"]
    times = " ".join(f"{found[time]:9.2f}" for time in ("p50", "p99", "p999", "most"))
    failed = f"  {found['failed']:.0f} FAILED" if found["failed"] else ""
    return f"{name:44} {workload:8} {rate:9.0f} {times}{failed}"


def measure_each(name: str, address: str, words: Namespace) -> None:
    for workload in WORKLOADS:
        measure(address, workload, min(words.seconds, 2), words.connections)  # so that all documents are known and all connections open
        print(told(name, workload, measure(address, workload, words.seconds, words.connections)), flush=True)


def measure_alone(name: str, server: list[str], words: Namespace) -> list[Any]:
    """Measures a process, and returns its answers to the queries that are compared."""
    with ExitStack() as stack:
        _, address = start_server(stack, server)
        answers = [answer(address, query) for query in COMPARED]
        measure_each(f"{name}, one process", address, words)
    return answers


def measure_behind_nginx(name: str, server: list[str], count: int, words: Namespace) -> None:
    with ExitStack() as stack:
        servers = [start_server(stack, server) for _ in range(count)]
        address = start_nginx(stack, [address for _, address in servers], words.port)
        measure_each(f"{name}, nginx, {count} process{'es' if count > 1 else ''}", address, words)
        if count == max(words.processes) > 1:
            Timer(words.seconds / 2, servers[0][0].kill).start()
            print(told("  of which one is killed", "small", measure(address, "small", words.seconds, words.connections)), flush=True)


def measure_all(words: Namespace) -> None:
    dsn = os.environ["SHOP_POSTGRES"]
    with TemporaryDirectory() as folder:
        measure_alone("SQLite", [*SHOP, "--database", f"{folder}/shop.sqlite"], words)
    servers = {"PostgreSQL": [*SHOP, "--postgres", dsn]}
    if subprocess.run(["node", "-e", "require('graphql'); require('pg')"], stderr=subprocess.DEVNULL).returncode == 0:
        servers |= {f"{name}, PostgreSQL": [*words_of, dsn] for name, words_of in IN_NODE.items()}
    else:
        print("left out: NODE_PATH has no graphql and pg, so the servers in Node aren't measured beside it")
    answers = [measure_alone(name, server, words) for name, server in servers.items()]
    if any(other != answers[0] for other in answers):
        sys.exit("the servers answer differently")
    for name, server in servers.items():
        for count in words.processes:
            measure_behind_nginx(name, server, count, words)


def main() -> None:
    parser = ArgumentParser(description=__doc__)
    parser.add_argument("--seconds", type=int, default=20)
    parser.add_argument("--connections", type=int, default=32)
    parser.add_argument("--processes", type=int, nargs="+", default=[1, 2, 4])
    parser.add_argument("--port", type=int, default=8100, help="of nginx")
    words = parser.parse_args()
    print(f"{'':44} {'':8} {'a second':>9} {'half':>9} {'99 %':>9} {'99.9 %':>9} {'slowest':>9}")
    measure_all(words)


if __name__ == "__main__":
    main()
