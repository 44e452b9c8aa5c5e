#!/usr/bin/env python3
"""Measures the tables and times of docs/PERFORMANCE.md, each beside its peer in turns: measure_all.py PROGRAM [PART ..]

Each part prints the command lines of the tools that measure one thing, runs them, and says how many seconds they took. Temporary
files are in memory (/dev/shm). First it prints the day, the machine and its load, which should be near 0. The parts, in their
order (without a PART it runs all):

server: serve_speed.py, one connection beside nginx; many: it over 100 and over one by `wrk`; put: 300 MB beside sha256sum;
build: measure_build.py beside xargs; verify: measure_verify.py, whose kinds have sha256sum beside them; benchmark: the program
crates/benchmark/out/benchmark, which `rt run` builds in its crate. A part whose tools aren't installed says so.
"""

import os
import platform
import subprocess
import sys
import tempfile
import time

from shared import harness, stores
from shared.command_line import fail, program_at, words_of
from shared.crates import TOP

TOOLS = os.path.dirname(os.path.realpath(__file__))
BENCHMARK = os.path.join(TOP, "crates", "benchmark", "out", "benchmark")
MEMORY = "/dev/shm"
# What is put: so many files of so many bytes, in so many turns.
FILES, BYTES, TURNS = 30, 10_000_000, 5


def tool(name, *words):
    return [sys.executable, os.path.join(TOOLS, name), *words]


def parts(program):
    """Of each part its command lines; `put` is done here."""
    verify = [("steps", "1024", "4096"), ("outputs", "16384", "65536"), ("sources", "16384", "65536")]
    verify += [(it, "65536") for it in ("apart", "meeting", "repeated")] + [("layers", "16384")]
    benchmark = [("digest", "64"), ("directory", "200000"), ("result", "10000"), ("store", "100000"), ("store", "1000000")]
    return {
        "server": [tool("serve_speed.py", program)],
        "many": [tool("serve_speed.py", program, "1", it) for it in ("100", "1")],
        "put": [],
        "build": [tool("measure_build.py", program, "1000", "6")],
        "verify": [tool("measure_verify.py", program, *it) for it in verify],
        "benchmark": [[BENCHMARK, *it] for it in benchmark],
    }


def seconds_of(words):
    began = time.monotonic()
    subprocess.run(words, stdout=subprocess.DEVNULL, check=True)
    return time.monotonic() - began


def measure_put(program):
    """`put` and sha256sum in turns, over a server each time that holds nothing."""
    with tempfile.TemporaryDirectory(dir=MEMORY) as folder:
        paths = [f"{folder}/{number}" for number in range(FILES)]
        for path in paths:
            stores.write_file(path, os.urandom(BYTES))
        turns = []
        for _ in range(TURNS):
            with harness.Server(program, more=("--at-once", "1")) as server:
                put = seconds_of([program, "put", "--server", server.address, folder])
            turns.append((put, seconds_of(["sha256sum", *paths])))
    of_put, of_sum = zip(*turns)
    for name, seconds in (("put", of_put), ("sha256sum", of_sum)):
        print(f"{name}: {min(seconds):.2f} to {max(seconds):.2f} s")
    print(f"put took {min(of_put) / min(of_sum):.2f} times what sha256sum took at the least")


def run(words):
    """Runs a command line under its name; one that isn't there is told."""
    print(f"$ {' '.join(os.path.relpath(it, TOP) if it.startswith(TOP) else it for it in words)}", flush=True)
    if not os.path.exists(words[0]):
        print("it isn't built")
        return
    status = subprocess.run(words, env={**os.environ, "TMPDIR": MEMORY}, check=False).returncode
    if status:
        print(f"it ended with status {status}")


def main():
    program, *named = words_of(__doc__, 1)
    program = program_at(program)
    lines = parts(program)
    unknown = next((it for it in named if it not in lines), None)
    if unknown:
        fail(2, f"{unknown!r} is none of {', '.join(lines)}")
    with open("/proc/loadavg", encoding="ascii") as load:
        print(f"{time.strftime('%Y-%m-%d')}, {platform.machine()}, {os.cpu_count()} processors, load {load.read().strip()}", flush=True)
    for name in named or lines:
        began = time.monotonic()
        print(f"\n== {name}", flush=True)
        if name == "put":
            measure_put(program)
        for words in lines[name]:
            run(words)
        print(f"{name}: {time.monotonic() - began:.0f} s", flush=True)


if __name__ == "__main__":
    main()
