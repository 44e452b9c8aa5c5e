#!/usr/bin/env python3
"""Tries the program with real sockets and processes: end_to_end.py [PROGRAM], end_to_end.py --preview, end_to_end.py --tests

Each part prints a line for each row or test: the rows of words, a server, a client, a build, its store and its evidence
(word_rows.py, server_rows.py, client_rows.py, build_rows.py, store_rows.py, evidence_rows.py), two builds (compare_rows.py), the
pages, whose commands are typed (page_rows.py), ten seconds of requests at random beside a model (soak.py), the tests of tools/, and
each command with each request for memory and each call of the system failing in turn (fault_rows.py, where a C compiler is
installed). Where Bazel is installed, the round trips with it run too (bazel_roundtrip.sh, bazel_attacks.sh, and with nginx bazel_cache.sh). A line says what was left
out. PROGRAM is crates/buildcache/out/buildcache, where `rt ci` leaves it. Nothing outside this machine is asked. The last line is
'N passed, M failed', and the status 1 where one failed.

With --preview, preview.sh compiles the program without a proof, and the parts are tried over that side by side, each in a process
of its own (--part NAME PROGRAM), as many as there are processors. No further one begins after one with something wrong: so this is
told within minutes. A report of its address sanitizer fails, also of a memory fault that no row shows. Left out are the failing
calls, since the sanitizer has the requests for memory, and Bazel.

With --tests, the tests of tools/ alone run, those of each package by `python3 -m unittest discover tools/PACKAGE`. Those that
need a program are skipped where BUILDCACHE names none and none is built.
"""

import concurrent.futures
import glob
import os
import re
import shutil
import subprocess
import sys
import tempfile
import threading
import time

import build_rows
import client_rows
import compare_rows
import evidence_rows
import fault_rows
import page_rows
import server_rows
import soak
import store_rows
import word_rows
from shared import harness, previews
from shared.command_line import fail, words_of
from shared.crates import TOP
from shared.rows import Rows

HERE = os.path.dirname(os.path.realpath(__file__))
TOOLS = os.path.join(TOP, "tools")
PREVIEW = os.path.join(TOP, "out", "preview", "buildcache")
# What tries a part in a process of its own.
PART = os.path.realpath(__file__)
SOAK_SECONDS = 10
ROUND_TRIP_SECONDS = 1200
PREVIEW_SECONDS = 1200
# How much longer a row over the preview may take, which has a sanitizer's checks and is hardly optimized.
SLOWNESS = 8


def run(words, place):
    """What a command prints, on both streams, and its status."""
    return subprocess.run(words, env=place, text=True, stdout=subprocess.PIPE, stderr=subprocess.STDOUT, check=False)


def side_by_side():
    return concurrent.futures.ThreadPoolExecutor(len(os.sched_getaffinity(0)))


def try_tests(rows, program=None):
    """The tests of tools/, those of each package in a process of its own, side by side. One that is skipped fails where a program
    is given."""
    place = {**os.environ, "BUILDCACHE_SLOWNESS": str(harness.SLOWNESS), **({"BUILDCACHE": program} if program else {})}
    packages = sorted(os.path.dirname(os.path.dirname(it)) for it in glob.glob(f"{TOOLS}/*/tests/"))
    packages = [f"{TOOLS}/tests", *packages]
    with side_by_side() as pool:
        ends = pool.map(lambda it: run([sys.executable, "-m", "unittest", "discover", it], place), packages)
        for package, ran in zip(packages, ends):
            print(ran.stdout, end="", flush=True)
            tell_tests(rows, os.path.basename(package), ran, may_skip=program is None)


def tell_tests(rows, package, ran, may_skip):
    """Tells what a run of unittest says at its end: how many tests passed, and each that didn't."""
    count = re.search(r"^Ran (\d+) tests? in ", ran.stdout, re.M)
    skipped = re.search(r"^(?:OK|FAILED) \(.*\bskipped=(\d+)", ran.stdout, re.M)
    skipped = int(skipped[1]) if skipped else 0
    faults = sorted(set(re.findall(r"^(?:FAIL|ERROR): (.+)$", ran.stdout, re.M)))
    rows.passed += max(int(count[1]) - skipped - len(faults), 0) if count else 0
    for it in faults:
        rows.tell(it, False, f"python3 -m unittest discover tools/{package}")
    if skipped and not may_skip:
        rows.tell(f"{package}: no test is skipped", False, f"{skipped} of them")
    if not count or ran.returncode != 0 and not faults:
        rows.tell(f"{package}: its tests", False, f"status {ran.returncode}")


def try_bazel(rows, program):
    """The round trips with Bazel, each a row."""
    if not shutil.which(os.environ.get("BAZEL", "bazel")):
        print("bazel isn't installed: the round trips with it are left out")
        return
    trips = ["bazel_roundtrip.sh", "bazel_attacks.sh"] + ["bazel_cache.sh"] * bool(shutil.which("nginx"))
    if len(trips) < 3:
        print("nginx isn't installed: bazel_cache.sh is left out")
    for trip in trips:
        try:
            ran = subprocess.run([os.path.join(HERE, trip)], env={**os.environ, "BUILDCACHE": program}, text=True,
                                 stdout=subprocess.PIPE, stderr=subprocess.STDOUT, timeout=ROUND_TRIP_SECONDS, check=False)
            print(ran.stdout, end="")
            rows.tell(trip, ran.returncode == 0, f"status {ran.returncode}")
        except subprocess.TimeoutExpired:
            rows.tell(trip, False, f"it hadn't ended after {ROUND_TRIP_SECONDS} seconds")


PARTS = {
    "words": word_rows.try_all,
    "a server": server_rows.try_all,
    "a client": client_rows.try_all,
    "a build": build_rows.try_all,
    "a store": store_rows.try_all,
    "evidence": evidence_rows.try_all,
    "two builds": compare_rows.try_all,
    "pages": page_rows.try_all,
    "requests at random": lambda rows, program: soak.soak(program, rows, SOAK_SECONDS),
    "tests of tools/": try_tests,
    "faults": fault_rows.try_all,
    "Bazel": try_bazel,
}
NOT_OF_A_PREVIEW = ("faults", "Bazel")
LONGEST = ("tests of tools/", "words")


def try_parts(rows, program, parts):
    """Tries parts, one after another."""
    for name, part in parts.items():
        began = time.monotonic()
        print(f"== {name}", flush=True)
        try:
            part(rows, program)
        except Exception as fault:  # (whatever it is, the other parts are tried)
            rows.tell(name, False, f"{type(fault).__name__}: {fault}")
        print(f"{name}: {time.monotonic() - began:.0f} s", flush=True)


def reports_in(folder):
    """What the address sanitizer reported, each in a file of its own."""
    for name in sorted(os.listdir(folder)):
        with open(f"{folder}/{name}", encoding="utf-8", errors="replace") as it:
            yield it.read()


def try_apart(name, program, has_wrong):
    """A part over the preview in a process of its own: what it prints, its status, and the reports of the sanitizer. None after
    one with something wrong."""
    if has_wrong.is_set():
        return None
    with tempfile.TemporaryDirectory() as folder:
        place = {**os.environ, "ASAN_OPTIONS": f"detect_leaks=1:log_path={folder}/report", "BUILDCACHE_SLOWNESS": str(SLOWNESS)}
        ran, reports = run([sys.executable, PART, "--part", name, program], place), [*reports_in(folder)]
    if ran.returncode or reports:
        has_wrong.set()
    return ran, reports


def tell_part(rows, name, ran, reports):
    """Tells what a part in a process of its own came to, by its last line, and each report that came with it."""
    said, _, last = ran.stdout.rstrip("\n").rpartition("\n")
    print(said, flush=True)
    count = re.fullmatch("([0-9]+) passed, ([0-9]+) failed", last)
    if count and (ran.returncode != 0) == (int(count[2]) != 0):
        rows.passed, rows.failed = rows.passed + int(count[1]), rows.failed + int(count[2])
    else:
        rows.tell(name, False, f"status {ran.returncode}, and its last line is {last!r}")
    for text in reports:
        print(text, end="")
        first = next((line for line in text.splitlines() if "ERROR" in line), "a report")
        rows.tell(f"{name}: memory", False, first)


def try_side_by_side(rows, program, names):
    """Tries parts over the preview, as many at a time as there are processors; none begins after one with something wrong."""
    has_wrong = threading.Event()
    with side_by_side() as pool:
        runs = {pool.submit(try_apart, it, program, has_wrong): it for it in names}
        for it in concurrent.futures.as_completed(runs):
            if it.result():
                tell_part(rows, runs[it], *it.result())
            else:
                print(f"left out after what is wrong: {runs[it]}")


def try_preview(rows):
    """The rows over the program that isn't proved, the longest parts first."""
    print("left out over the preview: " + ", ".join(NOT_OF_A_PREVIEW))
    try:
        made = subprocess.run([os.path.join(TOOLS, "preview.sh")], timeout=PREVIEW_SECONDS, check=False).returncode
    except subprocess.TimeoutExpired:
        made = f"none after {PREVIEW_SECONDS} seconds"
    rows.tell("the preview is compiled", made == 0, f"status {made}")
    if made == 0:
        os.environ.pop(previews.VARIABLE, None)
        rows.tell("the preview is known as a program of which nothing is proved", previews.why_not(PREVIEW), "it isn't refused")
        os.environ[previews.VARIABLE] = previews.ALLOWED
        names = [it for it in PARTS if it not in NOT_OF_A_PREVIEW]
        try_side_by_side(rows, PREVIEW, sorted(names, key=lambda it: it not in LONGEST))


def try_one(name, program):
    """A part alone."""
    if name not in PARTS:
        fail(2, f"there is no part {name!r}; there are {', '.join(PARTS)}")
    rows = Rows()
    try_parts(rows, program, {name: PARTS[name]})
    return rows.end()


def main():
    words = words_of(__doc__, 0, 3, ["--preview", "--tests", "--part"])
    if words[:1] == ["--part"] and len(words) == 3:
        return try_one(*words[1:])
    if len(words) > 1:
        fail(2, f"words given: {len(words)}, taken: 1; see --help")
    rows = Rows()
    if words and words[0] in ("--preview", "--tests"):
        (try_preview if words == ["--preview"] else try_tests)(rows)
        return rows.end()
    program = os.path.abspath(words[0] if words else harness.PROGRAM)
    if not os.access(program, os.X_OK):
        rows.tell("the program", False, f"{program} isn't there, so nothing of it was tried")
        return rows.end()
    why = previews.why_not(program)
    rows.tell("the program isn't taken for one of which nothing is proved", why is None, why)
    try_parts(rows, program, PARTS)
    return rows.end()


if __name__ == "__main__":
    sys.exit(main())
