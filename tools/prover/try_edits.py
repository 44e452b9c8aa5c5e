#!/usr/bin/env python3
"""Judges the mistakes of the repository's crates: try_edits.py [--anew] [CRATE[/MISTAKE] ..]

A mistake turns what some functions of a crate mean (crates/NAME/mistakes/*.edit; README.md beside this has the format), and the
prover has to refuse each of those functions for a goal of its own (judging.py). A mistake fails that is proved, that makes the
text unreadable, or that is refused only since a proof names what is gone.

A mistake that was refused on this machine isn't judged again as long as all that its verdict rests on is the same: the kit, the
text of its crate and of those below it, the mistake, and the tools that judge (verdicts.py). --anew judges each.

Without a CRATE it takes every one that has a folder mistakes/ (what stands in must-fail/ is `rt ci`'s). First come the mistakes
that are marked as named, whatever the time, and one that isn't judged fails. Then come the crates that differ from the commit
before, and the longest; no check begins after GATE_MINUTES (150) minutes, and a line counts what was left out. As many crates go
side by side as there are processors and as memory holds (RT_JOBS says another number). In the gate, which sets GATE_BEGAN to its
own start in seconds, it works over the libraries that `rt ci` left in crates/*/out; else `rt lib` brings them up to date first.
The last line is 'N passed, M failed', and the status 1 where one failed.
"""

import concurrent.futures
import contextlib
import os
import subprocess
import sys
import threading
import time

import mistakes
from judging import Judge
from prover import Workspace
from shared.command_line import fail, words_of
from verdicts import Verdicts

# What one check is taken to need of memory, in bytes; and those of the crates that were seen to take more.
ROOM = 4_500_000_000
ROOMS = {"commands": 8_000_000_000, "cli": 9_500_000_000, "builder": 6_500_000_000}


class Memory:
    """Memory that checks side by side share: each begins once there is room for it."""

    def __init__(self, size):
        self.size = self.free = size
        self.given_back = threading.Condition()

    @contextlib.contextmanager
    def taken(self, need):
        need = min(need, self.size)
        with self.given_back:
            self.given_back.wait_for(lambda: self.free >= need)
            self.free -= need
        try:
            yield
        finally:
            with self.given_back:
                self.free += need
                self.given_back.notify_all()


def changed(top):
    """The crates that differ from the commit before, or None where that isn't known."""
    ran = subprocess.run(["git", "diff", "--name-only", "HEAD~1"], cwd=top, capture_output=True, text=True, check=False)
    if ran.returncode:
        return None
    return {it.split("/")[1] for it in ran.stdout.splitlines() if it.startswith("crates/")}


def free_memory():
    with open("/proc/meminfo", encoding="ascii") as it:
        return next(int(line.split()[1]) * 1024 for line in it if line.startswith("MemAvailable:"))


def lanes():
    fixed = os.environ.get("RT_JOBS", "")
    if fixed.isdigit() and int(fixed):
        return int(fixed)
    return max(1, min(len(os.sched_getaffinity(0)), free_memory() // ROOM))


def in_order(workspace, crates):
    """The crates with mistakes: those that differ from the commit before, then the longest."""
    differ = changed(workspace.top)
    if differ is None:
        print("mistakes: the commit before isn't in this clone, so the longest crates come first")
    differ = differ or set()
    return sorted(crates, key=lambda it: (it not in differ, -workspace.length(it)))


class Run:
    """The judging of several crates, side by side, and how many mistakes passed and failed."""

    def __init__(self, judges):
        self.judges, self.telling, self.memory = judges, threading.Lock(), Memory(free_memory())
        self.passed = self.failed = 0

    def guarded(self, judge, work):
        """Does a part of a crate's judging; whatever goes wrong there, the other crates are judged."""
        try:
            work()
        except Exception as fault:
            judge.fail_all(f"not tried: {type(fault).__name__}: {fault}")

    def side_by_side(self, judges, work):
        def one(judge):
            with self.memory.taken(ROOMS.get(judge.crate, ROOM)):
                self.guarded(judge, lambda: work(judge))
            self.tell(judge)

        with concurrent.futures.ThreadPoolExecutor(lanes()) as pool:
            list(pool.map(one, judges))

    def begin(self):
        """Finds what is left to judge; the crates of which something is."""
        for it in self.judges:
            self.guarded(it, it.begin)
            self.tell(it)
        return [it.crate for it in self.judges if it.left]

    def run(self, last):
        """Judges what is named, and then the rest, by checks that begin until then."""
        self.side_by_side([it for it in self.judges if has_named(it)], lambda it: it.run(named_alone=True))
        for it in self.judges:
            it.fail_unjudged("it is named, and wasn't judged", named_alone=True)
        self.side_by_side([it for it in self.judges if it.left], lambda it: it.run(lambda: time.time() <= last))

    def tell(self, judge):
        """Tells of a crate, once nothing of it is left to judge."""
        if not judge.left:
            with self.telling:
                self.add(judge)

    def add(self, judge):
        self.passed += judge.tell()
        self.failed += len(judge.failed())

    def end(self):
        """Tells of what was left out, and how much was judged."""
        left_out = [it for it in self.judges if it.left]
        for it in left_out:
            self.add(it)
        if left_out:
            counts = ", ".join(f"{len(it.left)} of {it.crate}" for it in left_out)
            print(f"mistakes: left out, since the run's time is up: {counts}")
        taken = sum(len(it.taken_over) for it in self.judges)
        print(f"mistakes: {self.passed + self.failed - taken} judged, {taken} taken over from before on this machine")
        print(f"{self.passed} passed, {self.failed} failed", flush=True)


def has_named(judge):
    return any(it.is_named for it in judge.left)


def main(words):
    workspace = Workspace()
    names = {}
    for crate, _, name in (it.partition("/") for it in words if it != "--anew"):
        names.setdefault(crate, []).append(name)
    unknown = next((it for it in names if it not in workspace.uses), None)
    if unknown is not None:
        fail(2, f"crates.txt has no crate {unknown!r}")
    folders = mistakes.FOLDERS if names else mistakes.FOLDERS[:1]
    kept = Verdicts(anew="--anew" in words)
    judges = {it: Judge(workspace, it, list(filter(None, names.get(it, ()))), folders, kept) for it in names or workspace.uses}
    for crate, judge in judges.items():
        unknown = {*filter(None, names.get(crate, ()))} - {it.name for it in judge.mistakes}
        if unknown:
            fail(2, f"crate {crate} has no mistake {min(unknown)!r}")
    order = in_order(workspace, [it for it in judges if judges[it].mistakes])
    began = os.environ.get("GATE_BEGAN")
    last = float(began or time.time()) + 60 * float(os.environ.get("GATE_MINUTES") or 150)
    run = Run([judges[it] for it in order])
    left = run.begin()
    if left and not began:
        workspace.bring_up_to_date(left)
    run.run(last)
    kept.drop_oldest()
    if kept.note:
        print(f"mistakes: verdicts aren't kept, or not all: {kept.note}")
    run.end()
    return 1 if run.failed else 0


if __name__ == "__main__":
    sys.exit(main(words_of(__doc__, options=["--anew"])))
