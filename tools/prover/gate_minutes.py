#!/usr/bin/env python3
"""Runs the gate (.ci/run) and tells what it took, which docs/CONTRIBUTING.md has of one run: gate_minutes.py [--anew] [LOG].

For each crate: the processor minutes of its proof, of its tests' proof and of its mistakes, and the most memory that one
of these processes held. It looks at the gate's processes of the toolchain twice a second, so what lives shorter
isn't seen. The gate's own output goes to LOG (gate.log), each line after the minutes since the start. With --anew the gate
takes nothing from earlier runs on this machine, neither proofs nor verdicts on mistakes; a kit whose `rt help` doesn't know that
word never takes proofs.
"""
import collections
import os
import re
import shutil
import subprocess
import sys
import tempfile
import threading
import time

from shared.command_line import fail, words_of
from shared.crates import TOP

TICKS = os.sysconf("SC_CLK_TCK")
KINDS = ("proof", "tests", "mistakes")


def is_below(pid, top):
    """Whether the process was started by the one of number top, or by one that was."""
    while pid not in (0, top):
        with open(f"/proc/{pid}/stat") as it:
            pid = int(it.read().rpartition(")")[2].split()[1])
    return pid == top


def processes():
    """Each process of the toolchain that this one or one below it started: its number and start, its words, the folder
    that it runs in, the seconds that it took and the most memory that it held."""
    for pid in filter(str.isdigit, os.listdir("/proc")):
        try:
            with open(f"/proc/{pid}/cmdline", "rb") as it:
                words = it.read().decode(errors="replace").split("\0")
            if not words[0].endswith("/rattle") or "--crate-name" not in words or not is_below(int(pid), os.getpid()):
                continue
            with open(f"/proc/{pid}/stat") as it:
                fields = it.read().rpartition(")")[2].split()
            with open(f"/proc/{pid}/status") as it:
                peak = next((int(line.split()[1]) for line in it if line.startswith("VmHWM")), 0)
            yield (pid, fields[19]), words, os.readlink(f"/proc/{pid}/cwd"), (int(fields[11]) + int(fields[12])) / TICKS, peak
        except (OSError, IndexError):
            continue


def watch(seen, stopped):
    while not stopped.wait(0.5):
        for key, words, folder, seconds, peak in processes():
            kind = "mistakes" if re.search("/(rt-edit|buildcache-check)-", folder) else "tests" if "--test" in words else "proof"
            seen[key] = words[words.index("--crate-name") + 1], kind, seconds, peak


def path_to_anew(room):
    """A PATH in which `rt ci` takes nothing from earlier runs."""
    said = subprocess.run(["rt", "help"], capture_output=True, text=True, check=False)
    if "--anew" not in said.stdout + said.stderr:
        return os.environ["PATH"]
    with open(f"{room}/rt", "w", encoding="utf-8") as it:
        it.write(f'#!/bin/sh\nexec {shutil.which("rt")} "$@" --anew\n')
    os.chmod(it.name, 0o755)
    return f"{room}:{os.environ['PATH']}"


def main(words):
    log = next((it for it in words if it != "--anew"), "gate.log")
    if "--anew" not in words:
        return timed(log, dict(os.environ))
    with tempfile.TemporaryDirectory() as room:
        return timed(log, {**os.environ, "PATH": path_to_anew(room), "GATE_ANEW": "1"})


def timed(file, environment):
    try:
        log = open(file, "w", encoding="utf-8")
    except OSError as fault:
        fail(3, fault)
    seen, stopped, began, last = {}, threading.Event(), time.time(), ""
    watcher = threading.Thread(target=watch, args=(seen, stopped), daemon=True)
    watcher.start()
    how = {"stdout": subprocess.PIPE, "stderr": subprocess.STDOUT, "text": True, "errors": "replace", "env": environment}
    with log:
        gate = subprocess.Popen([f"{TOP}/.ci/run"], cwd=TOP, **how)
        for line in gate.stdout:
            print(f"{(time.time() - began) / 60:6.1f} {line}", end="", file=log, flush=True)
            last = line.strip()
    status = gate.wait()
    stopped.set()
    watcher.join()
    minutes, peaks = collections.Counter(), collections.Counter()
    for crate, kind, seconds, peak in seen.values():
        minutes[crate, kind] += seconds / 60
        peaks[crate] = max(peaks[crate], peak)
    print("| Crate | Proof | Tests | Mistakes | Peak memory |\n|---|---|---|---|---|")
    for crate in sorted(peaks, key=lambda it: -sum(minutes[it, kind] for kind in KINDS)):
        row = [f"{minutes[crate, kind]:.1f}" for kind in KINDS]
        print(f"| `{crate}` | {' | '.join(row)} | {peaks[crate] / 1e6:.1f} GB |")
    print(f"\n{(time.time() - began) / 60:.1f} minutes; {sum(minutes.values()):.0f} processor minutes; {last}")
    return status


if __name__ == "__main__":
    sys.exit(main(words_of(__doc__, 0, 2, ["--anew"])))
