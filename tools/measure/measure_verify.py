#!/usr/bin/env python3
"""Measures the program `verify` on builds of growing size: prints the rows of tables in README.md beside this.

    ./measure_verify.py ../crates/buildcache/out/buildcache steps 1024 2048 4096
    ./measure_verify.py ../crates/buildcache/out/buildcache outputs 16384 32768 65536
    ./measure_verify.py ../crates/buildcache/out/buildcache sources 1024 2048 4096
    ./measure_verify.py ../crates/buildcache/out/buildcache meeting 16384 32768 65536

The builds of each number N:

`steps`: N steps, each of which reads 16 files of the step before it and makes a directory of 16 files.
`outputs`: one step that makes a directory of N files, and a root of N lines, one for each file.
`sources`: a source directory of N files, and a root of N lines, one for each file.
`meeting`: a root of N lines, of which half put a directory somewhere, and each other one a file into one of these;
`apart`: as many lines, whose files stand beside the directories, in a plan of version 1;
`repeated`: as many lines, of which half put a file into one directory, and then each other one puts that directory there;
`layers`: as many lines, each of which puts another directory of one file at one path.

Each build is written to a folder of its own, which is gone afterwards. It is run three times, and the least time
counts; beside each run `sha256sum` reads and hashes the files of the store, and its least time is told too. The
messages are encoded here as protobuf does, and by nothing of this repository.
"""

import os
import subprocess
import sys
import tempfile
import time

from shared import stores
from shared.command_line import fail, numbers_of, program_at, words_of
from shared.harness import WATCH
from shared.messages import EMPTY, Digest, File, action_message, command_message, directory_message, result_message, tree_message

class Build:
    """A store folder, and the texts of a plan and a record."""

    def __init__(self, folder):
        self.folder = folder
        self.store = stores.FolderStore(os.path.join(folder, "store"))
        self.plan = ["buildplan 1"]
        self.record = ["buildrecord 1"]
        self.hashed = 0

    def keep(self, blob):
        named = Digest.of(blob)
        self.hashed += len(blob)
        self.store.put("cas", named.hash, blob)
        return named

    def step(self, name, lines, input_root, files):
        """A step that makes a directory `out` with these files."""
        command = self.keep(command_message(["/bin/true", name], ["out"]))
        frame = action_message(command)
        action = self.keep(action_message(command, input_root))
        result = result_message({"out": self.keep(tree_message(files))})
        self.hashed += len(result) + len(frame)
        self.store.put("ac", action.hash, result)
        self.plan += [f"step {name} {Digest.of(frame).text()}", *lines]
        self.record.append(f"step {name} {action.text()}")

    def run(self, program, sources, claim):
        """The least seconds of three runs, the greatest memory in KiB, and the least seconds of sha256sum beside."""
        for name in ("plan", "record"):
            with open(os.path.join(self.folder, name), "w") as out:
                out.write("\n".join(getattr(self, name)) + "\n")
        words = [program, "verify", "--store", "store", "--sources", sources.text(), "--plan", "plan"]
        words += ["--record", "record", "--claim", claim.text()]
        least, memory, beside = None, 0, None
        for _ in range(3):
            hashed = self.sha256sum()
            beside = hashed if beside is None else min(beside, hashed)
            watched = [sys.executable, "-ISc", WATCH, *words]
            ran = subprocess.run(watched, cwd=self.folder, capture_output=True, text=True)
            seconds, status, used = ran.stderr.splitlines()[-1].split()
            if status != "0":
                sys.exit(f"not a yes: {ran.stdout!r}")
            least = float(seconds) if least is None else min(least, float(seconds))
            memory = max(memory, int(used))
        return least, memory, beside

    def sha256sum(self):
        """The seconds that sha256sum takes for the files of the store."""
        start = time.monotonic()
        found = subprocess.Popen(["find", "store", "-type", "f", "-print0"], cwd=self.folder, stdout=subprocess.PIPE)
        subprocess.run(
            ["xargs", "-0", "sha256sum"], cwd=self.folder, stdin=found.stdout, stdout=subprocess.DEVNULL, check=True
        )
        found.wait()
        return time.monotonic() - start


def contents(count, salt):
    """So many names in order, each with a content of its own."""
    return {f"f{index:05}": File(Digest.of(f"{salt} {index}".encode()), is_executable=False) for index in range(count)}


def steps(build, count):
    before = {}
    for index in range(count):
        name = f"s{index:04}"
        lines = [f"in data/{file} out s{index - 1:04} out/{file}" for file in before]
        root = directory_message({"data": before} if before else {})
        before = contents(16, name)
        build.step(name, lines, Digest.of(root), before)
    build.plan += ["root", f"in out out {name} out"]
    return EMPTY, Digest.of(directory_message({"out": before}))


def outputs(build, count):
    files = contents(count, "made")
    build.step("make", [], EMPTY, files)
    build.plan += ["root"] + [f"in {name} out make out/{name}" for name in files]
    return EMPTY, Digest.of(directory_message(files))


def sources(build, count):
    files = contents(count, "source")
    root = build.keep(directory_message(files))
    build.plan += ["root"] + [f"in {name} src {name}" for name in files]
    return root, root


def lines_beside(build, count, version):
    """Half of the lines have a directory of one file, and each other one a file: in version 2 within that directory."""
    files = contents(2, "source")
    below = {"f00000": files["f00000"]}
    root = build.keep(directory_message({"d": build.keep(directory_message(below)), **files}))
    build.plan = [f"buildplan {version}", "root"]
    made = {}
    for index in range(count // 2):
        name, other = f"d{index:05}", f"{'d' if version == 2 else 'e'}{index:05}"
        build.plan += [f"in {name} src d", f"in {other}/f00001 src f00001"]
        made.setdefault(name, {}).update(below)
        made.setdefault(other, {})["f00001"] = files["f00001"]
    return root, Digest.of(directory_message(made))


def meeting(build, count):
    return lines_beside(build, count, 2)


def apart(build, count):
    return lines_beside(build, count, 1)


def repeated(build, count):
    files = contents(2, "source")
    below = {"f00000": files["f00000"]}
    root = build.keep(directory_message({"d": build.keep(directory_message(below)), "f00001": files["f00001"]}))
    names = [f"g{index:05}" for index in range(count // 2)]
    build.plan = ["buildplan 2", "root", *(f"in d/{name} src f00001" for name in names), *["in d src d"] * len(names)]
    made = directory_message({**below, **dict.fromkeys(names, files["f00001"])})
    return root, Digest.of(directory_message({"d": Digest.of(made)}))


def layers(build, count):
    files = contents(count, "source")
    layer = {name: build.keep(directory_message({name: file})) for name, file in files.items()}
    root = build.keep(directory_message(layer))
    build.plan = ["buildplan 2", "root", *(f"in d src {name}" for name in layer)]
    return root, Digest.of(directory_message({"d": Digest.of(directory_message(files))}))


KINDS = {
    "steps": steps,
    "outputs": outputs,
    "sources": sources,
    "meeting": meeting,
    "apart": apart,
    "repeated": repeated,
    "layers": layers,
}


def main():
    program, kind, *counts = words_of(__doc__, 3)
    if kind not in KINDS:
        fail(2, f"{kind!r} is none of {', '.join(KINDS)}")
    program = program_at(program)
    for count in numbers_of(counts):
        with tempfile.TemporaryDirectory() as folder:
            build = Build(folder)
            named, claim = KINDS[kind](build, count)
            seconds, memory, beside = build.run(program, named, claim)
            kept = f"{memory // 1024} MB | {build.hashed // 1024:,} KiB"
            print(f"| {count:,} | {seconds:.2f} s | {kept} | {beside:.2f} s |", flush=True)


if __name__ == "__main__":
    main()
