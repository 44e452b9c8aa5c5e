#!/usr/bin/env python3
"""Tries the program with refused memory and failing system calls: fault_rows.py PROGRAM

The program is started with a small library (faults.c) that has one thing fail: the Nth request for memory, that request and
all after it, or the Nth system call, with an error of that call or as interrupted. Small runs of each command are tried so
for every N from 1 on until nothing fails any more. Each has to end soon, by itself, with its right answer, or with
status 3, one line of an error and at most a part of it; a build that failed leaves no record, and is built when asked again. A
server has to send no answer but the right ones; where one thing fails it ends at most a connection, and serves the next; and of
a number of connections it has to count, and to log, each that it accepted, also one that it lets go for lack of memory. It
prints a line for each command and kind of fault with how many there were, and ends with status 1 where one wasn't told. Without
a C compiler a line says that nothing was tried. Nothing outside this machine is asked.
"""

import concurrent.futures
import os
import re
import select
import shutil
import socket
import subprocess
import tempfile
import time
from typing import NamedTuple

import server_rows
from evidence_forms import archive_of, blob_at, result_at, write_folder
from server_streams import ABSENT, BAD, DIGITS, DONE, FEED, NINE, RESULT, TREE, TREE_HASH, found
from shared import harness, stores
from shared.harness import get, put
from shared.messages import EMPTY, Digest, File, action_message, command_message, directory_message, result_message, tree_message
from shared.rows import try_rows

TOOLS = os.path.dirname(os.path.realpath(__file__))
KINDS = {
    "memory": "each request for memory is refused in turn",
    "memory-from": "each request for memory, and all after it",
    "call": "each call of the system fails in turn",
    "interruption": "each call of the system is interrupted in turn",
}
WRITES = ("write", "__write")
# A blob that comes in several pieces.
LARGE = bytes(100_000)
# How long a run may take, in seconds, and how many faults of a kind it may have.
SECONDS = 20
MOST_FAULTS = 5000


def library(folder):
    """faults.c, compiled, or None where that can't be done here."""
    compiler = shutil.which(os.environ.get("CC", "cc"))
    if not compiler:
        return None
    compile_to = [compiler, "-O2", "-shared", "-fPIC", "-fno-builtin", "-o", f"{folder}/faults.so"]
    headers = subprocess.run([*compile_to, "-x", "c", "-"], input=b"#include <dlfcn.h>\n", capture_output=True, check=False)
    if headers.returncode:
        return None
    subprocess.run([*compile_to, f"{TOOLS}/faults.c"], check=True)
    return f"{folder}/faults.so"


class Fault(NamedTuple):
    """What is to fail in a run, and the file that tells what did."""
    kind: str
    number: int
    library: str
    told: str

    def environment(self):
        fault = {"FAULT": self.kind, "FAULT_AT": str(self.number), "FAULT_TOLD": self.told}
        return {**os.environ, "LD_PRELOAD": self.library, **fault}

    def failed(self):
        """The name of what failed, or None where nothing did."""
        return self.text().partition(",")[0] or None

    def is_before_connections(self):
        """Whether it failed before the program began to accept connections."""
        return "," not in self.text()

    def text(self):
        try:
            with open(self.told, encoding="ascii") as it:
                return it.read()
        except FileNotFoundError:
            return ""


def wrong_of(done, out, status, failed=None):
    """What is wrong with a run that has this output and this status where nothing fails, or None. (A line of an error is
    missing only where that is what couldn't be written.)"""
    if (done.stdout, done.returncode) == (out, status):
        is_unsaid = failed in WRITES and done.stderr == b""
        return None if harness.is_told(done.stderr, status) or is_unsaid else done
    is_part = out.startswith(done.stdout) and (done.stdout != out or not out)
    return None if done.returncode == 3 and is_part and harness.is_error(done.stderr) else done


# Commands.


class Commands:
    """The commands, over a server that no fault befalls, and files in a folder. Each answers what is wrong with a run of it
    under a fault, or None."""

    def __init__(self, program, folder, server):
        self.program, self.folder, self.server = program, folder, server
        self.store = stores.ServerStore(server.address, "")
        self.lay_out()

    def lay_out(self):
        """A folder to be put, a large blob, and a build of one step that reads its sources: its blobs in a store folder and in
        the server, and evidence of it in a folder and in an archive."""
        nine = File(Digest.of(NINE), is_executable=False)
        command = command_message(["/bin/true"], ["out"])
        sources, given = {"a": nine, "b": {"a": nine}}, {"in": {"a": nine}}
        blobs = [NINE, command, action_message(Digest.of(command)), tree_message({"a": nine})]
        blobs += [directory_message(it) for it in (sources, sources["b"], given, given["in"], {"made": {"a": nine}})]
        action = action_message(Digest.of(command), Digest.of(directory_message(given)))
        self.sources, self.claim = Digest.of(blobs[4]), Digest.of(blobs[-1]).text()
        result = result_message({"out": Digest.of(blobs[3])})
        for store in (stores.FolderStore(f"{self.folder}/store"), self.store):
            for blob in [*blobs, action, LARGE]:
                store.put("cas", Digest.of(blob).hash, blob)
            store.put("ac", Digest.of(action).hash, result)
        self.plan = plan_of(blobs[2], "in/a src b/a")
        self.record = record_of(action)
        digests = {"sources": self.sources.text().encode(), "claim": self.claim.encode()}
        texts = {**digests, "plan": self.plan, "record": self.record}
        evidence = {**texts, **{blob_at(it): it for it in (*blobs, action)}, result_at(action): result}
        write_folder(f"{self.folder}/evidence", evidence)
        stores.write_file(f"{self.folder}/archive", archive_of(evidence))
        staged = {f"1/{name}" if name in ("plan", "record") else name: it for name, it in evidence.items()}
        stores.write_file(f"{self.folder}/stages", archive_of({"stages": b"1\n", **staged}))
        stores.write_file(f"{self.folder}/plan", self.plan)
        stores.write_file(f"{self.folder}/record", self.record)
        os.makedirs(f"{self.folder}/tree/b")
        os.makedirs(f"{self.folder}/shipped/made")
        stores.write_file(f"{self.folder}/shipped/made/a", NINE)
        for name in ("a", "b/a"):
            stores.write_file(f"{self.folder}/tree/{name}", NINE)
        harness.run(self.program, "verify", f"{self.folder}/archive", "--keep", f"{self.folder}/whole")
        self.whole = stores.read_file(f"{self.folder}/whole")

    def run(self, fault, *words):
        return harness.run(self.program, *words, seconds=SECONDS, env=fault.environment())

    def verify(self, place, claim, out, status):
        words = ["verify", *place, "--sources", self.sources.text(), "--plan", f"{self.folder}/plan"]
        words += ["--record", f"{self.folder}/record"]
        return lambda fault: wrong_of(self.run(fault, *words, "--claim", claim), out, status)

    def asked(self, out, status, *words):
        return lambda fault: wrong_of(self.run(fault, *words), out, status, fault.failed())

    def tree(self, fault):
        """The source tree in a new folder: the whole with status 0, and else a part of it, with beginnings of its files."""
        into = f"{self.folder}/tree-{os.path.basename(fault.told)}-{fault.number}"
        words = ["get", "--server", self.server.address, "--into", into, self.sources.text()]
        wrong = wrong_of(done := self.run(fault, *words), b"", 0)
        whole, left = {"a": NINE, "b": None, "b/a": NINE}, {}
        for name, entry in harness.standing_at(into).items():
            left[name] = entry and entry[0]
        shutil.rmtree(into, ignore_errors=True)
        is_part = all(name in whole and (it is whole[name] or whole[name] and it is not None and whole[name].startswith(it))
                      for name, it in left.items())
        return wrong or (None if left == whole or is_part and done.returncode == 3 else (done, left))

    def build(self, fault):
        """A step that copies a folder of its sources. Each run has an action of its own, so that the step is run."""
        words = ["/bin/sh", "-c", "mkdir out; cat d/b/a > out/a", "sh", f"{fault.kind:12} {fault.number:6}"]
        command = command_message(words, ["out"])
        frame = action_message(Digest.of(command))
        store = stores.ServerStore(self.server.address, "")
        for blob in (command, frame):
            store.put("cas", Digest.of(blob).hash, blob)
        store.close()
        given = Digest.of(directory_message({"d": self.sources}))
        return self.built_twice(fault, plan_of(frame, "d src ."), record_of(action_message(Digest.of(command), given)))

    def built_twice(self, fault, plan, record):
        """What is wrong with a build under a fault, and again, where nothing fails."""
        place = f"{self.folder}/build-{os.path.basename(fault.told)}-{fault.number}"
        os.makedirs(place)
        stores.write_file(f"{place}/plan", plan)
        wrong = self.built(place, 1, record, fault) or self.built(place, 2, record)
        shutil.rmtree(place)
        return wrong

    def built(self, place, number, record, fault=None):
        """What is wrong with a build, under a fault or none. Its record is left where it ended in its root, and where only the
        line of that couldn't be written."""
        work, noted = f"{place}/work-{number}", f"{place}/record-{number}"
        os.makedirs(work)
        words = ["build", "--server", self.server.address, "--sources", self.sources.text(), "--plan", f"{place}/plan"]
        words += ["--record", noted, "--work", work]
        done = harness.run(self.program, *words, seconds=SECONDS, env=fault and fault.environment())
        wrong = wrong_of(done, f"built {self.claim} steps 1\n".encode(), 0)
        left = stores.read_file(noted) if os.path.exists(noted) else None
        is_unsaid = done.returncode == 3 and fault and fault.failed() in WRITES
        is_right = left == record if done.returncode == 0 else left is None or is_unsaid and left == record
        return wrong or (None if is_right and (fault or done.returncode == 0) else (done, left))

    def kept(self, fault):
        """What a verdict looks at, kept in a file: whole where the verdict is told, and where only its line couldn't be written."""
        path = f"{self.folder}/kept-{os.path.basename(fault.told)}-{fault.number}"
        words = ["verify", f"{self.folder}/archive", "--keep", path]
        wrong = wrong_of(done := self.run(fault, *words), f"yes {self.claim} steps 1\n".encode(), 0, fault.failed())
        left = stores.read_file(path) if os.path.exists(path) else None
        is_unsaid = done.returncode == 3 and fault.failed() in WRITES
        is_right = left == self.whole if done.returncode == 0 else left is None or is_unsaid and left == self.whole
        stores.forget(path)
        return wrong or (None if is_right else (done, left))

    def all(self):
        server, store = ["--server", self.server.address], ["--store", f"{self.folder}/store"]
        nine, large = Digest.of(NINE).text(), Digest.of(LARGE).text()
        yes, no = f"yes {self.claim} steps 1\n".encode(), f"no root cause root-differs {self.claim}\n".encode()
        evidence, archive = f"{self.folder}/evidence", f"{self.folder}/archive"
        return {
            "put of a file": self.asked(f"{nine}\n".encode(), 0, "put", *server, f"{self.folder}/tree/a"),
            "put of a folder": self.asked(f"{self.sources.text()}\n".encode(), 0, "put", *server, f"{self.folder}/tree"),
            "digest of a folder": self.asked(f"{self.sources.text()}\n".encode(), 0, "digest", f"{self.folder}/tree"),
            "get": self.asked(NINE, 0, "get", *server, nine),
            "get of many bytes": self.asked(LARGE, 0, "get", *server, large),
            "get of a blob that isn't there": self.asked(b"", 1, "get", *server, f"{FEED}/1"),
            "get of a tree": self.tree,
            "get of no digest": self.asked(b"", 2, "get", *server, "x"),
            "verify over a store: yes": self.verify(store, self.claim, yes, 0),
            "verify over a store: no": self.verify(store, EMPTY.text(), no, 1),
            "verify over a server": self.verify(server, self.claim, yes, 0),
            "verify over a folder of evidence": self.asked(yes, 0, "verify", evidence),
            "verify over an archive: yes": self.asked(yes, 0, "verify", archive),
            "verify over an archive: no": self.asked(no, 1, "verify", archive, "--claim", EMPTY.text()),
            "verify of a folder, over an archive": self.asked(yes, 0, "verify", archive, "--artifact", f"{self.folder}/shipped"),
            "verify over stages": self.asked(yes.replace(b"steps", b"stages 1 steps"), 0, "verify", f"{self.folder}/stages"),
            "verify over an archive, and it is kept": self.kept,
            "compare of a folder and an archive": self.asked(yes.replace(b"yes", b"same"), 0, "compare", evidence, archive),
            "compare of no archive": self.asked(b"", 2, "compare", archive, f"{self.folder}/plan"),
            "verify over no archive": self.asked(b"", 2, "verify", f"{self.folder}/plan"),
            "verify over an archive and a server": self.asked(yes, 0, "verify", archive, *server),
            "verify by results of a folder": self.verify([*server, "--results", f"{self.folder}/store"], self.claim, yes, 0),
            "build of a step whose result is held": lambda fault: self.built_twice(fault, self.plan, self.record),
            "build": self.build,
        }


def plan_of(frame, line):
    """A plan of one step, which has one line."""
    return f"buildplan 1\nstep mk {Digest.of(frame).text()}\nin {line}\nroot\nin made out mk out\n".encode()


def record_of(action):
    return f"buildrecord 1\nstep mk {Digest.of(action).text()}\n".encode()


# A server.

# What each connection asks, and all that it is answered, however often it was asked before.
KEY = "1" * 64
LARGE_PATH = f"/cas/{Digest.of(LARGE).hash}"
EXCHANGES = [
    (
        put(f"/cas/{DIGITS}", NINE) + get(f"/cas/{DIGITS}")
        + put(f"/cas/{TREE_HASH}", TREE) + put(f"/ac/{KEY}", RESULT) + get(f"/ac/{KEY}"),
        DONE + found(NINE) + DONE + DONE + found(RESULT),
    ),
    (put(f"/cas/{FEED}", NINE) + get(f"/cas/{FEED}") + put(f"/ac/{KEY}", b"\xff"), BAD + ABSENT + BAD),
    (put(LARGE_PATH, LARGE) + get(LARGE_PATH), DONE + found(LARGE)),
    (put(f"/pin/{KEY}", b"") + put(f"/unpin/{KEY}", b"") + get(f"/ac/{KEY}"), DONE + DONE + found(RESULT)),
]
# Four of which no answer rests on what another connection asked, which may have been lost.
APART = EXCHANGES[1:3] * 2


def exchange(port, requests):
    """All that a server answers on a connection of its own, or None where it doesn't end that."""
    answers = b""
    try:
        with socket.create_connection((harness.LOCAL, port), timeout=SECONDS) as it:
            it.sendall(requests)
            it.shutdown(socket.SHUT_WR)
            while piece := it.recv(65536):
                answers += piece
    except TimeoutError:
        return None
    except OSError:
        pass
    return answers


class Served:
    """The program's server under a fault. `port` is None where it ended, or was too late, before it listened."""

    def __init__(self, program, fault, more):
        words = ["serve", "--listen", f"{harness.LOCAL}:0", "--limit", "200000"]
        self.errors = tempfile.TemporaryFile()
        how = {"stdin": subprocess.DEVNULL, "stdout": subprocess.PIPE, "stderr": self.errors, "env": fault.environment()}
        self.process = subprocess.Popen([program, *words, "--result-limit", "1000", *more], **how)
        is_told = select.select([self.process.stdout], [], [], SECONDS)[0]
        self.said = os.read(self.process.stdout.fileno(), 100) if is_told else b""
        heard = re.fullmatch(rb"listening 127\.0\.0\.1:(\d+)\n", self.said)
        self.port = int(heard[1]) if heard else None

    def ended(self, seconds=0.0):
        """Its status where it ends by then, or None."""
        try:
            return self.process.wait(seconds)
        except subprocess.TimeoutExpired:
            return None

    def listens(self):
        """Whether it takes connections. (A process that ends closes the socket for them before those of its connections; one
        that is being made as it does is reset.)"""
        try:
            socket.create_connection((harness.LOCAL, self.port), timeout=SECONDS).close()
            return True
        except (ConnectionRefusedError, ConnectionResetError):
            return False

    def log(self):
        self.errors.seek(0)
        return self.errors.read()

    def told(self):
        """The last line of its errors."""
        return (self.log().splitlines(keepends=True) or [b""])[-1]

    def __enter__(self):
        return self

    def __exit__(self, *fault):
        self.process.kill()
        self.process.wait()
        self.process.stdout.close()
        self.errors.close()


def served(program, *more, judge=None):
    """What is wrong with a server under a fault, or None: where it listens as it is judged, by `wrong_answer` if nothing is said."""

    def wrong_with(fault):
        with Served(program, fault, more) as it:
            if it.port is None:
                status = it.ended(SECONDS)
                return None if status == 3 and harness.is_error(it.told()) else (it.said, status, it.told())
            return (judge or wrong_answer)(it, fault)

    return wrong_with


def wrong_end(server, fault):
    """What a server of a number of connections does wrong. Each that it accepted is one of them, also where it was let go at
    once: it ends after so many, and its log tells of each. It ends with status 3 as one without end does."""
    came = [(answers, exchange(server.port, requests)) for requests, answers in APART]
    status = server.ended(SECONDS)
    numbers = sorted(server_rows.numbers_logged(server.log().decode()))
    is_told = numbers == list(range(len(APART))) or fault.failed() in WRITES
    is_right = has_ended(server, fault) if status == 3 else status == 0 and is_told
    are_parts = all(it is not None and answers.startswith(it) for answers, it in came)
    return None if are_parts and is_right else (came, status, server.log())


def wrong_answer(server, fault):
    """What a server that listens does wrong. Where one thing fails, one connection may be ended: another that asks the same is
    answered whole. The server ends, with status 3, only where all is refused from some request on, where what failed was before
    connections were accepted, or where it can't wait for them."""
    is_spent = False
    for requests, answers in EXCHANGES:
        came = exchange(server.port, requests)
        if came != answers and came is not None and answers.startswith(came) and fault.failed() and not is_spent:
            is_spent = True
            came = exchange(server.port, requests)
        if came != answers:
            is_part = came is not None and answers.startswith(came)
            is_right = fault.kind == "memory-from" if server.listens() else has_ended(server, fault)
            return None if is_part and is_right else (requests, came, server.ended(), server.told())
    return None if server.listens() or has_ended(server, fault) else (server.ended(), server.told())


def has_ended(server, fault):
    """Whether a server that listens no more has ended as it may."""
    may_end = fault.kind == "memory-from" or fault.is_before_connections() or fault.failed() == "epoll_wait"
    return fault.failed() and may_end and server.ended(SECONDS) == 3 and harness.is_error(server.told())


# Every fault.


def faults_of(wrong_with, kind, made, name, folder):
    """How many faults of a kind a run has, and what was wrong with the first that wasn't told, or None."""
    for number in range(1, MOST_FAULTS):
        fault = Fault(kind, number, made, f"{folder}/told-{kind}-{re.sub('[^a-z]', '-', name)}")
        try:
            wrong = wrong_with(fault)
        except Exception as failure:  # (whatever it is, the other runs are tried)
            wrong = f"{type(failure).__name__}: {failure}"
        failed = fault.failed()
        if wrong is not None:
            return number - 1, f"number {number}, {failed or 'after which nothing failed'}: {str(wrong)[:600]}"
        if failed is None:
            return number - 1, None
        os.unlink(fault.told)
    return MOST_FAULTS, "there is no end of them"


def try_every(rows, made, program, folder, server):
    runs = Commands(program, folder, server).all()
    runs["serve"] = served(program)
    runs["serve --at-once 4"] = served(program, "--at-once", "4")
    counted = ("--connections", str(len(APART)))
    runs["serve of four connections"] = served(program, *counted, judge=wrong_end)
    runs["serve --at-once 4 of four connections"] = served(program, *counted, "--at-once", "4", judge=wrong_end)
    began = time.monotonic()
    with concurrent.futures.ThreadPoolExecutor(os.cpu_count()) as lanes:
        # (the longest ones first)
        asked = [(name, kind) for name in reversed(runs) for kind in KINDS]
        told = {it: lanes.submit(faults_of, runs[it[0]], it[1], made, it[0], folder) for it in asked}
    count = 0
    for name in runs:
        for kind, meaning in KINDS.items():
            faults, wrong = told[name, kind].result()
            count += faults
            rows.tell(f"{name}: {meaning}, {faults}", wrong is None and faults > 0, wrong or "none was refused")
    print(f"{count} faults in {time.monotonic() - began:.0f} s, in {os.cpu_count()} lanes", flush=True)


def try_all(rows, program):
    with tempfile.TemporaryDirectory() as folder:
        made = library(folder)
        if not made:
            print("no C compiler is installed: nothing is tried with refused memory and failing calls")
            return
        with harness.Server(program, None, 1 << 26, 1 << 26, ("--at-once", "64")) as server:
            try_every(rows, made, program, folder, server)


if __name__ == "__main__":
    try_rows(__doc__, try_all)
