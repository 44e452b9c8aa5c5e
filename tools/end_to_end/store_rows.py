#!/usr/bin/env python3
"""Tries builds over a store that isn't as a build left it: store_rows.py PROGRAM

A server that cuts each reply in turn, or changes a byte of it; one that has results which no build of the step would put; and
one that evicts during the build what was put. No build comes to another root, and each that doesn't come to its root says why
and leaves no record. A verdict by blobs of a server and results of a folder, where one of them lacks or has what the other
should have. It prints a line for each row, and ends with status 1 where one failed. Nothing outside this machine is asked.
"""

import collections
import contextlib
import os
import re

from server_streams import NINE, directory
from shared import harness, stores
from shared.builds import MADE, SHELL, record_of, try_each
from shared.harness import Between
from shared.messages import EMPTY, Digest, File, action_message, command_message, directory_message, result_message
from shared.rows import try_rows

# A file that is greater than all that a small plan puts beside it.
LARGE = NINE * 100


def rows_of_replies(builds):
    """Two steps, one of the other's output, over a server that holds nothing of them: each reply is cut in turn, and a byte
    of each body changed. No build comes to another root, and none that didn't come to its root has a record."""
    steps = [("one", [*SHELL, "printf %s 123456789 > out"], ["out"], ()), ("two", [*SHELL, "cat d/x > out"], ["out"], ["d/x out one out"])]
    lines = ["a out two out"]

    def through(change):
        builds.renew()
        plan = builds.plan(steps, lines)
        with Between(builds.server, change) as it:
            return *builds.build(plan, address=it.address), it.address

    bodies = []
    done, place, _ = through(lambda _number, _method, path, head, body: bodies.append((path, body)) or head + body)
    builds.expect("two steps through another server", done, place, f"built {MADE} steps 2\n", 0)
    rows_of_its_verify(builds, place)
    for number, (path, body) in enumerate(bodies):
        done, place, address = through(lambda it, _method, _path, head, body: (head + body)[: -1 if it == number else None])
        builds.expect(f"reply {number + 1} is cut by a byte", done, place, "", 3)
        builds.rows.tell("and the server is named", address.encode() in done.stderr, done.stderr)
        if body:
            done, place, _ = through(lambda it, _method, _path, head, body: head + (spoilt(body) if it == number else body))
            right = (done.returncode == 0) == os.path.exists(f"{place}/record") and done.returncode in (0, 1)
            right = right and (done.stdout.startswith(b"failed ") if done.returncode else done.stdout == f"built {MADE} steps 2\n".encode())
            right = right and (done.returncode == 1 or not path.startswith("/cas/"))
            builds.rows.tell(f"a byte of reply {number + 1} is changed: no other root", right, done)


def rows_of_its_verify(builds, place):
    """The `verify` of that build, whose replies are changed in turn: a blob that is wrong is named, and no result is believed."""
    words = ["--sources", EMPTY.text(), "--plan", f"{place}/plan", "--record", f"{place}/record", "--claim", MADE]

    def through(change):
        with Between(builds.server, change) as it:
            return builds.run("verify", "--server", it.address, *words)

    bodies = []
    told = through(lambda _number, _method, path, head, body: bodies.append((path, body)) or head + body)
    builds.rows.tell("its verify through another server", told.stdout == f"yes {MADE} steps 2\n".encode(), told)
    for number, (path, body) in enumerate(bodies):
        told = through(lambda it, _method, _path, head, body: head + (spoilt(body) if it == number else body))
        part, name = path.split("/")[1:]
        end = f" cause blob-wrong {name}/{len(body)}\n" if part == "cas" else "\n"
        right = told.returncode == 1 and told.stdout.startswith(b"no ") and told.stdout.endswith(end.encode())
        builds.rows.tell(f"a byte of its reply {number + 1} is changed: no", right, told)


class Parts:
    """A build of two steps, whose blobs are on the server, and whose results in a folder too."""

    def __init__(self, builds):
        builds.renew("--at-once", "4")
        steps = [("one", [*SHELL, "printf %s 123456789 > out"], ["out"], ()), ("two", [*SHELL, "cat d/x > out"], ["out"], ["d/x out one out"])]
        done, place = builds.build(builds.plan(steps, ["a out two out"]))
        builds.expect("two steps, for a verdict by parts", done, place, f"built {MADE} steps 2\n", 0)
        self.builds, self.place, self.folder = builds, place, f"{place}/evidence"
        self.actions = [line.split()[2] for line in record_of(place).decode().splitlines()[1:]]
        with contextlib.closing(self.server()) as it:
            for digest in self.actions:
                self.put("ac", digest, it.get("ac", hash_of(digest)))

    def server(self):
        return stores.ServerStore(self.builds.address, "")

    def put(self, part, digest, content):
        stores.FolderStore(self.folder).put(part, hash_of(digest), content)

    def put_all(self):
        """Every blob that the verdict is by, into the folder too."""
        asked = self.asked_for()
        with contextlib.closing(self.server()) as it:
            for path in asked:
                stores.FolderStore(self.folder).put("cas", path[5:], it.get("cas", path[5:]))
        return asked

    def verify(self, *results, address=None, record=None):
        words = ["--sources", EMPTY.text(), "--plan", f"{self.place}/plan", "--record", record or f"{self.place}/record", "--claim", MADE]
        return self.builds.run("verify", "--server", address or self.builds.address, *results, *words)

    def by_parts(self, folder=None, **named):
        return self.verify("--results", folder or self.folder, **named)

    def through(self, change, **named):
        """The verdict by parts through another server, and the paths that are asked of that."""
        paths = []

        def note(number, method, path, head, body):
            paths.append(f"{method} {path}"[4:] if method == "GET" else f"{method} {path}")
            return change(number, head, body)

        with Between(self.builds.server, note) as it:
            return self.by_parts(address=it.address, **named), paths, it.address

    def asked_for(self):
        return self.through(lambda _number, head, body: head + body)[1]

    def expect(self, name, told, out, status, note=b""):
        self.builds.rows.tell(name, (told.stdout, told.returncode, told.stderr) == (out.encode(), status, note), told)

    def expect_fault(self, name, told, text):
        right = (told.stdout, told.returncode) == (b"", 3) and harness.is_error(told.stderr) and text.encode() in told.stderr
        self.builds.rows.tell(name, right, told)


def hash_of(digest):
    return digest.partition("/")[0]


def rows_of_parts(builds):
    """`verify --server --results`: blobs of the server alone, and results of the folder alone."""
    yes, missing = f"yes {MADE} steps 2\n", "no step one cause result-missing\n"
    parts = Parts(builds)
    told, paths, _ = parts.through(lambda _number, head, body: head + body)
    parts.expect("blobs of a server and results of a folder: yes", told, yes, 0)
    builds.rows.tell("and the server is asked for blobs alone", paths and all(it.startswith("/cas/") for it in paths), paths)
    other = result_message({"out": File(Digest.of(NINE), False)}, 3)
    with contextlib.closing(parts.server()) as it:
        it.put("ac", hash_of(parts.actions[0]), other)
    parts.expect("a false result on the server: its own verdict believes it", parts.verify(), "no step one cause exit-code 3\n", 1)
    parts.expect("and that by the folder's results doesn't", parts.by_parts(), yes, 0)
    first = stores.read_file(f"{parts.folder}/ac/{hash_of(parts.actions[0])}")
    with contextlib.closing(parts.server()) as it:
        it.put("ac", hash_of(parts.actions[0]), first)
    parts.put("ac", parts.actions[0], other)
    parts.expect("a false result in the folder is believed, whatever the server has", parts.by_parts(), "no step one cause exit-code 3\n", 1)
    parts.put("ac", parts.actions[0], first)
    os.remove(f"{parts.folder}/ac/{hash_of(parts.actions[1])}")
    parts.expect("a result that the folder lacks and the server has", parts.by_parts(), "no step two cause result-missing\n", 1)
    nowhere = f"{parts.place}/nowhere"
    note = f'note: "{nowhere}": there is no such folder, so what is missing from it says nothing about the build\n'.encode()
    parts.expect("a folder of results that isn't there", parts.by_parts(nowhere), missing, 1, note)
    rows_of_lacking_blobs(Parts(builds))
    rows_of_faults_of_parts(Parts(builds))


def rows_of_lacking_blobs(parts):
    """A server that has no blob, beside a folder that has them all."""
    asked = parts.put_all()
    parts.expect("a folder that has the blobs too", parts.by_parts(), f"yes {MADE} steps 2\n", 0)
    words = ["--sources", EMPTY.text(), "--plan", f"{parts.place}/plan", "--record", f"{parts.place}/record", "--claim", MADE]
    told = parts.builds.run("verify", "--store", parts.folder, *words)
    parts.expect("and is a store by itself", told, f"yes {MADE} steps 2\n", 0)
    parts.builds.renew("--at-once", "4")
    size = os.path.getsize(f"{parts.folder}{asked[0]}")
    parts.expect("blobs that the server lacks and the folder has", parts.by_parts(), f"no step one cause blob-missing {asked[0][5:]}/{size}\n", 1)


def rows_of_faults_of_parts(parts):
    """The first fault is told: the record's, the connection's, and then of the requests and the files the one that comes first."""
    stores.write_file(f"{parts.place}/bad", b"buildrecord 2\n")
    told = parts.by_parts(address="127.0.0.1:1", record=f"{parts.place}/bad")
    right = (told.returncode, told.stdout) == (2, b"") and harness.is_error(told.stderr) and b"/bad" in told.stderr
    parts.builds.rows.tell("a record at fault, before a server that isn't there", right, told)
    result = f"{parts.folder}/ac/{hash_of(parts.actions[0])}"
    os.remove(result)
    os.mkdir(result)
    parts.expect_fault("a result that is a folder", parts.by_parts(), f'"{result}": not a file')
    parts.expect_fault("and no server: the server", parts.by_parts(address="127.0.0.1:1"), "127.0.0.1:1")
    before = len(parts.asked_for())
    for number in range(before + 1):
        told, paths, address = parts.through(lambda it, head, body: (head + body)[: -1 if it == number else None])
        name = f"reply {number + 1} is cut too: the server" if number < before else "a later reply is cut too: the result"
        parts.expect_fault(name, told, address if number < before else f'"{result}": not a file')


def spoilt(body):
    return body[:-1] + bytes([body[-1] ^ 1]) if body else body


def rows_of_results(builds):
    """Results in the store that no build of the step would put: the step runs, and its own result comes in their place. One
    that a build would put is taken, whatever the step would make."""
    words = [*SHELL, "printf %s 123456789 > out"]
    action = Digest.of(action_message(Digest.of(command_message(words, ["out"])), EMPTY)).hash
    nine, other = File(Digest.of(NINE), False), File(Digest.of(b"other"), False)
    for name, result in [
        ("an exit code", result_message({"out": nine}, 3)),
        ("an output that the command doesn't list", result_message({"out": nine, "p": nine})),
        ("a file that the store lacks", result_message({"out": other})),
        ("a Tree that the store lacks", result_message({"out": Digest.of(b"none")})),
        ("a Tree that is none", result_message({"out": Digest.of(NINE)})),
    ]:
        builds.renew("--at-once", "2")
        builds.put(NINE)
        plan = builds.one_step(words)
        with contextlib.closing(stores.ServerStore(builds.address, "")) as it:
            it.put("ac", action, result)
            done, place = builds.build(plan)
            builds.expect_built(f"the store's result has {name}", done, place, MADE)
            builds.rows.tell("and the step was run", os.listdir(f"{place}/work") == ["0"], os.listdir(f"{place}/work"))
            left = it.get("ac", action)
            builds.rows.tell("and its own result is there now", left == result_message({"out": nine}), left)
    for name, result, status, told in [
        ("in another spelling", result_message({"out": nine}) + b"\x4a\x02\x08\x01", 0, f"built {MADE} steps 1\n"),
        ("without the output", b"", 1, "failed root 106\n"),
        ("with another file", result_message({"out": File(Digest.of(b"put"), False)}), 0,
         f"built {Digest.of(directory('a', b'put')).text()} steps 1\n"),
    ]:
        builds.renew("--at-once", "2")
        builds.put(NINE)
        builds.put(b"put")
        plan = builds.one_step(words)
        with contextlib.closing(stores.ServerStore(builds.address, "")) as it:
            it.put("ac", action, result)
        done, place = builds.build(plan)
        builds.expect(f"the store's result {name} is taken", done, place, told, status)
        builds.ran_nothing(place)


def rows_of_limits(builds):
    """Builds over a server that evicts what they put: each comes to its root, or names a blob that the server lacks."""
    large, larger = (File(Digest.of(it), False) for it in (LARGE, LARGE + NINE))
    given = Digest.of(directory("a"))
    entries = {"l": large, "t": {"l": large, "m": larger}, "w": File(Digest.of(NINE * 2), False)}
    root = Digest.of(directory_message(entries)).text()

    def renewed(limit):
        """The plan, over a server of this limit, whose least recent blobs are the sources'."""
        builds.renew(limit=limit)
        builds.put(NINE)
        builds.put(directory("a"))
        return builds.plan([
            ("one", [*SHELL, "n=0; while [ $n -lt 100 ]; do printf 123456789; n=$((n+1)); done > out"], ["out"], ()),
            ("two", [*SHELL, "cat d/x d/x > out"], ["out"], ["d/x src a"]),
            ("three", [*SHELL, "mkdir out; cat d/x > out/l; cat d/x e/a > out/m"], ["out"], ["d/x out one out", "e src ."]),
        ], ["l out one out", "t out three out", "w out two out"])

    plan = renewed(1000000)
    done, place = builds.build(plan, given.text())
    builds.expect_built("a limit that holds all", done, place, root, 3, given.text())
    first = record_of(place)
    # What is held as the first step's file is put: what was given, and its action.
    held = sum(map(len, builds.given)) + len(action_message(Digest.of(builds.given[2]), EMPTY))
    for limit, end, lost in [
        (held + len(LARGE) - 1, "step two 42", Digest.of(NINE)),
        (held + len(LARGE) - len(NINE) - 1, "step two 107", given),
    ]:
        done, place = builds.build(renewed(limit), given.text())
        builds.expect(f"a limit by which {len(NINE) if lost != given else 'more'} bytes are evicted", done, place, f"failed {end}\n", 1)
        note = f"note: step two: blob {lost.text()} is missing\n".encode()
        builds.rows.tell("and the evicted blob is noted", done.stderr == note, done.stderr)
    done, place = builds.build(renewed(len(LARGE) - 1), given.text())
    builds.expect("a limit that a file exceeds", done, place, "", 3)
    try_limits(builds, renewed, range(len(LARGE), held + 5 * len(LARGE), 150), given, root, first)
    builds.renew()


def try_limits(builds, renewed, limits, given, root, first):
    """The same at many limits, twice each."""
    ends = collections.Counter()
    for limit in limits:
        plan = renewed(limit)
        for turn in ("first", "second"):
            done, place = builds.build(plan, given.text())
            wrong = wrong_at_limit(builds, done, place, root, first, ends)
            builds.rows.tell(f"limit {limit}, the {turn} build: it is right, or names what is evicted", wrong is None, wrong)
    builds.rows.tell("such builds end in each way", all(ends[it] for it in ("yes", "no", "got", "missing", "failed")), ends)


def wrong_at_limit(builds, done, place, root, record, ends):
    """What is wrong with a build of three steps at a small limit, its `verify` and its `get --into`, or nothing."""
    sources = Digest.of(directory("a")).text()

    def named(told, pattern):
        """Whether these are lines that name a blob, or the action of a result, that the server lacks."""
        found = re.fullmatch(pattern, told.decode())
        with contextlib.closing(stores.ServerStore(builds.address, "")) as it:
            return found and it.get("cas", found[1]) is None

    if done.returncode:
        ends["failed"] += 1
        right = re.fullmatch(rb"failed step (one|two|three) (42|107)\n", done.stdout) and not os.path.exists(f"{place}/record")
        return None if right and named(done.stderr, r"note: step \w+: blob ([0-9a-f]{64})/\d+ is missing\n") else done
    if done.stdout != f"built {root} steps 3\n".encode() or done.stderr or record_of(place) != record:
        return done
    told = builds.run("verify", "--server", builds.address, "--plan", f"{place}/plan", "--record", f"{place}/record", "--claim", root,
                      "--sources", sources)
    ends["no" if told.returncode else "yes"] += 1
    if told.returncode:
        right = re.fullmatch(rb"no step \w+ cause result-missing\n", told.stdout)
        right = right or named(told.stdout, r"no (?:root|step \w+) cause blob-missing ([0-9a-f]{64})/\d+\n")
        if told.returncode != 1 or not right:
            return told
    elif told.stdout != f"yes {root} steps 3\n".encode():
        return told
    told = builds.run("get", "--server", builds.address, "--into", f"{place}/got", root)
    ends["missing" if told.returncode else "got"] += 1
    if told.returncode:
        return None if told.returncode == 1 and named(told.stdout, r"missing ([0-9a-f]{64})/\d+\n") else told
    made = {"l": (LARGE, False), "t": None, "t/l": (LARGE, False), "t/m": (LARGE + NINE, False), "w": (NINE * 2, False)}
    return None if harness.standing_at(f"{place}/got") == made else told


def try_all(rows, program):
    try_each(rows, program, [rows_of_replies, rows_of_results, rows_of_parts, rows_of_limits])


if __name__ == "__main__":
    try_rows(__doc__, try_all)
