#!/usr/bin/env python3
"""Tries `compare` over two pieces of evidence: compare_rows.py PROGRAM

Builds of README's small example and of plans that are made at random, each as a folder and as an archive. Builds that are the same
say so; where one action came to something else, its step is named, with the first path at which its outputs differ: for 200 random
pairs of builds too. A verdict that isn't yes is told of the evidence that has it; plans and sources that differ are told; evidence
of stages, and what is no evidence, is refused. It prints a line for each row, and ends with status 1 where one failed. Nothing
outside this machine is asked.
"""

import random
import sys
import tempfile

from archive_vectors import END
from evidence_forms import (
    CLAIM, GEN, GEN_COMMAND, GEN_FRAME, LINE, NINE, RIGHT, STAGES, USE_COMMAND, USE_FRAME, archive_of, blob_at, changed, digest,
    result_at, write_folder,
)
from shared import harness, stores
from shared.command_line import fail, program_at, words_of
from shared.messages import EMPTY, Digest, File, Link, action_message, command_message, directory_message, result_message, tree_message
from shared.rows import Rows

# How many pairs of builds are made at random.
PAIRS = 200
OTHER = File(Digest.of(b"other"), False)


def build_of(made, used):
    """Evidence of README's plan, where its first step made this in a directory, and its second step this."""
    tree, data = tree_message({"a": made}), directory_message({"x": made})
    given = directory_message({"data": Digest.of(data)})
    use = action_message(Digest.of(USE_COMMAND), Digest.of(given))
    record = f"buildrecord 1\nstep gen {digest(GEN)}\nstep use {digest(use)}\n".encode()
    return {
        "sources": RIGHT["sources"], "claim": digest(directory_message({"result": used})).encode(), "plan": RIGHT["plan"], "record": record,
        **{blob_at(it): it for it in (tree, GEN_COMMAND, USE_COMMAND, data, given, GEN, use)},
        result_at(GEN): result_message({"out": Digest.of(tree)}), result_at(use): result_message({"res": used}),
    }, digest(use)


class RandomBuild:
    """Steps that read what earlier ones made, of which some come to something else."""

    def __init__(self, chance):
        count = chance.randrange(2, 9)
        self.commands = [command_message([f"/bin/step{it}"], ["o", "p"]) for it in range(count)]
        self.reads = [sorted(chance.sample(range(it), chance.randrange(min(it, 3) + 1))) for it in range(count)]

    def plan(self):
        steps = []
        for number, (command, reads) in enumerate(zip(self.commands, self.reads)):
            steps.append(f"step s{number} {digest(action_message(Digest.of(command)))}\n")
            steps += [f"in d{it} out s{it} o\n" for it in reads]
        return "".join(["buildplan 1\n", *steps, "root\n", *(f"in r{it} out s{it} o\n" for it in range(len(self.commands)))]).encode()

    def evidence(self, salts):
        """Evidence of a run in which steps came to what their salts say, and what their actions do."""
        files, made, actions = {"sources": RIGHT["sources"], "plan": self.plan()}, [], []
        for number, (command, reads) in enumerate(zip(self.commands, self.reads)):
            given = directory_message({f"d{it}": made[it] for it in reads})
            action = action_message(Digest.of(command), Digest.of(given))
            outputs = {"o": File(Digest.of(action + salts[number].encode()), False), "p": OTHER}
            made.append(outputs["o"])
            actions.append(digest(action))
            files.update({blob_at(it): it for it in (command, given, action)})
            files[result_at(action)] = result_message(outputs)
        files["record"] = "".join(["buildrecord 1\n", *(f"step s{it} {of}\n" for it, of in enumerate(actions))]).encode()
        files["claim"] = digest(directory_message({f"r{it}": of for it, of in enumerate(made)})).encode()
        return files, actions


class Compared:
    """The program in a folder of its own, and the rows that tell what it said of two pieces of evidence there."""

    def __init__(self, program, place, rows):
        self.program, self.place, self.rows = program, place, rows

    def folder(self, name, files):
        return write_folder(f"{self.place}/{name}", files)

    def archive(self, name, files):
        stores.write_file(f"{self.place}/{name}.tar", archive_of(files))
        return f"{self.place}/{name}.tar"

    def compare(self, *words):
        return harness.run(self.program, "compare", *words)

    def expect(self, name, told, out, status, named=""):
        right = (told.stdout, told.returncode) == (out.encode(), status) and harness.is_told(told.stderr, status)
        named = f'error: "{named}' if named else ""
        self.rows.tell(f"{name}: status {status}", right and told.stderr.startswith(named.encode()), told)

    def expect_all(self, name, one, other, out, status):
        """Told so of both as folders, as archives, and of one as each."""
        folders = self.folder("one", one), self.folder("other", other)
        archives = self.archive("one", one), self.archive("other", other)
        self.expect(f"{name}, in folders", self.compare(*folders), out, status)
        self.expect(f"{name}, in archives", self.compare(*archives), out, status)
        self.expect(f"{name}, in a folder and an archive", self.compare(folders[0], archives[1]), out, status)
        self.expect(f"{name}, in an archive and a folder", self.compare(archives[0], folders[1]), out, status)


def try_example(tried):
    """README's example, with each of its steps changed."""
    nine, line = File(Digest.of(NINE), False), File(Digest.of(LINE), False)
    right, use = build_of(nine, line)
    tried.rows.tell("the example is README's", right == {**RIGHT, "claim": right["claim"]} and right["claim"] == RIGHT["claim"], right)
    tried.expect_all("the same twice", right, right, f"same {CLAIM} steps 2\n", 0)
    made = f"differ step gen action {digest(GEN)} out\n"
    tried.expect_all("another tree of the first step", right, build_of(OTHER, line)[0], made, 1)
    tried.expect_all("the other way round", build_of(OTHER, line)[0], right, made, 1)
    used = f"differ step use action {use} res\n"
    for name, other in (("file", OTHER), ("bit", File(Digest.of(LINE))), ("link", Link("to"))):
        tried.expect_all(f"another {name} of the second step", right, build_of(nine, other)[0], used, 1)
    tried.expect_all("both steps", right, build_of(OTHER, OTHER)[0], made, 1)
    unread = {result_at(GEN): result_message({"out": Digest.of(tree_message({"a": nine, "b": line}))}),
              blob_at(tree_message({"a": nine, "b": line})): tree_message({"a": nine, "b": line})}
    tried.expect_all("a file that nobody reads", right, changed(unread, right), made, 1)


def try_refused(tried):
    right, use = build_of(File(Digest.of(NINE), False), File(Digest.of(LINE), False))
    missing = f"no step use cause blob-missing {use}\n"
    lacking = changed({f"store/cas/{use[:64]}": None}, right)
    tried.expect_all("a no of the first", lacking, right, f"first {missing}", 1)
    tried.expect_all("a no of the second", right, lacking, f"second {missing}", 1)
    other_claim = changed({"claim": EMPTY.text().encode()}, right)
    tried.expect_all("a no of both", other_claim, lacking, f"first no root cause root-differs {CLAIM}\n", 1)
    more = {"result": File(Digest.of(LINE), False), "z": Digest.of(directory_message({"a": File(Digest.of(NINE), False)}))}
    last = b"in result out use res\n"
    longer = {"plan": right["plan"].replace(last, last + b"in z out gen out\n"), "claim": digest(directory_message(more)).encode()}
    tried.expect_all("another plan", right, changed(longer, right), "differ plan line 7\n", 1)
    version = changed({"plan": right["plan"].replace(b"buildplan 1", b"buildplan 2")}, right)
    tried.expect_all("another version of the plan", version, right, "differ plan line 1\n", 1)
    data = digest(directory_message({"x": File(Digest.of(NINE), False)}))
    tried.expect_all("other sources", right, changed({"sources": data.encode()}, right), f"differ sources {EMPTY.text()} {data}\n", 1)
    stages = tried.folder("stages", STAGES)
    folder = tried.folder("one", right)
    for name, words in (("the first", (stages, folder)), ("the second", (folder, stages))):
        told = tried.compare(*words)
        right_words = told.stderr == f"error: {stages}: a build in stages cannot be compared\n".encode()
        tried.rows.tell(f"stages of {name}: status 2", (told.returncode, told.stdout) == (2, b"") and right_words, told)
    none = f"{tried.place}/none"
    tried.expect("no first evidence", tried.compare(none, folder), "", 3, none)
    tried.expect("no second evidence", tried.compare(folder, none), "", 3, none)
    tried.expect("no evidence at all", tried.compare(none, f"{none} at all"), "", 3, f'{none}"')
    bad = tried.folder("other", changed({"plan": b""}, right))
    tried.expect("a plan at fault", tried.compare(folder, bad), "", 2, f'{bad}/plan": line 1: ')
    stores.write_file(f"{tried.place}/cut.tar", archive_of(right)[: -len(END)])
    tried.expect("an archive that is cut off", tried.compare(folder, f"{tried.place}/cut.tar"), "", 2, f"{tried.place}/cut.tar")


def try_random(tried):
    """In each pair of builds some steps came to something else, once or in turn."""
    wrong = None
    for number in range(PAIRS // harness.SLOWNESS):
        chance = random.Random(number)
        build = RandomBuild(chance)
        salts = [""] * len(build.commands)
        first, actions = build.evidence(salts)
        for step in chance.sample(range(len(salts)), chance.randrange(1, len(salts) + 1)):
            salts[step] = "again"
        least = salts.index("again")
        second, _ = build.evidence(salts)
        told = tried.compare(tried.archive("one", first), tried.folder("other", second))
        expected = f"differ step s{least} action {actions[least]} o\n"
        same = tried.compare(tried.folder("again", first), tried.archive("one", first))
        right = f"same {first['claim'].decode()} steps {len(salts)}\n"
        seen = told.stdout, told.returncode, same.stdout, same.returncode
        if seen != (expected.encode(), 1, right.encode(), 0):
            wrong = wrong or (number, told, expected, same, right)
    tried.rows.tell("random pairs of builds: the step that came to something else is named", not wrong, wrong)


def try_all(rows, program):
    with tempfile.TemporaryDirectory() as place:
        tried = Compared(program, place, rows)
        for part in (try_example, try_refused, try_random):
            part(tried)


def main():
    named = words_of(__doc__, 1, 1, [])
    if len(named) != 1:
        fail(2, "one program is named; see --help")
    rows = Rows()
    try_all(rows, program_at(named[0]))
    sys.exit(rows.end())


if __name__ == "__main__":
    main()
