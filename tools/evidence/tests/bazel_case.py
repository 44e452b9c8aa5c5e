"""What the tests of bazel_plan.py share: logs of small spawns, and the tool on them. What is made is also judged by the
program `buildcache`, where it is built or BUILDCACHE names it; a test that would have it judged and can't is told as skipped."""

import contextlib
import io
import os
import shutil
import subprocess
import tempfile
import unittest

import bazel_plan
from shared.harness import PROGRAM
from tests.spawns import spawn

HERE = os.path.dirname(os.path.realpath(__file__))


def kept_log(name):
    """A log of Bazel 4.2.3, cut down by trim_log.py."""
    with open(os.path.join(HERE, "data", name), encoding="utf-8") as it:
        return it.read()


class Case(unittest.TestCase):
    def setUp(self):
        self.folder = tempfile.mkdtemp()
        self.addCleanup(shutil.rmtree, self.folder)
        self.is_unjudged = False

    def tearDown(self):
        if self.is_unjudged:
            self.skipTest("the program isn't built: all else holds, but what was made isn't judged by it")

    def at(self, *names):
        return os.path.join(self.folder, *names)

    def call(self, text, *words):
        """Status, standard output and standard error of the tool on a log."""
        with open(self.at("log"), "w", encoding="utf-8") as out:
            out.write(text)
        out, err = io.StringIO(), io.StringIO()
        with contextlib.redirect_stdout(out), contextlib.redirect_stderr(err):
            status = bazel_plan.main([self.at("log"), self.at("asked"), *words])
        return status, out.getvalue(), err.getvalue()

    def lines(self, name):
        with open(self.at("asked", name), encoding="utf-8") as it:
            return it.read().splitlines()

    def turn(self, text, *words, notes=()):
        """The plan's lines; standard error has lines of notes that begin so, and nothing else."""
        status, _, err = self.call(text, *words)
        self.assertEqual(status, 0, err)
        told = err.splitlines()
        self.assertEqual([line[:len(it) + 6] for line, it in zip(told, notes)], [f"note: {it}" for it in notes])
        self.assertEqual(len(told), len(notes), err)
        return self.lines("plan")

    def ship(self, files):
        """Writes files of the folder `shipped`, each with its bits to be run."""
        for path, content in files.items():
            place = self.at("shipped", path)
            os.makedirs(os.path.dirname(place), exist_ok=True)
            with open(place, "w", encoding="utf-8") as out:
                out.write(content)
            os.chmod(place, 0o755)

    def refuse(self, reason, text, *words):
        status, out, err = self.call(text, *words)
        self.assertEqual((status, out), (2, ""))
        self.assertEqual(err.count("\n"), 1)
        self.assertTrue(err.startswith("error: "), err)
        self.assertIn(reason, err)
        self.assertEqual([it for it in contents(self.at("asked")) if not it.startswith("store/")], [])

    def judge(self, line, end=""):
        """What `verify` says begins and ends so."""
        if not os.path.exists(PROGRAM):
            self.is_unjudged = True
            return
        words = [PROGRAM, "verify", "--store", self.at("asked", "store"), "--sources", self.lines("sources")[0]]
        words += ["--plan", self.at("asked", "plan"), "--record", self.at("asked", "record")]
        done = subprocess.run([*words, "--claim", self.lines("claim")[0]], capture_output=True, text=True)
        self.assertTrue(done.stdout.startswith(line) and done.stdout.endswith(end), f"{done.stdout!r} {done.stderr!r}")
        self.assertEqual(done.returncode, 0 if line.startswith("yes") else 1)

    def stored(self, part, digest):
        with open(self.at("asked", "store", part, digest.partition("/")[0]), "rb") as it:
            return it.read()


def contents(folder):
    """What stands at each path of a folder."""
    found = {}
    for above, _, names in os.walk(folder):
        for path in (os.path.join(above, name) for name in names):
            with open(path, "rb") as it:
                found[os.path.relpath(path, folder)] = it.read()
    return found


# A step that makes a directory.
TREE_STEP = spawn({}, ["t"], {"t/x/1": "1", "t/x/2": "2", "t/y": "3"})

# Three steps one after another, and a fourth that reads what the first made.
CHAIN = (
    spawn({"s": "s"}, ["o/a"]),
    spawn({"o/a": "o/a", "t/x": "x"}, ["o/t"], {"o/t/b": "b", "o/t/c": "c"}),
    spawn({"o/t/b": "b"}, ["o/d"]),
    spawn({"o/a": "o/a", "o/d": "o/d"}, ["o/e"]),
)
