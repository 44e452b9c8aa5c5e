"""Tests of end_to_end.py --preview, over a preview that only says whether it was compiled: what is tried over it, and that
a report of its address sanitizer fails where each row is right."""

import contextlib
import io
import os
import subprocess
import tempfile
import unittest
import unittest.mock

import end_to_end
from shared import previews
from shared.rows import Rows


# What stands in for a part in a process of its own: it notes which part it is, over which program, and how much longer rows may take.
PART = """
import os, sys
_, _, name, program = sys.argv
folder = os.path.dirname(program)
with open(f"{folder}/begun", "a", encoding="utf-8") as it:
    print(name, os.path.basename(program), os.environ["BUILDCACHE_SLOWNESS"], os.environ["BUILDCACHE_UNPROVED"], file=it)
"""
RIGHT = 'print("1 passed, 0 failed")'
WRONG = 'print("FAILED a row")\nprint("0 passed, 1 failed")\nsys.exit(1)'


def report(text):
    """A report of the sanitizer, where its options say."""
    return f"""
options = dict(it.split("=") for it in os.environ["ASAN_OPTIONS"].split(":"))
with open(options["log_path"] + ".1", "w", encoding="utf-8") as it:
    it.write({text!r})
"""


class Preview(unittest.TestCase):
    def setUp(self):
        # (these tests may run among the rows over a real preview)
        place = unittest.mock.patch.dict(os.environ)
        place.start()
        self.addCleanup(place.stop)

    def try_preview(self, status, part, mark=previews.MARKS[0], lanes=(0,)):
        """The parts that were begun, what was printed, and how many rows passed and failed."""
        rows, printed = Rows(), io.StringIO()
        with tempfile.TemporaryDirectory() as tools, contextlib.redirect_stdout(printed):
            with open(f"{tools}/preview.sh", "w", encoding="utf-8") as it:
                it.write(f"#!/bin/sh\nexit {status}\n")
            with open(f"{tools}/part.py", "w", encoding="utf-8") as script:
                script.write(PART + part)
            with open(f"{tools}/buildcache", "wb") as program:
                program.write(mark)
            for name in (it.name, program.name):
                os.chmod(name, 0o755)
            parts = dict.fromkeys(("a server", "words", "faults", "Bazel"))
            changes = {"TOOLS": tools, "PREVIEW": program.name, "PARTS": parts, "PART": script.name}
            with unittest.mock.patch.multiple(end_to_end, **changes), \
                    unittest.mock.patch("os.sched_getaffinity", return_value=set(lanes)):
                end_to_end.try_preview(rows)
            begun = []
            with contextlib.suppress(FileNotFoundError), open(f"{tools}/begun", encoding="utf-8") as it:
                begun = it.read().splitlines()
        return begun, printed.getvalue(), (rows.passed, rows.failed)

    def test_what_is_tried_over_it(self):
        begun, printed, counts = self.try_preview(0, RIGHT)
        self.assertEqual((begun, counts), (["words buildcache 8 rows", "a server buildcache 8 rows"], (4, 0)))
        self.assertIn("left out over the preview: faults, Bazel", printed)
        begun, _, counts = self.try_preview(0, RIGHT, lanes=(0, 1))
        self.assertEqual((sorted(begun), counts), (["a server buildcache 8 rows", "words buildcache 8 rows"], (4, 0)))

    def test_a_report_fails_though_each_row_is_right(self):
        _, printed, counts = self.try_preview(0, report("==1==ERROR: LeakSanitizer: detected memory leaks\n") + RIGHT)
        self.assertEqual(counts, (3, 1))
        self.assertIn("FAILED words: memory: ==1==ERROR: LeakSanitizer: detected memory leaks", printed)
        _, printed, counts = self.try_preview(0, report("something else\n") + RIGHT)
        self.assertEqual(counts, (3, 1))

    def test_a_row_that_is_wrong_fails_and_no_further_part_begins(self):
        begun, printed, counts = self.try_preview(0, WRONG)
        self.assertEqual((begun, counts), (["words buildcache 8 rows"], (2, 1)))
        self.assertIn("FAILED a row", printed)
        self.assertIn("left out after what is wrong: a server", printed)

    def test_a_part_that_ends_otherwise_fails(self):
        for part in ("", 'print("1 passed, 0 failed")\nsys.exit(1)', 'print("0 passed, 1 failed")', "os.kill(os.getpid(), 9)"):
            _, printed, counts = self.try_preview(0, part)
            self.assertGreater(counts[1], 0, part)
            self.assertIn("FAILED words: status ", printed)

    def test_its_yes_is_refused_but_for_the_rows(self):
        os.environ[previews.VARIABLE] = "rows"
        begun, printed, counts = self.try_preview(0, RIGHT, b"no mark", (0, 1))
        self.assertEqual((len(begun), counts), (2, (3, 1)))
        self.assertIn("FAILED the preview is known as a program of which nothing is proved: it isn't refused", printed)

    def test_nothing_is_tried_where_it_is_not_compiled(self):
        begun, _, counts = self.try_preview(3, RIGHT)
        self.assertEqual((begun, counts), ([], (0, 1)))


class One(unittest.TestCase):
    """A part alone, as a process of its own tries it."""

    def try_one(self, name):
        printed = io.StringIO()
        parts = {"words": lambda rows, program: rows.tell(program, True), "a server": lambda rows, program: 1 / 0}
        with contextlib.redirect_stdout(printed), unittest.mock.patch.object(end_to_end, "PARTS", parts):
            return end_to_end.try_one(name, "it"), printed.getvalue()

    def test_it_ends_with_its_counts(self):
        status, printed = self.try_one("words")
        self.assertEqual((status, printed.splitlines()[-1]), (0, "1 passed, 0 failed"))

    def test_what_it_raises_fails(self):
        status, printed = self.try_one("a server")
        self.assertEqual((status, printed.splitlines()[-1]), (1, "0 passed, 1 failed"))
        self.assertIn("FAILED a server: ZeroDivisionError", printed)


class Tests(unittest.TestCase):
    """What is told of the tests of a package, by what unittest prints."""

    def tell(self, status, *lines, may_skip=False):
        rows, printed = Rows(), io.StringIO()
        with contextlib.redirect_stdout(printed):
            end_to_end.tell_tests(rows, "prover", subprocess.CompletedProcess([], status, "\n".join(lines)), may_skip)
        return rows.passed, rows.failed, printed.getvalue()

    def test_of_which_packages(self):
        ran = subprocess.CompletedProcess([], 0, "Ran 2 tests in 0.1s\n\nOK\n")
        with unittest.mock.patch("subprocess.run", return_value=ran) as run, contextlib.redirect_stdout(io.StringIO()):
            end_to_end.try_tests(rows := Rows(), "program")
        self.assertEqual([os.path.basename(it.args[0][-1]) for it in run.mock_calls], ["tests", "end_to_end", "evidence", "prover"])
        self.assertEqual({it.kwargs["env"]["BUILDCACHE"] for it in run.mock_calls}, {"program"})
        self.assertEqual((rows.passed, rows.failed), (8, 0))

    def test_all_passed(self):
        self.assertEqual(self.tell(0, "..", "Ran 2 tests in 0.1s", "", "OK"), (2, 0, ""))

    def test_some_failed(self):
        lines = "FAIL: test_a (tests.it.It)", "ERROR: test_b (tests.it.It)", "Ran 5 tests in 1s", "", "FAILED (failures=1, errors=1)"
        passed, failed, printed = self.tell(1, *lines)
        self.assertEqual((passed, failed), (3, 2))
        self.assertIn("FAILED test_a (tests.it.It): ", printed)

    def test_skipped_ones_fail_where_a_program_is_given(self):
        lines = "s.s", "Ran 3 tests in 0.1s", "", "OK (skipped=2)"
        self.assertEqual(self.tell(0, *lines, may_skip=True), (1, 0, ""))
        self.assertEqual(self.tell(0, *lines)[:2], (1, 1))

    def test_an_end_that_says_nothing_fails(self):
        for status, lines in ((1, ["no module"]), (0, []), (-9, ["Ran 2 tests in 0.1s"]), (5, ["Ran 0 tests in 0.0s", "", "NO TESTS RAN"])):
            self.assertEqual(self.tell(status, *lines)[1], 1, lines)
