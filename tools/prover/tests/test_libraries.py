"""Tests of libraries.py: which libraries it leaves before `rt ci`, and which it marks after it."""

import contextlib
import io
import os
import tempfile
import unittest
import unittest.mock

import libraries
import prover


class Libraries(unittest.TestCase):
    """Two libraries, of which one stands on the other, and a program."""

    def setUp(self):
        room = tempfile.TemporaryDirectory()
        self.addCleanup(room.cleanup)
        self.top = room.name
        self.keep("crates.txt", "low:\nhigh: low\nprogram: high\n")
        self.keep("crates/low/src/lib.rt", "pub fn least() -> u64 { 0 }\n")
        self.keep("crates/high/src/lib.rt", "pub fn most() -> u64 { 1 }\n")
        self.keep("crates/program/src/main.rt", "fn main() {}\n")
        os.mkdir(f"{self.top}/kit")

    def keep(self, path, text):
        os.makedirs(os.path.dirname(os.path.join(self.top, path)), exist_ok=True)
        with open(os.path.join(self.top, path), "w", encoding="utf-8") as it:
            it.write(text)

    def build(self, *crates, kind="statements"):
        """As `rt ci` leaves libraries."""
        for it in crates:
            self.keep(f"crates/{it}/out/rlib/{it}.rlib/format", kind)

    def workspace(self):
        with unittest.mock.patch.object(prover, "kit", lambda: f"{self.top}/kit"):
            return prover.Workspace(self.top)

    def call(self, *words):
        """What the tool prints, or the status with which it fails."""
        workspace = self.workspace()
        with contextlib.redirect_stdout(io.StringIO()) as said, contextlib.redirect_stderr(io.StringIO()), \
                unittest.mock.patch.object(libraries, "Workspace", lambda: workspace):
            try:
                libraries.main(list(words))
            except SystemExit as ended:
                return ended.code
        return said.getvalue().strip()

    def left(self):
        return [it for it in ("low", "high") if os.path.isdir(f"{self.top}/crates/{it}/out/rlib")]

    def built(self):
        return [it for it in ("low", "high") if self.workspace().is_built(it)]

    def test_what_is_built_of_this_text_is_marked(self):
        text = self.call("forget")
        self.build("low", "high")
        self.assertEqual((self.built(), self.call("mark", text), self.built()), ([], "", ["low", "high"]))

    def test_a_library_that_is_not_there_is_not_marked(self):
        text = self.call("forget")
        self.build("low")
        self.call("mark", text)
        self.assertEqual((self.built(), self.workspace().lacking("program")), (["low"], "high"))

    def test_nothing_is_marked_where_the_text_was_changed(self):
        text = self.call("forget")
        self.build("low", "high")
        self.keep("crates/low/specs/Least.antt", "least : N\n")
        self.assertEqual((self.call("mark", text), self.built()), (3, []))

    def test_what_is_left_before_it(self):
        text = self.call("forget")
        self.build("low", "high")
        self.call("mark", text)
        self.assertEqual((self.call("forget"), self.left()), (text, ["low", "high"]))
        self.keep("crates/high/src/lib.rt", "pub fn most() -> u64 { 2 }\n")
        self.assertEqual(self.built(), ["low"])
        self.call("forget")
        self.assertEqual(self.left(), [])

    def test_a_library_over_another_build_of_one_below_is_not_built_of_this_text(self):
        text = self.call("forget")
        self.build("low", "high")
        self.call("mark", text)
        self.build("low", kind="proofs")
        self.assertEqual(self.built(), [])

    def test_words(self):
        for words in (["mark"], ["forget", "all"], ["marks", "x"]):
            self.assertEqual(self.call(*words), 2)
