"""Tests that named_mistakes.txt and the marks '# named' in crates/*/mistakes and crates/*/must-fail are of the same
mistakes, and that each of these can be put into the text that stands here."""

import os
import unittest

import mistakes
from shared.crates import TOP


def listed(text):
    """The lines of the list: what a body does, and the mistakes that show it."""
    rows = [it.partition(": ") for it in text.splitlines() if it and not it.startswith("#")]
    return [(what, names.split()) for what, _, names in rows]


class Named(unittest.TestCase):
    def setUp(self):
        with open(os.path.join(TOP, "tools", "prover", "named_mistakes.txt"), encoding="utf-8") as it:
            self.rows = listed(it.read())
        crates = sorted(os.listdir(os.path.join(TOP, "crates")))
        self.marked = {str(it): it for crate in crates for it in mistakes.mistakes_of(crate) if it.is_named}

    def test_the_list_has_what_is_marked_and_nothing_else(self):
        names = [name for _, names in self.rows for name in names]
        self.assertEqual(sorted(names), sorted(self.marked))
        self.assertGreater(len(names), 40)

    def test_each_line_says_what_its_body_does_once(self):
        bodies = [what for what, _ in self.rows]
        self.assertEqual(len(bodies), len(set(bodies)))
        for what, names in self.rows:
            self.assertTrue(what and names, what)

    def test_each_can_be_put_into_the_text(self):
        for name, it in self.marked.items():
            def text(file, crate=it.crate):
                with open(os.path.join(TOP, "crates", crate, file), encoding="utf-8") as code:
                    return code.read()

            with self.subTest(name):
                turned = mistakes.apply(it, text)
                self.assertTrue(all(file.startswith("src/") for file in turned))
                self.assertTrue(any(turned[file] != text(file) for file in turned))
