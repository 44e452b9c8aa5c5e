"""Tests of page_rows.py: which blocks of a page are typed, what is taken for its output, and that each fault of a page fails."""

import contextlib
import io
import os
import tempfile
import unittest
from unittest import mock

import page_rows
from shared.rows import Rows

# A program whose serve says where it listens and goes on, and which says its words else.
PROGRAM = '''#!/bin/sh
if [ "$1" = serve ]; then echo "listening $3"; exec sleep 60; fi
echo "$@"
'''


def page(*lines, language="sh", before=""):
    """A page of one block."""
    return "\n".join(["# A page", "", before, f"```{language}", *lines, "```", "", "The end."])


class Pages(unittest.TestCase):
    @classmethod
    def setUpClass(cls):
        folder = tempfile.TemporaryDirectory()
        cls.addClassCleanup(folder.cleanup)
        cls.program = os.path.join(folder.name, "program")
        top = os.path.join(folder.name, "top")
        os.makedirs(f"{top}/docs")
        for path in (cls.program, f"{top}/buildcache"):
            with open(path, "w", encoding="utf-8") as out:
                out.write(PROGRAM)
            os.chmod(path, 0o755)
        change = mock.patch.multiple(page_rows, TOP=top, BUILT=f"{top}/crates/buildcache/out/buildcache")
        change.start()
        cls.addClassCleanup(change.stop)

    def try_page(self, text):
        """What is printed of a page."""
        with contextlib.redirect_stdout(io.StringIO()) as printed:
            page_rows.try_page(Rows(), "PAGE.md", text, self.program)
        return printed.getvalue()

    def accept(self, typed, left, text):
        self.assertEqual(self.try_page(text), f"ok     PAGE.md: commands typed: {typed}, blocks that aren't: {left}\n")

    def refuse(self, why, text):
        printed = self.try_page(text)
        self.assertTrue(printed.startswith("FAILED PAGE.md is as it says: "), printed)
        self.assertIn(why, printed)

    def test_what_is_printed_is_what_stands_below(self):
        self.accept(3, 0, page("$ ./buildcache a b", "a b", "$ X='c  d'; printf 'one\\n\\ntwo'", "one", "", "two", "$ echo \"$X\" \\", "  e >&2", "c  d e"))
        self.accept(2, 0, page("$ false", "$ echo $?", "1"))
        self.accept(1, 0, page("$ crates/buildcache/out/buildcache x", "x"))

    def test_what_is_not_as_it_says(self):
        self.refuse("line 7: 'echo 2' printed '2', and the page says '3'", page("$ echo 1", "1", "$ echo 2", "3"))
        self.refuse("printed 'x', and the page says ''", page("$ echo x >&2"))
        self.refuse("printed '', and the page says 'x'", page("$ true", "x"))
        self.refuse("line 6: 'exit 1' doesn't end", page("$ true", "$ exit 1", "$ true"))
        self.refuse("'if true' doesn't end", page("$ if true"))

    def test_a_digest_and_a_port_may_be_any(self):
        self.accept(2, 0, page(f"$ echo built {'a' * 64}/12 steps 4", "built HASH/SIZE steps 4", "$ echo HASH", "HASH"))
        self.refuse("the page says 'HASH/SIZE'", page("$ echo abc/12", "HASH/SIZE"))
        self.accept(1, 0, page("$ echo 127.0.0.1:80 127.0.0.1:80", "127.0.0.1:80 127.0.0.1:80"))
        self.refuse("printed ", page("$ echo 127.0.0.1:80", "127.0.0.1:81"))

    def test_a_server_goes_on_until_the_page_ends(self):
        self.accept(3, 0, page("$ ./buildcache serve --listen 127.0.0.1:80 --limit 1", "listening 127.0.0.1:80",
                               "$ echo after", "after", "$ jobs -r | wc -l", "1"))
        self.refuse("printed 'listening 127.0.0.1:", page("$ ./buildcache serve --listen 127.0.0.1:80", "listening"))

    def test_each_page_has_a_copy_of_its_own(self):
        self.accept(1, 0, page("$ rm -r docs"))
        self.accept(1, 0, page("$ ls -d docs", "docs"))

    def test_which_blocks_are_typed(self):
        self.assertEqual(self.try_page(page("a text", language="")), "")
        self.accept(1, 0, page("$ echo 1", "1", language=""))
        self.refuse("line 5: no command stands before it", page("echo 1"))
        self.accept(1, 0, page("   $ echo 1", "   1").replace("```", "   ```"))
        self.refuse("its block doesn't end", page("$ echo 1").replace("```\n\n", "\n"))

    def test_marks(self):
        self.accept(0, 1, page("echo 1", before="<!-- not typed: it says why -->"))
        self.refuse("no command stands", page("echo 1", before="<!-- not typed:  -->"))
        self.refuse("1 of its marks stand before no block", "<!-- not typed: it says why -->\n" + page("$ echo 1", "1"))
        self.assertEqual(self.try_page("<!-- typed with: sh no-such-program -->\n" + page("$ echo 1")),
                         "no-such-program isn't installed: PAGE.md is left out\n")
        self.accept(1, 0, "<!-- typed with: sh -->\n" + page("$ echo 1", "1"))
