"""Tests of unproved.py, and that what says to others whether to ship refuses a program of which nothing is proved."""

import os
import shutil
import subprocess
import sys
from unittest import mock

from shared import previews, stores
from shared.crates import TOP
from tests.bazel_case import Case

TOOL = os.path.join(TOP, "tools", "evidence", "unproved.py")
DIGEST = f"{'0' * 64}/1"
YES = f"yes {DIGEST} steps 1\n"
# A program that says yes to whatever is asked; behind its end are the bytes of a mark.
SAYS_YES = f"#!/bin/sh\necho {YES}exit\n".encode()
PREVIEW = b"%b\n%b\n" % (SAYS_YES, previews.MARKS[0])
REFUSED = "is the preview, or runs it: nothing is proved of that, so its yes is worth nothing; name the program that"


class Unproved(Case):
    def setUp(self):
        super().setUp()
        change = mock.patch.dict(os.environ)
        change.start()
        self.addCleanup(change.stop)
        os.environ.pop(previews.VARIABLE, None)

    def keep(self, name, content):
        """A program, and its place."""
        os.makedirs(os.path.dirname(self.at(name)), exist_ok=True)
        stores.write_file(self.at(name), content)
        os.chmod(self.at(name), 0o755)
        return self.at(name)

    def test_what_is_refused(self):
        rows = {
            "out/preview/buildcache": PREVIEW, "moved": PREVIEW, "with more behind it": PREVIEW + b"\0" * 9,
            "before it had a mark": b"\x7fELF\0AddressSanitizer\0", "a script": b'#!/bin/sh\nexec /x/tools/preview.sh "$@"\n',
            "a script of the program": b'#!/bin/sh\nexec /x/out/preview/buildcache "$@"\n',
        }
        for name, content in rows.items():
            with self.subTest(name):
                self.assertIn(REFUSED, previews.why_not(self.keep(name, content)))
        os.symlink(self.at("moved"), self.at("link"))
        self.assertIn(REFUSED, previews.why_not(self.at("link")))
        self.assertIn(REFUSED, previews.why_not(os.path.join(TOP, "tools", "preview.sh")))
        os.environ["PATH"] = f"{self.folder}:{os.environ['PATH']}"
        self.assertIn(REFUSED, previews.why_not("moved"))
        with mock.patch("builtins.open", side_effect=PermissionError(13, "Permission denied")):
            self.assertIn("can't be read (Permission denied)", previews.why_not(self.at("moved")))

    def test_what_is_not_refused(self):
        for content in (SAYS_YES, b"\x7fELF\0 of preview.sh"):
            self.assertIsNone(previews.why_not(self.keep("program", content)))
        self.assertIsNone(previews.why_not(self.at("none")))
        self.keep("moved", PREVIEW)
        for value, is_refused in {"": True, "yes": True, "rows": False}.items():
            with mock.patch.dict(os.environ, {previews.VARIABLE: value}):
                self.assertEqual(previews.why_not(self.at("moved")) is not None, is_refused, value)

    def test_what_the_launcher_runs(self):
        launcher, built = self.keep("buildcache", SAYS_YES), self.keep("crates/buildcache/out/buildcache", SAYS_YES)
        with mock.patch.multiple(previews, LAUNCHER=launcher, BUILT=built):
            self.assertIsNone(previews.why_not(launcher))
            stores.write_file(built, PREVIEW)
            self.assertIn(REFUSED, previews.why_not(launcher))
            self.assertIsNone(previews.why_not(self.keep("another", SAYS_YES)))
            os.remove(built)
            self.assertIsNone(previews.why_not(launcher))

    def test_the_command(self):
        for content, status in ((SAYS_YES, 0), (PREVIEW, 3)):
            ran = subprocess.run([TOOL, self.keep("program", content)], capture_output=True, text=True, check=False)
            self.assertEqual((ran.returncode, ran.stdout, ran.stderr.count("\n")), (status, "", status // 3))
            self.assertEqual(ran.stderr[:7], "error: " if status else "")

    def test_the_preview_has_the_mark(self):
        with open(os.path.join(TOP, "tools", "preview.sh"), "rb") as it:
            text = it.read()
        self.assertIn(b"mark='%b'\n" % previews.MARKS[0], text)
        self.assertLess(text.index(b'"$mark" >>"$room/buildcache"'), text.index(b'mv "$room/buildcache"'))

    def test_verify_stages(self):
        """The program is refused wherever it is named, before it is asked."""
        stores.write_texts(self.at("asked"), {"sources": [DIGEST], "claim": [DIGEST], "plan": [], "record": []})
        tool, program = os.path.join(TOP, "tools", "evidence", "verify_stages.py"), self.keep("moved", PREVIEW)
        for words, env in ([], {"BUILDCACHE": program}), (["--program", program], {"BUILDCACHE": ""}):
            for allowed, expected in ((None, (3, "")), ("rows", (0, YES))):
                place = {**os.environ, **env, **({previews.VARIABLE: allowed} if allowed else {})}
                ran = subprocess.run([sys.executable, tool, self.at("asked"), *words], capture_output=True, text=True, env=place)
                self.assertEqual((ran.returncode, ran.stdout), expected, ran.stderr)
                if not allowed:
                    self.assertRegex(ran.stderr, rf'\Aerror: "{program}" {REFUSED}.*\n\Z')
        shutil.copy(self.keep("proved", SAYS_YES), self.at("moved"))
        ran = subprocess.run([sys.executable, tool, self.at("asked"), *words], capture_output=True, text=True, env=place)
        self.assertEqual((ran.returncode, ran.stdout), (0, YES))
