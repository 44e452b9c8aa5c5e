"""What the tests of judge.py share: a program that says a line, and the tool over evidence. Where a test says which line the
program prints, a script stands in its place; what is judged by the program itself is told as skipped where it isn't built."""

import json
import os
import shutil
from unittest import mock

import judge
from shared import stores
from shared.crates import TOP
from shared.harness import PROGRAM
from tests.bazel_case import Case, kept_log
from tests.test_archives import called

EXAMPLE = os.path.join(TOP, "crates", "buildcache", "data")
CLAIM = "e52456cc01aac4a9837dfa56d8c8ee186aa901ffd00cdd1fec2296d728042cf9/80"
EMPTY = "e3b0c44298fc1c149afbf4c8996fb92427ae41e4649b934ca495991b7852b855/0"
YES = f"yes {CLAIM} steps 2"
# `echo | sha256sum`
LINE = "01ba4719c80b6fe911b091a7c05124b64eeece964e09c058ef8f9805daca546b"
RELEASE = "bazel-out/k8-fastbuild/bin/pages/release"
# What --json prints of README's example.
FACTS = {
    "verdict": "yes", "line": YES, "stage": None, "place": None, "step": None, "cause": None, "number": None, "path": None,
    "digest": None, "exit_code": None, "made_by": None, "differs": None, "claim": CLAIM, "sources": EMPTY, "steps": 2,
    "stages": None, "taken": None, "from_cache": None, "version": "7.8",
}
NO = {**FACTS, "verdict": "no"}


class JudgeCase(Case):
    def setUp(self):
        super().setUp()
        change = mock.patch.dict(os.environ)
        change.start()
        self.addCleanup(change.stop)
        os.environ.pop("BUILDCACHE", None)

    def says(self, line, status=0, note="", before=""):
        """A program that says this of whatever it is asked, and its place."""
        version = '[ "$1" = --version ] && { echo buildcache 7.8; exit; }'
        printed = f"printf '%s' '{note}' >&2" if note else ":"
        text = f"#!/bin/sh\n{version}\n{before}\n{printed}\n[ -z '{line}' ] || echo '{line}'\nexit {status}\n"
        stores.write_file(self.at("program"), text.encode())
        os.chmod(self.at("program"), 0o755)
        return self.at("program")

    def judge(self, evidence, *words, line=YES, status=0, **more):
        """Status, standard output and standard error, where the program says so."""
        return called(judge.main, evidence, "--program", self.says(line, status, **more), *words)

    def facts(self, evidence, line, *words):
        """What --json prints of a line."""
        status = 0 if line.startswith("yes") else 1
        found, out, err = self.judge(evidence, "--json", *words, line=line, status=status)
        self.assertEqual((found, out.count("\n"), err), (status, 1, ""))
        return json.loads(out)

    def judged_by_program(self, *words, env=None):
        """What the tool says by the program itself, or nothing, where that isn't built."""
        if not os.path.exists(PROGRAM):
            self.is_unjudged = True
            return None
        with mock.patch.dict(os.environ, {"BUILDCACHE": PROGRAM, **(env or {})}):
            return called(judge.main, *words)

    def example(self):
        """A copy of README's example, with a list of its file."""
        shutil.copytree(EXAMPLE, self.at("asked"))
        stores.write_file(self.at("asked", "artifact.sums"), f"{LINE}  result\n".encode())
        return self.at("asked")

    def release(self, *words):
        """The evidence of a log of Bazel, of a release of two files."""
        release = ["--outputs", f"{RELEASE}/*", "--below", RELEASE]
        self.assertEqual(self.call(kept_log("recorded.json"), *release, *words)[0], 0)
        return self.at("asked")

    def text(self, name):
        return stores.read_file(self.at(name)).decode()
