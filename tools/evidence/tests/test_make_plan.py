"""Tests of make_plan.py.

The plans of examples/ were first written by protoc and a script, and are compared whole. (tools/end_to_end/page_rows.py builds
and verifies them.)
"""

import contextlib
import io
import json
import os
import shutil
import subprocess
import sys
import tempfile
import unittest

HERE = os.path.dirname(os.path.realpath(__file__))

import make_plan
from shared.crates import TOP
from shared.messages import Digest

# One step that copies its input.
COPY = {"name": "copy", "arguments": ["/bin/cp", "a", "b"], "inputs": ["a"], "outputs": ["b"]}
READS_COPY = {"name": "last", "arguments": ["/bin/true"], "inputs": [{"step": "copy", "path": "b"}], "outputs": []}


class Case(unittest.TestCase):
    def setUp(self):
        self.folder = tempfile.mkdtemp()
        self.addCleanup(shutil.rmtree, self.folder)
        os.mkdir(self.at("src"))
        self.write("src/a", "123456789")

    def at(self, *names):
        return os.path.join(self.folder, *names)

    def write(self, name, text):
        with open(self.at(name), "w", encoding="utf-8") as out:
            out.write(text)

    def call(self, value, *words):
        """Status, standard output and standard error of the tool on a file with this value, or this text."""
        self.write("steps.json", value if isinstance(value, str) else json.dumps(value))
        out, err = io.StringIO(), io.StringIO()
        with contextlib.redirect_stdout(out), contextlib.redirect_stderr(err):
            status = make_plan.main([self.at("steps.json"), self.at("asked"), *words])
        return status, out.getvalue(), err.getvalue()

    def plan(self, value):
        """The plan's lines."""
        status, _, err = self.call({"sources": "src", **value})
        self.assertEqual((status, err), (0, ""))
        with open(self.at("asked", "plan"), encoding="utf-8") as it:
            return it.read().splitlines()

    def refuse(self, reason, value, *words):
        status, out, err = self.call({"sources": "src", **value} if isinstance(value, dict) else value, *words)
        self.assertEqual((status, out), (2, ""))
        self.assertEqual(err.count("\n"), 1)
        self.assertTrue(err.startswith("error: "), err)
        self.assertIn(reason, err)
        self.assertFalse(os.path.exists(self.at("asked")))


class Plans(Case):
    def test_the_plans_of_the_examples(self):
        for name in ("hello", "release"):
            example = os.path.join(TOP, "examples", name)
            with contextlib.redirect_stdout(io.StringIO()):
                self.assertEqual(make_plan.main([os.path.join(example, "steps.json"), self.at(name)]), 0)
            for file in ("plan", "sources"):
                with open(os.path.join(example, file), encoding="utf-8") as it, open(self.at(name, file), encoding="utf-8") as made:
                    self.assertEqual(made.read(), it.read(), f"{name}/{file}")

    def test_what_it_prints(self):
        status, out, _ = self.call({"sources": "src", "steps": [COPY], "root": []})
        # (the Directory of one file `a` of these nine bytes, as docs/FORMATS.md has it)
        source = bytes.fromhex("0a490a016112440a40") + Digest.of(b"123456789").hash.encode() + b"\x10\x09"
        self.assertEqual((status, out.splitlines()[0]), (0, f"sources {Digest.of(source).text()}"))
        self.assertEqual(out.splitlines()[1:], [f"plan {self.at('asked', 'plan')}", "steps 1"])

    def test_a_folder_without_utf8(self):
        self.write("steps.json", json.dumps({"steps": [], "root": []}))
        words = [os.path.join(TOP, "tools", "evidence", "make_plan.py"), self.at("steps.json"), os.fsencode(self.at("")) + b"\xff"]
        done = subprocess.run([sys.executable, *words], capture_output=True, env={**os.environ, "PYTHONIOENCODING": "utf-8:strict"})
        self.assertEqual((done.returncode, done.stderr), (0, b""))
        self.assertTrue(done.stdout.splitlines()[1].endswith(rb"\udcff/plan"), done.stdout)

    def test_lines(self):
        self.assertEqual(self.plan({"steps": [], "root": ["a"]}), ["buildplan 1", "root", "in a src a"])
        self.assertEqual(self.plan({"steps": [], "root": [{"path": ".", "at": "a b"}]}), ["buildplan 1", "root", "in a%20b src ."])
        lines = self.plan({"steps": [COPY, READS_COPY], "root": []})
        self.assertEqual([it for it in lines if not it.startswith("step ")], ["buildplan 1", "in a src a", "in b out copy b", "root"])

    def test_targets_that_meet_are_of_version_2(self):
        for root in (["a", "a"], [{"path": ".", "at": "x"}, {"path": "a", "at": "x/b"}], [{"path": "a", "at": "x/b/c"}, {"path": ".", "at": "x"}]):
            self.assertEqual(self.plan({"steps": [], "root": root})[0], "buildplan 2")
        self.assertEqual(self.plan({"steps": [], "root": ["a", {"path": "a", "at": "a-b"}]})[0], "buildplan 1")

    def test_what_the_store_gets(self):
        self.plan({"steps": [COPY], "root": []})
        held = os.listdir(self.at("asked", "store", "cas"))
        self.assertEqual(len(held), 4)  # the Command, the frame, the Directory and the file's contents
        self.assertIn(Digest.of(b"123456789").hash, held)

    def test_an_environment_of_its_own_stands_in_place_of_the_common_one(self):
        common, own = {"A": "1"}, {"B": "2"}
        of_both = self.plan({"environment": common, "steps": [{**COPY, "environment": own}], "root": []})
        self.assertEqual(of_both, self.plan({"steps": [{**COPY, "environment": own}], "root": []}))
        self.assertNotEqual(of_both, self.plan({"environment": common, "steps": [COPY], "root": []}))


class Refusals(Case):
    def test_each_says_where(self):
        deep = "/".join("x" * 65)
        steps = {
            'step 1: it has no "name"': [{"arguments": ["/bin/true"], "outputs": []}],
            "step 1: the name 'A b'": [{**COPY, "name": "A b"}],
            'step 2 "copy": an earlier step has its name': [COPY, COPY],
            'step 1 "copy": its first argument': [{**COPY, "arguments": ["cp"]}],
            'step 1 "copy": arguments, argument 2: it has to be a text': [{**COPY, "arguments": ["/bin/cp", 1]}],
            'step 1 "copy": arguments, argument 2: it has a NUL': [{**COPY, "arguments": ["/bin/cp", "a\0"]}],
            'step 1 "copy": outputs: "b" stands there twice': [{**COPY, "outputs": ["b", "b"]}],
            'step 1 "copy": outputs: "b/c" lies under "b"': [{**COPY, "outputs": ["b", "b-c", "b/c"]}],
            'step 1 "copy": outputs, output 1: \'../b\' is no path': [{**COPY, "outputs": ["../b"]}],
            'step 1 "copy": inputs, input 1: the sources have no "c"': [{**COPY, "inputs": ["c"]}],
            f"step 1 \"copy\": inputs, input 1: path: '{deep}' is no path": [{**COPY, "inputs": [deep]}],
            'step 1 "copy": inputs, input 1: it has no "at"': [{**COPY, "inputs": ["."]}],
            'step 1 "copy": inputs, input 1: "from" is none of path, step, at': [{**COPY, "inputs": [{"path": "a", "from": "x"}]}],
            'step 1: "output" is none of name, arguments, outputs': [{**COPY, "output": ["b"]}],
            'step 1 "copy": the variable "A=B"': [{**COPY, "environment": {"A=B": ""}}],
            'step 1 "copy": environment "A": it has to be a text': [{**COPY, "environment": {"A": 1}}],
            'step 1 "last": inputs, input 1: no earlier step has the name "copy"': [READS_COPY, COPY],
            'step 2 "last": inputs, input 1: the step "copy" has no output "c"':
                [COPY, {**READS_COPY, "inputs": [{"step": "copy", "path": "c"}]}],
            "steps: there are 4097": [{**COPY, "name": f"s{it}"} for it in range(4097)],
        }
        for reason, value in steps.items():
            with self.subTest(reason):
                self.refuse(reason, {"steps": value, "root": []})

    def test_the_file(self):
        for reason, text in {
            "line 2, column 1": '{"steps": [],\n',
            'it has no "root"': '{"steps": []}',
            'an object has "steps" twice': '{"steps": [], "steps": [], "root": []}',
            "it has to be an object": "[]",
            "steps: it has to be a list": '{"steps": {}, "root": []}',
        }.items():
            with self.subTest(reason):
                self.refuse(reason, text)

    def test_texts_that_are_no_json(self):
        self.refuse("error: ", '{"steps": [], "root": [], "sources": ' + "9" * 5000 + "}")
        self.refuse("its lists and objects are too deep", "[" * 100000)
        self.write("steps.json", "")
        with open(self.at("steps.json"), "wb") as out:
            out.write(b"\xff")
        with contextlib.redirect_stderr(io.StringIO()) as err:
            self.assertEqual(make_plan.main([self.at("steps.json"), self.at("asked")]), 2)
        self.assertTrue(err.getvalue().startswith(f'error: "{self.at("steps.json")}": this is no JSON: '), err.getvalue())

    def test_the_sources(self):
        os.mkfifo(self.at("src", "pipe"))
        self.refuse('"pipe" of the sources is no file, folder or link', {"steps": [], "root": []})

    def test_places(self):
        self.refuse("--prefix is for --server", {"steps": [], "root": []}, "--prefix", "/x")
        self.assertEqual(self.call({"sources": "none", "steps": [], "root": []})[0], 3)
