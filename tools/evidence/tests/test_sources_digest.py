"""Tests of the lists sources.sums and artifact.sums of bazel_plan.py, and of sources_digest.py.

Coreutils' sha256sum says what such a list is, both ways."""

import contextlib
import io
import os
import shutil
import subprocess
import sys
from unittest import mock

import sha256sum_lists
import sources_digest
from shared.messages import Digest, File
from tests.bazel_case import Case
from tests.spawns import log, spawn

# Names that sha256sum writes and reads in ways of its own.
NAMES = ["a", "a b", " a", "a ", "*a", "-", "--", "#a", "a\\b", "a\\", "\\n", "a\nb", "\n", "a\rb", "a\r", "\\\n\\\r", "é", "d/\\e/f", "a  b", "~"]


class Lists(Case):
    def setUp(self):
        super().setUp()
        os.mkdir(self.at("checkout"))
        for name in NAMES:
            os.makedirs(os.path.dirname(self.at("checkout", name)), exist_ok=True)
            with open(self.at("checkout", name), "w", encoding="utf-8") as out:
                out.write(f"of {name}")

    def digest_of(self, name):
        with open(self.at("checkout", name), "rb") as it:
            return Digest.of(it.read())

    def sha256sum(self, *words):
        return subprocess.run(["sha256sum", *words], cwd=self.at("checkout"), capture_output=True, check=False)

    def test_what_sha256sum_writes_is_read_and_written(self):
        told = self.sha256sum("--", *(f"./{it}" if it == "-" else it for it in NAMES)).stdout
        read = sha256sum_lists.read_sums(told)
        self.assertEqual({path: it.hash for path, it in read.items()}, {it: self.digest_of(it).hash for it in NAMES})
        self.assertEqual([it.line() for it in read.values()], told.decode().split("\n")[:-1])
        self.assertEqual(sha256sum_lists.read_sums(self.sha256sum("-b", "--", *NAMES[:4]).stdout).keys(), set(NAMES[:4]))

    def test_what_is_written_sha256sum_checks(self):
        files = {it: File(self.digest_of(it)) for it in NAMES}
        files["external/none"] = File(Digest.of(b""))
        with open(self.at("list"), "w", encoding="utf-8") as out:
            out.writelines(f"{line}\n" for line in sha256sum_lists.sums_of(files, lambda path: not path.startswith("external/")))
        done = self.sha256sum("--strict", "-c", self.at("list"))
        self.assertEqual((done.returncode, done.stdout.count(b": OK\n")), (0, len(NAMES)), done)
        with open(self.at("checkout", "a\nb"), "w", encoding="utf-8") as out:
            out.write("x")
        self.assertEqual(self.sha256sum("--strict", "-c", self.at("list")).returncode, 1)

    def test_what_is_no_list(self):
        hashed = "0" * 64
        for line in (
            "x", f"{hashed} a", f"{'A' * 64}  a", f"{hashed}  /a", f"{hashed}  ../a", f"{hashed}  ", f"\\{hashed}  a\\x",
            f"\\{hashed}  a\\", "# comment", f"# file {hashed}/01 a", f"# file {hashed}/1 a%2f", f"# file {hashed}/1 a/../b", "# link  a", "# link %00 a",
        ):
            with self.subTest(line), self.assertRaises(sha256sum_lists.Refused):
                sha256sum_lists.read_sums(f"{line}\n".encode())
        for content in (f"{hashed}  a".encode(), f"{hashed}  \xff\n".encode("latin-1"), f"{hashed}  a\n{'1' * 64}  a\n".encode()):
            with self.assertRaises(sha256sum_lists.Refused):
                sha256sum_lists.read_sums(content)


class Sources(Case):
    """A build whose sources are of the checkout, of another repository, and of Bazel."""

    OWN = "bazel-out/k8/bin/p/o-2.params"
    BUILD = log(spawn(
        {"p/a": "1", "p/n\nl": "2", "external/r/b": "3", OWN: "4"}, ["bazel-out/k8/bin/p/o"], commandArgs=["ld", f"@{OWN}"]))

    def setUp(self):
        super().setUp()
        for path, content in {"checkout/p/a": "1", "checkout/p/n\nl": "2", "others/r/b": "3"}.items():
            os.makedirs(os.path.dirname(self.at(path)), exist_ok=True)
            with open(self.at(path), "w", encoding="utf-8") as out:
                out.write(content)
        self.turn(self.BUILD)
        self.words = ["--external", self.at("others"), "--as-listed", self.OWN]

    def ask(self, *words):
        """Status, standard output, and standard error of the tool on the list."""
        out, err = io.StringIO(), io.StringIO()
        with open(self.at("asked", "sources.sums"), "rb") as it:
            listed = io.TextIOWrapper(io.BytesIO(it.read()))
        with mock.patch("sys.stdin", listed), contextlib.redirect_stdout(out), contextlib.redirect_stderr(err):
            status = sources_digest.main([self.at("checkout"), *words])
        return status, out.getvalue(), err.getvalue()

    def test_the_digest_of_the_plan(self):
        digest = self.lines("sources")[0]
        told = f"sources {digest}\nread 3 as-listed 1\n"
        for expected in ([], ["--expect", self.at("asked", "sources")], ["--expect", digest]):
            self.assertEqual(self.ask(*self.words, *expected), (0, told, ""))
        self.assertEqual(self.ask("--as-listed", "bazel-out/*", "external/r/*"), (0, f"sources {digest}\nread 2 as-listed 2\n", ""))

    def test_the_digest_of_the_sources_of_stages(self):
        self.call(self.BUILD, "--stages", "1")
        status, out, err = self.ask(*self.words, "--expect", self.at("asked", "sources"))
        self.assertEqual((status, err), (0, ""))
        self.assertNotIn(self.lines("sources")[0], out)

    def test_a_file_that_is_otherwise(self):
        expect = ["--expect", self.at("asked", "sources")]
        for path, name in (("checkout/p/a", "p/a"), ("checkout/p/n\nl", "p/n\\nl"), ("others/r/b", "external/r/b")):
            with open(self.at(path), "r+", encoding="utf-8") as it:
                was = it.read()
                it.write("x")
            status, _, err = self.ask(*self.words, *expect)
            self.assertEqual((status, err.count("\n")), (1, 2))
            self.assertTrue(err.startswith(f'note: "{name}" has the hash '), err)
            self.assertIn(f"{self.lines('sources')[0]} is expected\n", err)
            self.assertEqual(self.ask(*self.words)[0], 1)
            with open(self.at(path), "w", encoding="utf-8") as it:
                it.write(was)
        self.assertEqual(self.ask(*self.words, *expect)[0], 0)

    def test_another_digest_or_another_list(self):
        other = f"{'0' * 64}/1"
        status, _, err = self.ask(*self.words, "--expect", other)
        self.assertEqual((status, err), (1, f"note: the sources are {self.lines('sources')[0]}, and {other} is expected\n"))
        with open(self.at("asked", "sources.sums"), "rb") as it:
            lines = it.readlines()
        for number in range(len(lines)):
            with open(self.at("asked", "sources.sums"), "wb") as out:
                out.writelines(lines[:number] + lines[number + 1:])
            words = self.words if self.OWN.encode() not in lines[number] else self.words[:2]
            self.assertEqual(self.ask(*words, "--expect", self.at("asked", "sources"))[0], 1)

    def test_what_is_neither_read_nor_believed(self):
        rows = {
            f'error: the list: "{self.OWN}" is none of the checkout: no checkout has it; --as-listed': self.words[:2],
            'error: the list: "external/r/b" is none of the checkout: --external names the folder': self.words[2:],
            'no file of the list that isn\'t of the checkout has the pattern "p/a"': [*self.words, "p/a"],
            '"external/r/b" isn\'t there as a file': ["--external", self.at("checkout"), *self.words[2:]],
            "is no digest, HASH/SIZE, and no file that has one": [*self.words, "--expect", self.at("asked", "plan")],
        }
        for reason, words in rows.items():
            status, out, err = self.ask(*words)
            self.assertEqual((status, out, err.count("\n")), (2, "", 1))
            self.assertIn(reason, err)
        os.remove(self.at("checkout", "p", "a"))
        self.assertIn('"p/a" isn\'t there as a file', self.ask(*self.words)[2])
        shutil.rmtree(self.at("checkout"))
        self.assertEqual(self.ask(*self.words)[0], 2)
        self.assertEqual(self.ask(*self.words, "--expect", self.at("none"))[0], 3)

    def test_links(self):
        value = spawn({"p/a": "1"}, ["o"])
        value["inputs"].append({"path": "p/l", "symlinkTargetPath": "a b"})
        self.turn(log(value))
        self.assertIn("# link a%20b p/l", self.lines("sources.sums"))
        self.assertEqual(self.ask()[0], 2)
        os.symlink("a b", self.at("checkout", "p", "l"))
        self.assertEqual(self.ask("--expect", self.at("asked", "sources")), (0, f"sources {self.lines('sources')[0]}\nread 2 as-listed 0\n", ""))

    def test_the_program(self):
        words = [sys.executable, sources_digest.__file__, self.at("checkout"), *self.words, "--expect", self.at("asked", "sources")]
        with open(self.at("asked", "sources.sums"), "rb") as listed:
            done = subprocess.run(words, stdin=listed, capture_output=True, text=True, check=False)
        self.assertEqual((done.returncode, done.stderr), (0, ""))
