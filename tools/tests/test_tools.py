"""Tests of what all tools share: each prints its help and does nothing else, and says what is wrong with its words; each stands
where it is said to, and imports what it may. A tool is each file below tools/ that may be run."""

import ast
import glob
import os
import re
import shutil
import subprocess
import sys
import tempfile
import unittest

TOP = os.path.dirname(os.path.dirname(os.path.dirname(os.path.realpath(__file__))))
PACKAGES = ("evidence", "end_to_end", "prover", "measure")
TOOLS = sorted(
    os.path.relpath(it, f"{TOP}/tools")
    for it in glob.glob(f"{TOP}/tools/*") + glob.glob(f"{TOP}/tools/*/*")
    if os.path.isfile(it) and os.access(it, os.X_OK)
)
# A program that isn't there, and a file; each with the other words that the tool wants.
NEEDS_A_PROGRAM = {
    **{f"end_to_end/{it}_rows.py": [] for it in ("build", "client", "evidence", "fault", "page", "server", "store", "word")},
    "end_to_end/soak.py": ["1"],
    "measure/measure_build.py": [], "measure/measure_verify.py": ["steps", "1"], "measure/measure_all.py": ["put"],
    "measure/serve_speed.py": ["1"],
}
NEEDS_A_FILE = {
    "evidence/bazel_plan.py": ["asked"], "evidence/make_plan.py": ["asked"], "evidence/verify_stages.py": [],
    "evidence/judge.py": [], "evidence/show.py": ["0" * 64], "evidence/trim_log.py": ["/base"],
}
WRONG_NUMBERS = {
    "end_to_end/soak.py": ["x"], "measure/measure_build.py": ["0"], "measure/measure_verify.py": ["steps", "-"],
    "measure/serve_speed.py": ["x"],
}
# A path below tools/ in a text, where it isn't below another folder of that name.
NAMED = re.compile(r"(?:(?<![\w/.])|(?<=\$top/)|(?<=\{TOP\}/)|(?<=\.\./))tools/([\w./*-]*\w)")
# Where logs of Bazel stand, and what was made of one: they have paths of other repositories.
NOT_OF_THIS_REPOSITORY = ("crates/test_program/data/counts/", "tools/evidence/tests/data/")


def files_of_the_repository():
    """The files below the top, but for what is built, with their texts."""
    for above, folders, names in os.walk(TOP):
        folders[:] = [it for it in folders if it not in (".git", "out", "__pycache__") and not it.startswith("bazel-")]
        for path in (os.path.join(above, it) for it in names):
            below = os.path.relpath(path, TOP)
            if not below.startswith(NOT_OF_THIS_REPOSITORY):
                with open(path, encoding="utf-8", errors="replace") as it:
                    yield below, it.read()


def imports_of(text):
    """The modules that a tool imports, and what it imports of them."""
    for it in ast.walk(ast.parse(text)):
        if isinstance(it, ast.ImportFrom):
            yield from ((it.module, name.name) for name in it.names)
        elif isinstance(it, ast.Import):
            yield from ((name.name, None) for name in it.names)


class Tools(unittest.TestCase):
    def call(self, tool, *words, env=None):
        """Status, standard output and standard error, in a folder in which nothing is left."""
        with tempfile.TemporaryDirectory() as folder:
            language = sys.executable if tool.endswith(".py") else "bash"
            # (without the toolchain, so that a tool that doesn't end proves nothing)
            place = {**os.environ, "PATH": "/usr/bin:/bin", "PYTHONDONTWRITEBYTECODE": "1", **(env or {})}
            ran = subprocess.run([language, f"{TOP}/tools/{tool}", *words], cwd=folder, env=place, capture_output=True, text=True,
                                 stdin=subprocess.DEVNULL, timeout=60, check=False)
            self.assertEqual(os.listdir(folder), [])
        return ran.returncode, ran.stdout, ran.stderr

    def refuse(self, status, tool, *words, env=None):
        """Ends with that status, and one line of an error."""
        found, out, err = self.call(tool, *words, env=env)
        self.assertEqual((found, out, err.count("\n"), err[:7]), (status, "", 1, "error: "), err)

    def test_help(self):
        for tool in TOOLS:
            for word in ("--help", "-h"):
                with self.subTest(f"{tool} {word}"):
                    status, out, err = self.call(tool, word)
                    self.assertEqual((status, err), (0, ""))
                    self.assertGreater(out.count("\n"), 1)

    def test_behind_a_link(self):
        with tempfile.TemporaryDirectory() as folder:
            for package in PACKAGES:
                tool = next(it for it in TOOLS if it.startswith(f"{package}/") and it.endswith(".py"))
                os.symlink(f"{TOP}/tools/{tool}", f"{folder}/{package}")
                ran = subprocess.run([f"{folder}/{package}", "--help"], capture_output=True, text=True, timeout=60, check=False)
                self.assertEqual((ran.returncode, ran.stderr), (0, ""), tool)

    def test_an_option_that_is_not_there(self):
        for tool in TOOLS:
            with self.subTest(tool):
                self.refuse(2, tool, "--nonsense")

    def test_words_of_which_plans_are_made(self):
        for tool in ("evidence/bazel_plan.py", "evidence/make_plan.py", "evidence/verify_stages.py"):
            for words in ([], ["a", "b", "c"], ["a", "b", "--x\n"], ["a", "b", "--store"], ["--store", "a", "--server", "b"]):
                with self.subTest(f"{tool} {words}"):
                    self.refuse(2, tool, *words)

    def test_a_program_or_a_file_that_is_not_there(self):
        for tool, words in {**NEEDS_A_PROGRAM, **NEEDS_A_FILE}.items():
            with self.subTest(tool):
                self.refuse(3, tool, "none", *words)

    def test_numbers(self):
        for tool, words in WRONG_NUMBERS.items():
            with self.subTest(tool):
                self.refuse(2, tool, sys.executable, *words)
        self.refuse(2, "end_to_end/many_steps.py", "many", "x")

    def test_scripts_without_bazel(self):
        for tool in ("end_to_end/bazel_attacks.sh", "end_to_end/bazel_cache.sh", "end_to_end/bazel_roundtrip.sh"):
            with self.subTest(tool):
                self.refuse(3, tool, env={"BAZEL": "none", "BUILDCACHE": sys.executable})
                self.refuse(3, tool, env={"BUILDCACHE": "none"})
                self.refuse(2, tool, "word")

    def test_each_attack_has_its_tests(self):
        """Each attack of the page has its line in the README of the tools, which names a test or a script, and each is there."""
        lines = []
        for page, heading in (("docs/VERIFY_BAZEL.md", "## What an attacker of the cache can do"),
                              ("tools/evidence/README.md", "### Attacks and their tests")):
            with open(f"{TOP}/{page}", encoding="utf-8") as it:
                section = re.split(r"\n##+ ", it.read().partition(f"\n{heading}\n")[2])[0]
            lines.append(re.findall(r"(?m)^- \*\*(.+?)\*\*(.*)$", section))
        attacks, tested = lines
        self.assertGreater(len(attacks), 9)
        self.assertEqual([name for name, _ in attacks], [name for name, _ in tested])
        for attack, line in tested:
            named = re.findall(r"`(test_\w+\.py)`: ((?:`\w+`(?:, )?)+)", line)
            scripts = re.findall(r"`(\w+\.sh|client_rows\.py)`", line)
            self.assertTrue(named or scripts, attack)
            for file, tests in named:
                with open(f"{TOP}/tools/evidence/tests/{file}", encoding="utf-8") as it:
                    text = it.read()
                for test in re.findall(r"\w+", tests):
                    self.assertRegex(text, rf"(?m)^(?:class|    def) {test}\b", attack)
            for script in scripts:
                self.assertTrue(os.access(f"{TOP}/tools/end_to_end/{script}", os.X_OK), script)

    def test_each_path_of_a_tool_that_is_named_is_there(self):
        for file, text in files_of_the_repository():
            for path in NAMED.findall(text):
                self.assertTrue(glob.glob(f"{TOP}/tools/{path}") or path.startswith("PACKAGE"), f"{file}: tools/{path}")

    def test_what_is_imported(self):
        """Beside Python's own modules those beside a tool and those of tools/shared, and by a user's tool nothing that runs rows.
        Python finds them by itself: no tool says where."""
        modules = {it: {os.path.basename(path)[:-3] for path in glob.glob(f"{TOP}/tools/{it}/*.py")} for it in (*PACKAGES, "shared")}
        for package in PACKAGES:
            modules[package].discard("shared")
        for package in modules:
            others = set().union(*(modules[it] for it in modules if it != package), modules["shared"])
            if package == "evidence":
                others |= {f"shared.{it}" for it in ("harness", "builds", "rows")}
            for path in glob.glob(f"{TOP}/tools/{package}/*.py") + glob.glob(f"{TOP}/tools/{package}/tests/*.py"):
                with open(path, encoding="utf-8") as it:
                    text = it.read()
                self.assertNotIn("sys" + ".path", text, path)
                for module, name in imports_of(text):
                    if "/tests/" not in path or not module.startswith("shared"):
                        self.assertFalse({module, f"{module}.{name}"} & others, path)

    def test_no_file_is_a_link(self):
        """`rt ci` refuses a repository with one."""
        kept = subprocess.run(["git", "-C", TOP, "ls-files", "-z"], capture_output=True, text=True, check=True).stdout.split("\0")
        self.assertEqual([it for it in kept if os.path.islink(f"{TOP}/{it}")], [])

    def test_crates_txt_is_read_in_one_place(self):
        """One module reads it, and one text of the shell."""
        reads = re.compile(r"(?:open\(.*|<.*|sed .*)crates\.txt")
        found = [file for file, text in files_of_the_repository() if file.startswith("tools/") and reads.search(text)]
        self.assertEqual(sorted(found), ["tools/shared/crates.py", "tools/shared/crates.sh"])


class Program(unittest.TestCase):
    """The script that runs the program, over a text of one file."""

    def setUp(self):
        folder = tempfile.TemporaryDirectory()
        self.addCleanup(folder.cleanup)
        self.top = os.path.join(folder.name, "text")
        for name in ("src", "out"):
            os.makedirs(f"{self.top}/crates/buildcache/{name}")
        for name in ("crates.txt", "crates/buildcache/src/main.rt"):
            with open(f"{self.top}/{name}", "w", encoding="utf-8"):
                pass
        shutil.copy(f"{TOP}/buildcache", f"{self.top}/buildcache")
        self.link = os.path.join(folder.name, "link")
        os.symlink("text/buildcache", self.link)

    def build(self):
        program = f"{self.top}/crates/buildcache/out/buildcache"
        with open(program, "w", encoding="utf-8") as it:
            it.write('#!/bin/sh\necho "$@"; exit 1\n')
        os.chmod(program, 0o755)
        os.utime(program, (2e9, 2e9))

    def call(self, build):
        place = {"PATH": "/usr/bin:/bin", "BUILDCACHE_BUILD": build}
        ran = subprocess.run([self.link, "put", "a b"], env=place, capture_output=True, text=True, timeout=60, check=False)
        return ran.returncode, ran.stdout, ran.stderr

    def test_it_runs_behind_a_link(self):
        self.build()
        self.assertEqual(self.call(""), (1, "put a b\n", ""))
        self.assertEqual(self.call("never"), (1, "put a b\n", ""))

    def test_it_proves_nothing_where_that_is_said(self):
        for is_stale in (False, True):
            with self.subTest(is_stale=is_stale):
                if is_stale:
                    self.build()
                    os.utime(f"{self.top}/crates/buildcache/src/main.rt", (2.1e9, 2.1e9))
                status, out, err = self.call("never")
                self.assertEqual((status, out, err.count("\n"), err[:7]), (3, "", 1, "error: "), err)

    def test_another_word_is_refused(self):
        self.assertEqual(self.call("no")[0], 2)
