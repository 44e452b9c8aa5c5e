"""Tests of judge.py: what is told of a verdict, what is written, and what is refused. judge_case.py says what stands in the
program's place."""

import hashlib
import json
import os
import re
import shutil
import stat
from unittest import mock

import archives
import cones
import judge
import judged
import judgements
import summaries
from read_plans import SOURCES, Made, Node, Plans
from shared import previews, stores
from shared.crates import TOP
from tests.bazel_case import CHAIN, Case, contents
from tests.judge_case import CLAIM, EMPTY, EXAMPLE, FACTS, NO, YES, JudgeCase
from tests.spawns import log, spawn
from tests.test_archives import called
from verify_stages import read_stages


def page(name):
    return stores.read_file(os.path.join(TOP, "docs", name)).decode()


class Lines(Case):
    def test_the_causes_are_those_of_the_page(self):
        told = re.findall(r"(?m)^- ([0-9]+) `([a-z-]+)(?: (HASH/SIZE|PATH|N))?`", page("FORMATS.md"))
        names = {"HASH/SIZE": "digest", "PATH": "path", "N": "code", "": None}
        self.assertEqual({cause: (int(number), names[what]) for number, cause, what in told}, judgements.CAUSES)

    def test_each_cause_has_advice(self):
        for cause in judgements.CAUSES:
            means, to_do = summaries.advice_of(cause)
            self.assertTrue(min(len(means), len(to_do)) > 9 and "](" not in means + to_do, cause)
        self.assertEqual(summaries.advice_of("exit-code")[1], "Mend the step")
        self.assertIn("`--against` with the shipped build's log", summaries.advice_of("root-differs")[1])

    def test_a_verdict_by_its_parts(self):
        rows = {
            f"yes {CLAIM} steps 2": (0, None, None, None, None), f"yes {CLAIM} stages 3 steps 2": (0, None, None, None, None),
            "no root cause origin-missing a%20b": (1, None, None, "origin-missing", "a%20b"),
            "no stage 12 step a_b-1 cause exit-code -9": (1, "12", "a_b-1", "exit-code", "-9"),
            f"no stage 2 root cause root-differs {CLAIM}": (1, "2", None, "root-differs", CLAIM),
            "no step s cause frame-differs": (1, None, "s", "frame-differs", None),
        }
        for line, (status, *parts) in rows.items():
            it = judgements.Verdict.of(line, status)
            self.assertEqual([it.stage, it.step, it.cause, it.told], parts, line)
            self.assertRaises(judgements.NotAnswered, judgements.Verdict.of, line, 1 - status)

    def test_what_is_no_verdict(self):
        for line in (
            "", "yes", f"yes {CLAIM}", f"yes {CLAIM} steps 2 ", f"yes {CLAIM} steps", "yes e5/80 steps 2",
            "no step a cause exit-code", "no root cause", "no root cause frame-differs x", "no step a cause input-differs",
            "no step A cause frame-differs",
            "no root cause root-differs 12", "no step a cause other", "no stage 0 root cause frame-differs", f"no {YES}", "maybe",
        ):
            for status in (0, 1, 2, 3):
                self.assertRaises(judgements.NotAnswered, judgements.Verdict.of, line, status)


class Facts(JudgeCase):
    def test_the_line_is_passed_on(self):
        for line, status in ((YES, 0), ("no step gen cause do-not-cache", 1)):
            self.assertEqual(self.judge(EXAMPLE, line=line, status=status), (status, f"{line}\n", ""))
        note = "note: the folder isn't there".replace("'", "")
        self.assertEqual(self.judge(EXAMPLE, line="no root cause result-missing", status=1, note=note),
                         (1, "no root cause result-missing\n", f"{note}\n"))

    def test_a_yes(self):
        self.assertEqual(self.facts(EXAMPLE, YES), FACTS)
        evidence = self.example()
        stores.write_file(f"{evidence}/taken", b"a%20b\nc\n")
        stores.write_file(f"{evidence}/from-cache", b"use\n")
        self.assertEqual(self.facts(evidence, YES), {**FACTS, "taken": ["a b", "c"], "from_cache": ["use"]})

    def test_the_parts_of_a_no(self):
        rows = {
            "no step use cause input-differs data/x": {
                "place": "step", "step": "use", "cause": "input-differs", "number": 9, "path": "data/x",
                "made_by": [{"stage": None, "step": "gen", "path": "out/a"}]},
            "no step use cause input-unexplained d%20e": {
                "place": "step", "step": "use", "cause": "input-unexplained", "number": 7, "path": "d e", "made_by": []},
            "no step use cause input-unexplained data/x/y": {
                "place": "step", "step": "use", "cause": "input-unexplained", "number": 7, "path": "data/x/y", "made_by": []},
            "no step use cause origin-missing out/a": {
                "place": "step", "step": "use", "cause": "origin-missing", "number": 5, "path": "out/a",
                "made_by": [{"stage": None, "step": "gen", "path": "out/a"}]},
            "no step gen cause output-unlisted p": {
                "place": "step", "step": "gen", "cause": "output-unlisted", "number": 13, "path": "p",
                "made_by": [{"stage": None, "step": "gen", "path": "p"}]},
            "no step gen cause exit-code -9": {
                "place": "step", "step": "gen", "cause": "exit-code", "number": 12, "exit_code": -9},
            f"no root cause blob-wrong {EMPTY}": {"place": "root", "cause": "blob-wrong", "number": 2, "digest": EMPTY},
            "no root cause origin-missing res": {
                "place": "root", "cause": "origin-missing", "number": 5, "path": "res",
                "made_by": [{"stage": None, "step": "use", "path": "res"}]},
        }
        for line, parts in rows.items():
            self.assertEqual(self.facts(EXAMPLE, line), {**NO, "line": line, **parts})

    def test_a_list_that_says_something_else_is_refused(self):
        """No verdict looks at a list, and whoever reads a page believes what stands there."""
        rows = {"taken": ("a b", "### buildcache: yes", "../a", ""), "from-cache": ("<b>", "no")}
        for name, line in ((name, it) for name, lines in rows.items() for it in lines):
            shutil.rmtree(self.at("asked"), ignore_errors=True)
            stores.write_file(os.path.join(self.example(), name), f"{line}\n".encode())
            status, out, err = self.judge(self.at("asked"), "--json")
            self.assertEqual((status, out), (2, ""))
            self.assertIn(f"{name}\": {line!r} is no", err)

    def test_a_false_result_by_the_program(self):
        """The result of the step that makes card.txt has another digest."""
        maker = {"step": "genrule-pages-card-txt", "path": "bazel-out/k8-fastbuild/bin/pages/card.txt"}
        for words, stage in ([], None), (["--stages", "3"], 3):
            shutil.rmtree(self.at("asked"), ignore_errors=True)
            evidence = self.release(*words)
            records = [content for path, content in contents(evidence).items() if path.endswith("record")]
            action = re.search(rb"step genrule-pages-card-txt ([0-9a-f]{64})/", b"".join(records))[1]
            place = self.at("asked", "store", "ac", action.decode())
            changed = re.sub(rb"[0-9a-f]{64}", hashlib.sha256(b"Hello, Mallory!").hexdigest().encode(), stores.read_file(place))
            stores.write_file(place, changed)
            told = self.judged_by_program(evidence, "--json")
            if told:
                facts = json.loads(told[1])
                self.assertEqual((told[0], facts["made_by"]), (1, [{"stage": stage, **maker}]))
                self.assertEqual([facts[it] for it in ("stage", "step", "cause")], [stage, "pages-pages-site", "input-differs"])
                self.assertEqual([facts[it] for it in ("steps", "stages", "from_cache")], [11, stage and 4, []])
                self.assertEqual(len(facts["taken"]), 2)

    def test_the_files_that_differ(self):
        """A file of other bytes, one without its bit, and one that was added; a link where a file was made."""
        self.ship({"result": "\n", "more": ""})
        line, made = f"no root cause root-differs {CLAIM}", [{"stage": None, "step": "use", "path": "res"}]
        facts = self.facts(EXAMPLE, line, "--artifact", self.at("shipped"))
        # (the build ends in a file that may not be run)
        self.assertEqual(facts["differs"], [{"path": "more", "made_by": []}, {"path": "result", "made_by": made}])
        self.assertEqual((facts["place"], facts["made_by"], facts["digest"]), ("root", None, CLAIM))
        os.chmod(self.at("shipped", "result"), 0o644)
        facts = self.facts(EXAMPLE, line, "--artifact", self.at("shipped"))
        self.assertEqual(facts["differs"], [{"path": "more", "made_by": []}])
        os.remove(self.at("shipped", "result"))
        os.symlink("more", self.at("shipped", "result"))
        self.assertEqual(len(self.facts(EXAMPLE, line, "--artifact", self.at("shipped"))["differs"]), 2)
        self.assertIsNone(self.facts(EXAMPLE, line)["differs"])

    def test_an_archive_and_a_claim(self):
        self.ship({"result": "\n"})
        os.chmod(self.at("shipped", "result"), 0o644)
        with archives.written(self.at("e.tar")) as out:
            for name, content in sorted(contents(EXAMPLE).items(), key=lambda it: it[0].split("/")):
                out.add(name, content)
        for evidence in EXAMPLE, self.at("e.tar"):
            self.assertEqual(self.facts(evidence, YES, "--artifact", self.at("shipped")), FACTS)
            told = self.judged_by_program(evidence, "--artifact", self.at("shipped"))
            self.assertIn(told, (None, (0, f"{YES}\n", "")))

    def test_the_words_of_the_program(self):
        """One plan is given as it is, a folder or an archive; the server has blobs alone."""
        self.ship({"result": "\n"})
        os.chmod(self.at("shipped", "result"), 0o644)
        with archives.written(self.at("e.tar")) as out:
            for name, content in sorted(contents(EXAMPLE).items(), key=lambda it: it[0] != "sources"):
                out.add(name, content)
        server = ["--server", "127.0.0.1:1", "--prefix", "/x"]
        rows = {
            (EXAMPLE,): [EXAMPLE], (self.at("e.tar"),): [self.at("e.tar")], (EXAMPLE, *server): [EXAMPLE, *server],
            (self.at("e.tar"), "--artifact", self.at("shipped"), *server): [self.at("e.tar"), *server, "--claim", CLAIM],
        }
        for words, given in rows.items():
            told = f"printf '%s\\n' \"$@\" >{self.at('given')}"
            self.assertEqual(self.judge(*words, before=told), (0, f"{YES}\n", ""))
            self.assertEqual(self.text("given").split("\n"), ["verify", *given, ""])

    def test_evidence_that_is_named(self):
        """docs/VERIFY.md has its hash."""
        named = "3bec0ca6c3aa5628d0de3b915c45c51a91892ecf68b3f81eaddb147874ecf850"
        self.assertEqual(self.judge(EXAMPLE, "--evidence", named), (0, f"{YES}\n", ""))
        self.assertEqual(self.judge(self.example(), "--evidence", named), (0, f"{YES}\n", ""))
        status, out, err = self.judge(EXAMPLE, "--evidence", "0" * 64)
        self.assertEqual((status, out, err), (2, "", f'error: "{EXAMPLE}" is other evidence, {named}\n'))

    def test_a_yes_to_another_claim_is_none(self):
        self.ship({"result": "other"})
        status, out, err = self.judge(EXAMPLE, "--artifact", self.at("shipped"))
        self.assertEqual((status, out), (3, ""))
        self.assertRegex(err, r"\Aerror: the program's yes, .*, isn't of the claim [0-9a-f]{64}/82\n\Z")


class Makers(JudgeCase):
    """Who made what stands at a path, by the lines of the plans."""

    def plans(self, *texts):
        """The plans with these texts, one a stage."""
        names = [str(it) for it in range(1, len(texts) + 1)] if len(texts) > 1 else [""]
        for name, text in zip(names, texts):
            stores.write_texts(self.at("asked", name), {"plan": text.split("\n"), "sources": [EMPTY], "claim": [EMPTY]})
        listed = {"stages": names} if len(texts) > 1 else {}
        stores.write_texts(self.at("asked"), {"sources": [EMPTY], "claim": [EMPTY], **listed})
        return Plans(read_stages(self.at("asked")))

    def test_lines_of_one_plan(self):
        step_b = f"step b {EMPTY}\nin d out a o\nin d/x%20y src f\nin e src g"
        plans = self.plans(f"buildplan 2\nstep a {EMPTY}\nin s src .\n{step_b}\nroot")
        rows = {
            "d/x y": [Made(Node(0, "a"), "o/x y"), Made(SOURCES, "f")], "d/z": [Made(Node(0, "a"), "o/z")],
            "d": [Made(Node(0, "a"), "o")], "e/h/i": [Made(SOURCES, "g/h/i")], "ee": [], "f": [],
        }
        for path, made in rows.items():
            self.assertEqual(plans.origins_at(0, "b", path), made, path)
        self.assertEqual(plans.origins_at(0, "a", "s/t"), [Made(SOURCES, "t")])
        self.assertEqual(plans.origins_at(0, "a", "s"), [Made(SOURCES, "")])
        self.assertEqual(plans.readers(), {SOURCES: [Node(0, "a"), Node(0, "b")], Node(0, "a"): [Node(0, "b")]})
        self.assertEqual(plans.count(), 2)

    def test_through_stages(self):
        plans = self.plans(
            f"buildplan 1\nstep a {EMPTY}\nin s src x\nroot\nin sources src .\nin stage1/o out a o",
            f"buildplan 1\nstep b {EMPTY}\nin s src sources/y\nroot\n"
            "in sources src sources\nin stage1 src stage1\nin stage2/p out b p",
            f"buildplan 1\nstep c {EMPTY}\nin o src stage1/o\nin p/q src stage2/p/q\nin z src sources/z\nroot\n"
            "in r out c r\nin t src stage1",
        )
        rows = {"o/1": (0, "a", "o/1"), "p/q": (1, "b", "p/q"), "z/w": (-1, "", "z/w")}
        for path, (stage, step, at) in rows.items():
            self.assertEqual(plans.origins_at(2, "c", path), [Made(Node(stage, step), at)], path)
        self.assertEqual(plans.all_of(2, None), [Made(Node(2, "c"), "r"), Made(Node(0, "a"), "o")])
        self.assertEqual(plans.readers()[Node(0, "a")], [Node(2, "c"), Node(2, None)])

    def test_a_plan_that_is_none(self):
        for line in ("step A 1", "in a", "in a src", "in a out b", "roots"):
            with self.assertRaisesRegex(judge.Refused, r"the plan: line 2 is none of a plan"):
                self.plans(f"buildplan 1\n{line}\nroot")


class Files(JudgeCase):
    """What is written, and when nothing is."""

    FILES = ("--attest", "a.json", "--summary", "s.md", "--cone", "c.dot")

    def words(self):
        return [it if it.startswith("--") else self.at("out", it) for it in self.FILES]

    def setUp(self):
        super().setUp()
        os.mkdir(self.at("out"))

    def leave(self):
        """What an earlier run wrote."""
        for name in self.FILES[1::2]:
            stores.write_file(self.at("out", name), b"earlier")

    def test_nothing_is_written_without_a_verdict(self):
        evidence, error = self.example(), "error: it went wrong"
        for line, status, told in (("", 2, 2), ("", 3, 3), ("", 134, 3), (YES, 2, 2), ("", 0, 3), ("no", 1, 3), (YES, 1, 3)):
            self.leave()
            found = self.judge(evidence, *self.words(), line=line, status=status, note=error)
            self.assertEqual(found[:2], (told, ""))
            self.assertRegex(found[2], r"(?s)\A(error: it went wrong\n)?(error: .*\n)?\Z")
            self.assertEqual(os.listdir(self.at("out")), [])

    def test_an_error_of_the_program_is_passed_on(self):
        error = 'error: "x/plan": line 3: no'
        self.assertEqual(self.judge(EXAMPLE, line="", status=2, note=error), (2, "", f"{error}\n"))

    def test_all_or_nothing(self):
        """A file that can't be put into its place leaves none that is new."""
        evidence, replace = self.example(), os.replace
        for count in (0, 1):
            self.leave()
            calls = [replace] * count + [mock.Mock(side_effect=OSError("no room"))]
            with mock.patch("os.replace", lambda *words: calls.pop(0)(*words)):
                self.assertEqual(self.judge(evidence, *self.words()), (3, "", "error: no room\n"))
            self.assertEqual(os.listdir(self.at("out")), [])
        with mock.patch("shared.command_line.say", side_effect=OSError("standard output is closed")):
            self.assertEqual(self.judge(evidence, *self.words())[0], 3)
        self.assertEqual(os.listdir(self.at("out")), [])
        self.leave()
        self.assertEqual(self.judge(evidence, *self.words()), (0, f"{YES}\n", ""))
        # (of a yes there is no cone, also none of an earlier no)
        self.assertEqual(sorted(os.listdir(self.at("out"))), ["a.json", "s.md"])
        self.assertEqual(stat.S_IMODE(os.stat(self.at("out", "s.md")).st_mode) & 0o400, 0o400)

    def test_places_that_are_refused(self):
        evidence = self.example()
        self.ship({"result": "\n"})
        stores.write_file(self.at("log"), b"")
        os.symlink(self.at("log"), self.at("link"))
        rows = {
            self.at("asked", "plan"): (2, "lies in what is judged"),
            self.at("asked", "store", "x"): (2, "lies in what is judged"),
            self.at("shipped", "x"): (2, "lies in what is judged"), self.at("out"): (2, "is there, and no file"),
            self.at("link"): (2, "is there, and no file"), "/dev/null": (2, "is there, and no file"),
            self.at("none", "x"): (3, "its folder isn't there"),
        }
        before = contents(self.at("asked"))
        for place, (status, why) in rows.items():
            found = self.judge(evidence, "--artifact", self.at("shipped"), "--summary", place)
            self.assertEqual(found[:2], (status, ""), place)
            self.assertRegex(found[2], rf"\Aerror: .*{re.escape(why)}.*\n\Z")
        twice = self.judge(evidence, "--attest", self.at("x"), "--summary", self.at("out", "..", "x"))
        self.assertEqual((twice[0], "is named twice" in twice[2]), (2, True))
        self.assertEqual(contents(self.at("asked")), before)
        self.assertEqual(self.judge(evidence, "--cone", "c.png")[0], 2)

    def test_what_is_changed_while_it_is_judged(self):
        for what in ("plan", "record", "claim", "taken", "store/ac/" + os.listdir(f"{EXAMPLE}/store/ac")[0]):
            shutil.rmtree(self.at("asked"), ignore_errors=True)
            evidence = self.example()
            stores.write_file(f"{evidence}/taken", b"")
            found = self.judge(evidence, *self.words(), before=f"printf x >>{evidence}/{what}")
            self.assertEqual((found[0], found[1]), (2, ""), what)
            self.assertEqual(os.listdir(self.at("out")), [])
        shutil.rmtree(self.at("asked"))
        found = self.judge(self.example(), "--json", before=f"echo >>{self.at('program')}")
        self.assertEqual((found[0], found[1]), (2, ""))
        self.assertIn("or the program was changed while it was judged", found[2])

    def test_an_unproved_program_is_refused(self):
        os.environ.pop(previews.VARIABLE, None)
        program = self.says(YES, before=f"# {previews.MARKS[0].decode()}")
        status, out, err = called(judge.main, EXAMPLE, "--program", program, "--summary", self.at("out", "s.md"))
        self.assertEqual((status, out, os.listdir(self.at("out"))), (3, "", []))
        self.assertIn("nothing is proved of that", err)

    def test_the_hash_of_the_program(self):
        """Of the repository's own script it is that of what the script runs."""
        launcher = self.says(YES)
        stores.write_file(self.at("built"), b"built")
        with mock.patch.multiple(judged, LAUNCHER=launcher, BUILT=self.at("built")):
            self.assertEqual(judged.Program.at(launcher).sha256, hashlib.sha256(b"built").hexdigest())
            shutil.copy(launcher, self.at("other"))
            told = judged.Program.at(self.at("other"))
            self.assertEqual(told.sha256, hashlib.sha256(stores.read_file(launcher)).hexdigest())
        self.assertEqual((told.version, told.is_changed()), ("7.8", False))
        stores.write_file(self.at("other"), b"another")
        self.assertTrue(told.is_changed())

    def test_a_program_without_a_version(self):
        stores.write_file(self.at("other"), f"#!/bin/sh\necho {YES}\n".encode())
        os.chmod(self.at("other"), 0o755)
        status, out, err = called(judge.main, EXAMPLE, "--program", self.at("other"), "--json")
        self.assertEqual((status, out), (3, ""))
        self.assertIn("tells no version", err)


class Summaries(JudgeCase):
    def summary(self, evidence, line, *words):
        self.judge(evidence, "--summary", self.at("s.md"), *words, line=line, status=0 if line.startswith("yes") else 1)
        return self.text("s.md").splitlines()

    def test_a_yes(self):
        evidence = self.example()
        stores.write_file(f"{evidence}/taken", b"a%20b\n")
        lines = self.summary(evidence, YES)
        self.assertEqual(len(lines), 10)
        self.assertEqual(lines[:7], [
            "### buildcache: yes", "", f"`{YES}`", "", "- **Files**: 1: `result`", "- **Made by**: `use`",
            f"- **Build**: 2 steps, of the sources `{EMPTY}`; taken 1: `a%20b`",
        ])
        self.assertEqual(lines[9], "- **Now**: Ship exactly what was judged, and keep the evidence")
        stores.write_file(f"{evidence}/from-cache", b"gen\nuse\n")
        lines = self.summary(evidence, YES)
        self.assertTrue(lines[6].endswith("; taken 1: `a%20b`; from a cache 2: `gen`, `use`"))
        self.assertRegex(lines[9], "^- [*]{2}Now[*]{2}: Don't ship on this alone: it stands on a cache's word for 2 steps")

    def test_files_that_are_not_those_of_the_claim_are_not_told(self):
        evidence = self.example()
        stores.write_file(f"{evidence}/artifact.sums", f"{'0' * 64}  evil\n".encode())
        self.assertNotIn("evil", "\n".join(self.summary(evidence, YES)))

    def test_a_no(self):
        lines = self.summary(self.example(), "no step use cause input-differs data/x")
        self.assertEqual(len(lines), 10)
        self.assertEqual(lines[5], "- **Made by**: step `gen` made it as `out/a`")
        self.assertEqual(lines[9], "- **Now**: Find out who made the file")
        lines = self.summary(self.at("asked"), "no step gen cause exit-code 3")
        self.assertEqual(lines[5], "- **Made by**: the cause names no path of the plan")

    def test_files_that_differ(self):
        self.ship({"result": "other", "more": "\n"})
        lines = self.summary(EXAMPLE, f"no root cause root-differs {CLAIM}", "--artifact", self.at("shipped"))
        self.assertEqual(lines[4], "- **Files**: 2: `more`, `result`")
        more = "`more` differs, and no step made it"
        self.assertEqual(lines[5], f"- **Made by**: {more}; `result` differs, step `use` made it as `res`")
        os.remove(self.at("shipped", "more"))
        self.ship({"result": "\n"})
        lines = self.summary(EXAMPLE, f"no root cause root-differs {CLAIM}", "--artifact", self.at("shipped"))
        self.assertEqual(lines[5], "- **Made by**: `result` differs, step `use` made it as `res`")


class Cones(JudgeCase):
    # What says yes to the first stage.
    FIRST = 'case "$*" in *"/1/plan "*) while [ "$1" != --claim ]; do shift; done; echo "yes $2 steps 2"; exit 0;; esac'

    def cone(self, line, spawns=CHAIN, *words):
        """The nodes with their colours, and the edges, where a line is the verdict of the last plan."""
        status, _, err = self.call(log(*spawns), *words)
        self.assertEqual((status, err), (0, ""))
        found = self.judge(self.at("asked"), "--cone", self.at("c.dot"), line=line, status=1, before=self.FIRST)
        self.assertEqual(found[::2], (1, ""))
        text = self.text("c.dot")
        nodes = re.findall(r'^  ("[^"]+") \[label="([^"]+)", fillcolor="([^"]+)"', text, re.M)
        return {label: fill for _, label, fill in nodes}, re.findall(r'^  "([^"]+)" -> "([^"]+)" \[(.*)\];$', text, re.M)

    def test_the_failing_step_its_maker_and_the_way(self):
        nodes, edges = self.cone("no step make-o-d cause input-differs o/t/b", CHAIN, "--outputs", "o/e")
        follow = {"root": cones.FOLLOWS, "make-o-e": cones.FOLLOWS}
        self.assertEqual(nodes, {"make-o-d": cones.FAILS, "make-o-t": cones.MAKES, **follow})
        self.assertEqual(sorted(edges), [
            ("0:make-o-d", "0:make-o-e", 'label=""'), ("0:make-o-e", "0:root", 'label=""'),
            ("0:make-o-t", "0:make-o-d", 'label="o/t/b"'),
        ])

    def test_through_stages(self):
        nodes, edges = self.cone("no step make-o-d cause input-differs o/t/b", CHAIN, "--outputs", "o/e", "--stages", "2")
        self.assertEqual(list(nodes), ["stage 2: make-o-d", "stage 2: root", "stage 1: make-o-t", "stage 2: make-o-e"])
        self.assertIn(("0:make-o-t", "1:make-o-d", 'label="o/t/b"'), edges)

    def test_the_root_of_a_stage(self):
        line = f"no root cause root-differs {CLAIM}"
        nodes, edges = self.cone(line, CHAIN, "--outputs", "o/e", "--stages", "1")
        makers = {"stage 1: make-o-a": cones.MAKES, "stage 2: make-o-t": cones.MAKES}
        self.assertEqual(nodes, {"stage 2: root": cones.FAILS, **makers})
        self.assertEqual(sorted(edges), [("0:make-o-a", "1:make-o-t", 'label=""'), ("0:make-o-a", "1:root", 'label="o/a"'),
                                         ("1:make-o-t", "1:root", 'label="o/t"')])

    def test_no_more_than_twenty_nodes(self):
        chain = [spawn({"s": "s"}, ["o/00"])] + [spawn({f"o/{it:02}": f"o/{it:02}"}, [f"o/{it + 1:02}"]) for it in range(30)]
        nodes, edges = self.cone("no step make-o-02 cause input-differs o/01", chain, "--outputs", "o/30")
        self.assertEqual((len(nodes), list(nodes)[0]), (cones.MOST_NODES, "make-o-02"))
        # (of 29 steps from 02 to 30, one before them and the root, 19 are shown; 17 of the steps that follow)
        self.assertIn("12 more", nodes)
        self.assertIn(("0:make-o-18", "0:root", 'style=dashed, label="12 steps between"'), edges)

    def test_a_source_that_differs(self):
        nodes, edges = self.cone("no step make-o-a cause input-differs s", CHAIN)
        self.assertEqual(nodes["the sources"], cones.MAKES)
        self.assertIn(("sources", "0:make-o-a", 'label="s"'), edges)

    def test_graphviz(self):
        evidence, line = self.example(), "no step use cause input-differs data/x"
        with mock.patch("shutil.which", lambda name: None if name == "dot" else name):
            stores.write_file(self.at("c.svg"), b"earlier")
            status, out, err = self.judge(evidence, "--cone", self.at("c.svg"), line=line, status=1)
        self.assertEqual((status, out), (3, ""))
        why = r"graphviz's dot isn't installed: install graphviz, or give a file \.dot"
        self.assertRegex(err, rf"\Aerror: \".*c\.svg\": {why}\n\Z")
        if shutil.which("dot"):
            self.assertEqual(self.judge(evidence, "--cone", self.at("c.svg"), line=line, status=1)[0], 1)
            self.assertRegex(self.text("c.svg"), r"(?s)<svg .*>gen</text>.*</svg>")
