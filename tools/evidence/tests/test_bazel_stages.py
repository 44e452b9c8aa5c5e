"""Tests of bazel_plan.py in stages, of verify_stages.py, and of a log that Bazel wrote."""

import contextlib
import io
import os
import re
import shutil
import signal
import subprocess
import sys

import bazel_log
import plans
from shared import messages, stores
from shared.crates import TOP
from shared.harness import PROGRAM, Keeper
from tests.bazel_case import CHAIN, HERE, TREE_STEP, Case, contents
from tests.spawns import log, named, spawn

KEPT = os.path.join(TOP, "crates", "test_program", "data", "counts")
MANY_STEPS = os.path.join(TOP, "tools", "end_to_end", "many_steps.py")


def readers_of(spawns, path):
    return [it for it in spawns if any(file["path"] == path for file in it["inputs"])]


class StagesCase(Case):
    def stages(self, *words, text):
        """The lines of each stage's plan, but those that begin a step."""
        status, out, err = self.call(text, "--stages", *words)
        self.assertEqual((status, err), (0, ""))
        names = self.lines("stages")
        self.assertTrue(out.splitlines()[-1].endswith(f" stages {len(names)}"), out)
        plans_of = []
        for name in names:
            with open(self.at("asked", name, "plan"), encoding="utf-8") as it:
                plans_of.append([line for line in it.read().splitlines() if not line.startswith("step")])
        return plans_of

    def verify(self, *words):
        """What verify_stages.py prints, and its status; nothing where the program isn't built."""
        if not os.path.exists(PROGRAM):
            self.is_unjudged = True
            return None
        tool = os.path.join(TOP, "tools", "evidence", "verify_stages.py")
        env = {**os.environ, "BUILDCACHE": PROGRAM}
        done = subprocess.run([sys.executable, tool, self.at("asked"), *words], capture_output=True, text=True, env=env)
        return done.stdout + done.stderr, done.returncode

    def judge_stages(self, line, status, *words):
        verdict = self.verify(*words)
        if verdict:
            self.assertRegex(verdict[0], line)
            self.assertEqual(verdict[1], status)


class KeptLog(Case):
    """A log of Bazel 4.2.3 for //pages:counts of examples/bazel, and what was made of it, which the gate has judged
    in `test_program` (see tools/evidence/README.md)."""

    WORDS = ["--outputs", "*/counts.txt", "*/site", "--below", "bazel-out/k8-fastbuild/bin/pages"]

    def test_it_is_turned_into_the_kept_files(self):
        with open(os.path.join(HERE, "data", "counts.json"), encoding="utf-8") as it:
            self.turn(it.read(), *self.WORDS)
        kept = contents(KEPT)
        for name in ("plan", "record", "taken", *(it for it in kept if it.startswith("store/"))):
            self.assertEqual(contents(self.at("asked"))[name], kept[name], name)
        self.assertEqual(contents(self.at("asked")).keys(), kept.keys() | {"sources", "claim", "from-cache", "sources.sums", "artifact.sums"})
        with open(os.path.join(os.path.dirname(KEPT), "rows"), encoding="utf-8") as it:
            words = next(line for line in it if "--plan counts/plan" in line).split()
        self.assertEqual(self.lines("sources"), [words[words.index("--sources") + 1]])
        self.assertEqual(self.lines("claim"), [words[words.index("--claim") + 1]])
        self.judge("yes 433064578c7792a6a4efc4b6f20749fb2d32ec50b442ef364fadd095453fd7df/165 steps 7\n")

    def spawns(self):
        with open(os.path.join(HERE, "data", "counts.json"), encoding="utf-8") as it:
            return [value for _, value in bazel_log.objects(it)]

    def test_each_input_changed_in_turn(self):
        made = {file["path"] for it in self.spawns() for file in it["actualOutputs"]}
        for index, spawn_read in enumerate(self.spawns()):
            for path in {file["path"] for file in spawn_read["inputs"]}:
                spawns = self.spawns()
                for file in spawns[index]["inputs"]:
                    if file["path"] == path:
                        file["digest"] = named("changed")
                self.turn(log(*spawns), *self.WORDS)
                if path not in made and len(readers_of(spawns, path)) == 1:
                    self.judge("yes ")
                else:
                    self.judge("no step ", f" cause input-differs {plans.escaped(path)}\n")
                shutil.rmtree(self.at("asked"))

    def test_each_output_changed_in_turn(self):
        for index, spawn_made in enumerate(self.spawns()):
            for place, file in enumerate(spawn_made["actualOutputs"]):
                spawns, path = self.spawns(), file["path"]
                spawns[index]["actualOutputs"][place]["digest"] = named("changed")
                self.turn(log(*spawns), *self.WORDS)
                if readers_of(spawns, path):
                    self.judge("no step ", f" cause input-differs {plans.escaped(path)}\n")
                else:
                    self.judge("yes ")
                    self.assertEqual(self.lines("claim")[0].startswith("433064"), not path.endswith("/counts.txt"))
                shutil.rmtree(self.at("asked"))


class KeptLogInStages(StagesCase):
    """The same in stages of three steps."""

    def setUp(self):
        super().setUp()
        with open(os.path.join(HERE, "data", "counts.json"), encoding="utf-8") as it:
            self.stages("3", *KeptLog.WORDS, text=it.read())

    def change_result(self, name, other):
        """Changes the first digest of the result of a step of stage 2."""
        action = next(it.split()[2] for it in self.lines("2/record") if it.startswith(f"step {name} ")).partition("/")[0]
        with open(self.at("asked", "store", "ac", action), "rb") as it:
            result = it.read()
        with open(self.at("asked", "store", "ac", action), "wb") as out:
            out.write(re.sub(rb"[0-9a-f]{64}", other.encode(), result, count=1))

    def test_a_yes(self):
        self.assertEqual(self.lines("stages"), ["1", "2", "3"])
        self.judge_stages(f"^yes {self.lines('claim')[0]} stages 3 steps 7\n$", 0, "--jobs", "4")
        self.assertEqual(self.lines("claim"), ["433064578c7792a6a4efc4b6f20749fb2d32ec50b442ef364fadd095453fd7df/165"])

    def test_another_output_of_a_step_of_stage_2(self):
        self.change_result("genrule-pages-card-txt", named("Hello, Mallory!")["hash"])
        self.judge_stages("^no stage 2 step pages-pages-site cause input-differs bazel-out/k8-fastbuild/bin/pages/card.txt\n$", 1)

    def test_the_claim_of_stage_2_exchanged(self):
        for name in ("2/claim", "3/sources"):
            with open(self.at("asked", name), "w", encoding="utf-8") as out:
                out.write(self.lines("1/claim")[0] + "\n")
        self.judge_stages("^no stage 2 root cause root-differs [0-9a-f]{64}/[0-9]+\n$", 1)


class InStages(StagesCase):
    def stages(self, *words, spawns=CHAIN):
        return super().stages(*words, text=log(*spawns))

    def test_lines(self):
        self.assertEqual(self.stages("2"), [
            ["buildplan 1", "in s src sources/s", "in o/a out make-o-a o/a", "in t/x src sources/t/x", "root",
             "in stage1/o/a out make-o-a o/a", "in stage1/o/t out make-o-t o/t"],
            ["buildplan 1", "in o/t/b src stage1/o/t/b", "in o/a src stage1/o/a", "in o/d out make-o-d o/d", "root",
             "in o/a src stage1/o/a", "in o/d out make-o-d o/d", "in o/e out make-o-e o/e", "in o/t src stage1/o/t"],
        ])
        self.judge_stages("^yes [0-9a-f]{64}/[0-9]+ stages 2 steps 4\n$", 0)

    def test_what_no_later_stage_reads_is_not_handed_on(self):
        # (of stage 1 the third reads nothing, and no stage after the first reads a source)
        chain = [spawn({"s": "s"}, ["a"]), spawn({"a": "a"}, ["b"]), spawn({"b": "b"}, ["c"])]
        self.assertEqual([it[it.index("root"):] for it in self.stages("1", "--outputs", "c", spawns=chain)], [
            ["root", "in stage1/a out make-a a"], ["root", "in stage2/b out make-b b"], ["root", "in c out make-c c"],
        ])
        self.judge_stages("^yes .* stages 3 steps 3\n$", 0, "--jobs", "3")

    def test_the_claim_is_that_of_one_plan(self):
        self.stages("1")
        claim, taken = self.lines("claim"), self.lines("taken")
        shutil.rmtree(self.at("asked"))
        self.turn(log(*CHAIN))
        self.assertEqual((self.lines("claim"), self.lines("taken")), (claim, taken))

    def test_a_build_that_one_plan_holds_has_no_stages(self):
        self.stages("1")
        self.turn(log(*CHAIN))
        self.assertFalse(os.path.exists(self.at("asked", "stages")))

    def test_another_output_in_the_store_is_a_no_that_names_stage_and_step(self):
        self.stages("1")
        with open(self.at("asked", "2", "record"), encoding="utf-8") as it:
            action = it.read().split()[-1].partition("/")[0]
        with open(self.at("asked", "store", "ac", action), "r+b") as it:
            result = it.read()
            other = result.replace(b"o/t", b"o/u")
            it.seek(0)
            it.write(other)
        self.judge_stages("^no stage 2 step make-o-t cause output-unlisted o/u\n$", 1, "--jobs", "4")

    def test_another_claim_between_stages_is_refused(self):
        self.stages("1")
        with open(self.at("asked", "2", "claim"), "w", encoding="utf-8") as out:
            out.write(f"{'0' * 64}/1\n")
        self.judge_stages("^no stage 2 root cause root-differs ", 1)
        self.judge_stages("^error: stage 3: its sources .* aren't the claim of stage 2\n$", 2, "--jobs", "2")
        with open(self.at("asked", "3", "sources"), "w", encoding="utf-8") as out:
            out.write(f"{'0' * 64}/1\n")
        self.judge_stages("^no stage 2 root cause root-differs ", 1, "--jobs", "2")

    def test_a_list_of_stages_that_was_changed_is_refused(self):
        self.stages("1")
        rows = {
            "1 2 3": "the claim of stage 3, .*, isn't the build's, ", "2 3 4": "stage 2: its sources .* aren't the build's",
            "1 2 4": "stage 4: its sources .* aren't the claim of stage 2", "1 2 2 3 4": "stage 2: its sources .* aren't the claim of stage 2",
            "1 3 2 4": "stage 3: its sources ", "": "there are no stages", "1 2 3 4 ../asked/4": "'../asked/4' is no folder of a stage",
            ". 1 2 3 4": "'.' is no folder", "1  2 3 4": "'' is no folder", "1 2\0 3 4": "'2.x00' is no folder", "1 2 3 (": "'.' is no folder", "1 2 3 5": "No such file",
        }
        for names, reason in rows.items():
            with self.subTest(names):
                stores.write_texts(self.at("asked"), {"stages": names.split(" ") if names else []})
                self.judge_stages(f"^error: [^\n]*{reason}[^\n]*\n$", 3 if names == "1 2 3 5" else 2, "--jobs", "2")
        self.stages("1")
        self.judge_stages("^yes ", 0)

    def test_another_claim_of_the_whole_is_refused(self):
        for name, reason in (("claim", "the claim of stage 4, .*, isn't the build's, 0"), ("sources", "stage 1: its sources .* aren't the build's")):
            self.stages("1")
            stores.write_texts(self.at("asked"), {name: [f"{'0' * 64}/1"]})
            self.judge_stages(f"^error: {reason}", 2, "--jobs", "2")

    def test_a_log_of_many_spawns(self):
        for changed, line in (None, "^yes .* stages 3 steps 60\n$"), (30, "^no stage 2 step make-p0-r30-o cause input-differs .*/r29.o\n$"):
            subprocess.run([MANY_STEPS, "--log", self.at("many"), "60", *([str(changed)] if changed else [])], check=True)
            with open(self.at("many"), encoding="utf-8") as it:
                StagesCase.stages(self, "25", "--outputs", "*/r59.o", text=it.read())
            self.judge_stages(line, 1 if changed else 0, "--jobs", "3")
            shutil.rmtree(self.at("asked"))

    def test_a_file_that_is_not_there(self):
        self.stages("2")
        os.remove(self.at("asked", "2", "record"))
        self.judge_stages("^error: .*2/record.*\n$", 3)
        shutil.rmtree(self.at("asked"))
        self.judge_stages("^error: .*stages.*\n$", 3, "--jobs", "2")

    def test_a_path_of_64_names_is_not_handed_on(self):
        deep = "/".join("n" * 64)
        self.refuse("has 64 names, and a stage hands on no more than 63", log(spawn({deep: "1"}, ["a"])), "--stages")
        makers = spawn({}, ["n"], {deep: "1", "n/1": "1"}), spawn({"n/1": "1"}, ["a"])
        self.refuse(f'spawn "Making n": "{deep}" has 64 names', log(*makers), "--stages", "1")

    def test_whole_directories(self):
        chain = [TREE_STEP, spawn({"s/1": "1", "s/2": "2", "t/x/1": "1", "t/x/2": "2", "t/y": "3"}, ["b"])]
        self.assertEqual(self.stages("1", spawns=chain)[1][1:3], ["in s src sources/s", "in t src stage1/t"])
        self.judge_stages("^yes .* stages 2 steps 2\n$", 0)

    def test_only_a_stage_whose_lines_meet_has_version_2(self):
        chain = [spawn({}, ["s/g"]), spawn({"s/1": "1", "s/2": "2", "s/g": "s/g"}, ["a"]), spawn({"a": "a"}, ["b"])]
        found = self.stages("1", spawns=chain)
        self.assertEqual([it[0] for it in found], ["buildplan 1", "buildplan 2", "buildplan 1"])
        self.assertEqual(found[1][1:3], ["in s src sources/s", "in s/g src stage1/s/g"])
        self.judge_stages("^yes .* stages 3 steps 3\n$", 0)

    def test_what_is_handed_on_may_meet(self):
        within = spawn({}, ["t/w"], {"t/w/1": "1"})
        chain = [TREE_STEP, within, spawn({"t/y": "3", "t/w/1": "1"}, ["b"])]
        found = self.stages("2", "--outputs", "b", spawns=chain)
        self.assertEqual(found[0], ["buildplan 2", "root", "in stage1/t out make-t t", "in stage1/t/w out make-t-w t/w"])
        self.assertEqual(found[1][:3], ["buildplan 1", "in t/w/1 src stage1/t/w/1", "in t/y src stage1/t/y"])
        self.judge_stages("^yes .* stages 2 steps 3\n$", 0)

    def test_words(self):
        for words in ("0", "4097", "x"):
            with self.assertRaises(SystemExit), contextlib.redirect_stderr(io.StringIO()):
                self.call(log(*CHAIN), "--stages", words)


class ManyMachines(StagesCase):
    """Jobs that share the stages, by a program that writes down the plan that it is asked about. It says yes, with as many steps
    as the stage's number."""

    YES = (
        'while [ "$1" != --claim ]; do shift; done; claim=$2; while [ "$1" != --plan ]; do shift; done; echo "$2" >>ran; '
        'stage=${2%/plan}; echo "yes $claim steps ${stage##*/}"'
    )

    def setUp(self):
        super().setUp()
        self.stages("1", text=log(*CHAIN))
        self.program_says(self.YES)
        self.evidence = self.ask("--digest")[1].strip()

    def program_says(self, script):
        stores.write_texts(self.folder, {"program": ["#!/bin/sh", script]})
        os.chmod(self.at("program"), 0o755)

    def ask(self, *words, folder="asked", **env):
        tool = os.path.join(TOP, "tools", "evidence", "verify_stages.py")
        ran = subprocess.run([sys.executable, tool, folder, *words], cwd=self.folder, capture_output=True, text=True,
                             env={**os.environ, "BUILDCACHE": self.at("program"), **env})
        return ran.returncode, ran.stdout, ran.stderr

    def shard(self, which, **more):
        """A job, whose line is written into a file of its number."""
        status, out, err = self.ask("--evidence", self.evidence, "--shard", which, **more)
        stores.write_file(self.at(f"shard-{which.partition('/')[0]}"), out.encode())
        return status, out, err

    def all_of(self, *numbers):
        return self.ask("--evidence", self.evidence, "--all-of", *(f"shard-{it}" for it in numbers))

    def refuses(self, reason, found):
        self.assertEqual((found[0], found[1], found[2].count("\n"), found[2][:7]), (2, "", 1, "error: "), found)
        self.assertIn(reason, found[2])

    def ran(self):
        if not os.path.exists(self.at("ran")):
            return []
        with open(self.at("ran"), encoding="utf-8") as it:
            return sorted(it.read().split())

    def test_each_stage_is_verified_by_one_job(self):
        lines = [self.shard(f"{it}/3") for it in (1, 2, 3)]
        told = {1: "verified 1 4 steps 5", 2: "verified 2 steps 2", 3: "verified 3 steps 3"}
        self.assertEqual(lines, [(0, f"shard {it}/3 of {self.evidence} {told[it]}\n", "") for it in told])
        self.assertEqual(self.ran(), [f"asked/{it}/plan" for it in "1234"])
        self.assertEqual(self.all_of(1, 2, 3), (0, f"yes {self.lines('claim')[0]} stages 4 steps 10\n", ""))

    def test_more_jobs_than_stages(self):
        for it in range(1, 6):
            self.shard(f"{it}/5")
        self.assertEqual(self.all_of(*range(1, 6)), (0, f"yes {self.lines('claim')[0]} stages 4 steps 10\n", ""))

    def test_a_stage_that_no_job_verified(self):
        for it in (1, 2, 3):
            self.shard(f"{it}/3")
        self.refuses("the shards 1/3, 2/3, and not each of N once", self.all_of(1, 2))
        self.refuses("the shards 1/3, 2/3, 2/3, and not", self.all_of(1, 2, 2))
        line = f"shard 1/3 of {self.evidence} verified 1 steps 5\n"
        stores.write_file(self.at("shard-1"), line.encode())
        self.refuses('"shard-1" has other stages than those of shard 1/3', self.all_of(1, 2, 3))
        self.shard("1/2")
        self.refuses("the shards 1/2, 2/3, 3/3, and not", self.all_of(1, 2, 3))
        for content in (b"", b"yes\n", line.encode() * 2):
            stores.write_file(self.at("shard-1"), content)
            self.refuses('"shard-1" has no job\'s line', self.all_of(1, 2, 3))
        self.assertEqual(self.ask("--evidence", self.evidence, "--all-of", "none")[0], 3)

    def test_yesterdays_line_of_a_job(self):
        for it in (1, 2):
            self.shard(f"{it}/2")
        line = stores.read_file(self.at("shard-2")).replace(self.evidence.encode(), b"0" * 64)
        stores.write_file(self.at("shard-2"), line)
        self.refuses('"shard-2" is of other evidence, 0000', self.all_of(1, 2))

    def test_numbers(self):
        for which in ("010/16", "1/010", "0/3", "4/3", "0/0", "1/0", "-1/3", "1", "1/", "/3", "", "x/3", "1/3/3", "1 /3", "1/3\n", "\u0661/3"):
            with self.subTest(which):
                self.refuses("is no shard J/N", self.ask("--evidence", self.evidence, f"--shard={which}"))
        self.assertEqual(self.ran(), [])

    def test_yesterdays_copy_on_one_machine(self):
        """Of it everything is in itself as it has to be: with another output somewhere, or another result alone."""
        shutil.copytree(self.at("asked"), self.at("here"))
        other = (*CHAIN[:3], spawn({"o/a": "o/a", "o/d": "o/d"}, ["o/e"], {"o/e": "other"}))
        shutil.rmtree(self.at("asked"))
        self.stages("1", text=log(*other))
        self.assertEqual(self.ask("--shard", "1/3", "--evidence", self.ask("--digest")[1].strip())[0], 0)
        self.refuses('"asked" is other evidence, ', self.shard("1/3"))
        self.assertEqual(self.shard("2/3", folder="here")[0], 0)
        result = self.at("here", "store", "ac", os.listdir(self.at("here", "store", "ac"))[0])
        stores.write_file(result, stores.read_file(result) + b"\x32\0")
        self.refuses('"here" is other evidence, ', self.shard("2/3", folder="here"))

    def test_each_file_is_in_the_digest(self):
        paths = ["stages", "sources", "claim", *(f"{stage}/{it}" for stage in "1234" for it in ("plan", "record", "sources", "claim"))]
        paths += [f"store/ac/{it}" for it in os.listdir(self.at("asked", "store", "ac"))]
        for path in paths:
            held = stores.read_file(self.at("asked", path))
            stores.write_file(self.at("asked", path), held + b"\n")
            found = self.ask("--evidence", self.evidence, "--shard", "1/1")
            self.assertEqual((found[0], found[1], found[2][:7]), (2, "", "error: "), path)
            stores.write_file(self.at("asked", path), held)
        os.remove(self.at("asked", paths[-1]))
        self.refuses('"asked" is other evidence', self.ask("--evidence", self.evidence))
        self.assertEqual(self.ran(), [])

    def test_nothing_is_verified_where_something_lacks(self):
        for words in (["--shard", "1/3"], ["--all-of", "shard-1"], ["--evidence", "", "--shard", "1/3"], ["--evidence", "0"]):
            self.assertEqual(self.ask(*words)[:2], (2, ""))
        for names in ("1 2 3", "2 3 4", "1 3 4", ""):
            stores.write_texts(self.at("asked"), {"stages": names.split()})
            self.assertEqual(self.shard("1/3")[:2], (2, ""))
        for name in ("3/claim", "1/sources", "claim", "sources", "stages", "2/plan", "2/record"):
            self.stages("1", text=log(*CHAIN))
            os.remove(self.at("asked", name))
            self.assertEqual(self.shard("1/3")[:2], (3, ""))
        self.assertEqual(self.ran(), [])

    def test_a_no_of_a_job(self):
        for it in (1, 3):
            self.shard(f"{it}/3")
        self.program_says("echo no root cause root-differs x; exit 1")
        line = "no stage 2 root cause root-differs x\n"
        self.assertEqual(self.shard("2/3"), (1, line, ""))
        self.assertEqual(self.all_of(1, 2, 3), (1, line, ""))

    def test_evidence_that_changes_while_it_is_verified(self):
        for changed in ("4/record", f"store/ac/{self.lines('4/record')[-1].split()[-1].partition('/')[0]}"):
            self.program_says(f"{self.YES}; echo >>asked/{changed}")
            self.refuses('"asked" was changed while it was verified', self.ask("--evidence", self.evidence))
            shutil.rmtree(self.at("asked"))
            self.stages("1", text=log(*CHAIN))

    def test_one_plan(self):
        self.turn(log(*CHAIN))
        self.program_says(self.YES.replace("${stage##*/}", "4"))
        found = self.ask("--digest")[1].strip()
        self.assertEqual(self.ask("--evidence", found), (0, f"yes {self.lines('claim')[0]} steps 4\n", ""))
        self.refuses("is other evidence", self.ask("--evidence", self.evidence))
        self.refuses("has one plan, and no stages", self.ask("--evidence", found, "--shard", "1/1"))
        stores.write_texts(self.at("asked"), {"stages": ["1", "2", "3", "4"]})
        self.refuses("it has stages, and a plan beside them", self.ask("--jobs", "1"))

    def test_results_are_read_from_the_folder(self):
        self.program_says('echo "error: $*" >&2; exit 2')
        server = ["--server", "h:1", "--prefix", "/p"]
        told_of_both = f"{' '.join(server)} --results asked/store"
        for words, told in ([*server, "--jobs", "1"], told_of_both), (["--store", "s"], "--store s"):
            found = self.ask(*words)
            self.assertEqual(found[2].partition(" --sources ")[0], f"error: stage 1: verify {told}")

    def test_what_the_program_is_handed(self):
        self.program_says('echo "no root cause $*"; echo "note: x" >&2; exit 1')
        for words in [], ["--server", "h:1", "--prefix", "/p"]:
            self.assertEqual(self.ask(*words), (1, f"no root cause {' '.join(['verify', 'asked', *words])}\n", "note: x\n"))
        self.program_says('echo "error: $*" >&2; exit 3')
        self.assertEqual(self.ask(), (3, "", "error: verify asked\n"))
        self.program_says("kill -9 $$")
        self.assertEqual(self.ask(), (3, "", "error: the program ends with status -9\n"))


class FalseResults(StagesCase):
    """A server on which somebody put another result of the last step, after the plan was made, for a release that is so too."""

    def setUp(self):
        super().setUp()
        for name, content in (("d", "o/d"), ("e", "false")):
            stores.write_texts(self.at("shipped", "o"), {})
            stores.write_file(self.at("shipped", "o", name), content.encode())
            os.chmod(self.at("shipped", "o", name), 0o755)
        self.assertEqual(self.call(log(*CHAIN), "--outputs", "o/d", "o/e", "--artifact", self.at("shipped"))[0], 0)
        self.server = Keeper()
        self.server.__enter__()
        self.addCleanup(self.server.__exit__)
        self.server.held = {f"/{path}": content for path, content in contents(self.at("asked", "store")).items()}

    def test_they_are_believed_of_a_server_alone(self):
        if not os.path.exists(PROGRAM):
            self.is_unjudged = True
            return
        place = ["--server", self.server.address]
        words = ["--sources", *self.lines("sources"), "--plan", self.at("asked", "plan"), "--record", self.at("asked", "record")]
        plain = [PROGRAM, "verify", *place, *words, "--claim", *self.lines("claim")]
        self.assertIn(b"no root cause root-differs ", subprocess.run(plain, capture_output=True, check=False).stdout)
        action = self.lines("record")[-1].split()[-1].partition("/")[0]
        self.server.held[f"/ac/{action}"] = messages.result_message({"o/e": messages.File(messages.Digest.of(b"false"))})
        self.assertEqual(subprocess.run(plain, capture_output=True, check=False).stdout.decode(), f"yes {self.lines('claim')[0]} steps 4\n")
        self.judge_stages("^no root cause root-differs ", 1, *place)
        self.judge_stages("^no root cause root-differs ", 1)


class LaterVerdicts(StagesCase):
    """A folder of another day, of which is asked whether it is what was claimed."""

    def setUp(self):
        super().setUp()
        stores.write_texts(self.at("shipped", "o"), {"d": [], "e": []})
        for name in ("d", "e"):
            stores.write_file(self.at("shipped", "o", name), f"o/{name}".encode())
            os.chmod(self.at("shipped", "o", name), 0o755)

    def judge_later(self, line, status):
        self.judge_stages(line, status, "--artifact", self.at("shipped"))

    def test_one_plan_and_stages(self):
        for words, no in ([], "^no root cause root-differs "), (["--stages", "1"], "^no stage 4 root cause root-differs "):
            self.assertEqual(self.call(log(*CHAIN), *words, "--outputs", "o/d", "o/e", "--artifact", self.at("shipped"))[0], 0)
            self.judge_later(f"^yes {self.lines('claim')[0]} ", 0)
            stores.write_file(self.at("shipped", "o", "e"), b"other")
            self.judge_later(no, 1)
            stores.write_file(self.at("shipped", "o", "e"), b"o/e")
            os.chmod(self.at("shipped", "o", "e"), 0o644)
            self.judge_later(no, 1)
            os.chmod(self.at("shipped", "o", "e"), 0o755)
            os.symlink("e", self.at("shipped", "o", "f"))
            self.judge_later(no, 1)
            os.remove(self.at("shipped", "o", "f"))
            shutil.rmtree(self.at("asked"))

    def test_no_folder(self):
        self.turn(log(*CHAIN))
        self.judge_later("^no root cause root-differs ", 1)
        shutil.rmtree(self.at("shipped"))
        self.judge_later("^error: .*shipped", 3)
        os.mkdir(self.at("shipped"))
        self.judge_later("^error: the folder .* is empty", 2)


class TheProgram(StagesCase):
    """Which program verifies: the named one, that of BUILDCACHE, else the script that knows whether the built one is current."""

    def test_in_turn(self):
        self.stages("1", text=log(*CHAIN))
        tools = self.at("repository", "tools")
        shutil.copytree(os.path.join(TOP, "tools"), tools, symlinks=True, ignore=shutil.ignore_patterns("tests"))
        for name in ("named", "variable", "repository/buildcache", "repository/crates/buildcache/out/buildcache"):
            os.makedirs(os.path.dirname(self.at(name)), exist_ok=True)
            stores.write_file(self.at(name), f"#!/bin/sh\n[ $1 = verify ] || exit 0\necho 'error: {name}' >&2; exit 3\n".encode())
            os.chmod(self.at(name), 0o755)
        rows = {"named": ["named", "variable"], "variable": [None, "variable"], "repository/buildcache": [None, None]}
        for told, (word, variable) in rows.items():
            env = {**os.environ, "BUILDCACHE": self.at(variable) if variable else ""}
            words = ["--program", self.at(word)] if word else []
            ran = subprocess.run([sys.executable, os.path.join(tools, "evidence", "verify_stages.py"), self.at("asked"), *words],
                                 capture_output=True, text=True, env=env)
            self.assertEqual((ran.returncode, ran.stdout, ran.stderr), (3, "", f"error: {told}\n"))
        stores.write_file(self.at("repository/buildcache"), b"#!/bin/sh\nexit 3\n")
        ran = subprocess.run([sys.executable, os.path.join(tools, "evidence", "verify_stages.py"), self.at("asked")],
                             capture_output=True, text=True, env={**os.environ, "BUILDCACHE": ""})
        self.assertEqual((ran.returncode, ran.stdout, ran.stderr[-22:]), (3, "", 'e" ends with status 3\n'))


class OtherPrograms(Case):
    """verify_stages.py, which asks stage by stage, where BUILDCACHE names a program that answers by the stage's claim, or none."""

    DIGEST = f"{'0' * 64}/1"

    def answer(self, script, *words):
        """What is printed, what is told as an error, and the status, over two stages."""
        for name in ("1", "2", "."):
            stores.write_texts(self.at("asked", name), {"sources": [self.DIGEST], "claim": [self.DIGEST]})
        for name in ("1", "2"):
            stores.write_texts(self.at("asked", name), {"plan": [], "record": []})
        stores.write_texts(self.at("asked"), {"stages": ["1", "2"]})
        return self.ask(script, *words)

    def ask(self, script, *words, before="exec", jobs=("--jobs", "1")):
        """The same, where a shell has `before` before the command."""
        words = (*words, *(() if "--jobs" in words else jobs))
        if script is not None:
            stores.write_texts(self.folder, {"program": ["#!/bin/sh", script]})
            os.chmod(self.at("program"), 0o755)
        command = f'{before} "$@"', "sh", sys.executable, os.path.join(TOP, "tools", "evidence", "verify_stages.py"), self.at("asked")
        env = {**os.environ, "BUILDCACHE": self.at("program")}
        # (a shell in the background ignores interrupts, and so would what it starts)
        done = subprocess.run(["sh", "-c", *command, *words], capture_output=True, text=True, env=env,
                              preexec_fn=lambda: signal.signal(signal.SIGINT, signal.SIG_DFL))
        return done.stdout, done.stderr, done.returncode

    def test_a_note_stands_beside_the_no(self):
        found = self.answer("echo no root cause blob-missing x; echo 'note: none' >&2; exit 1")
        self.assertEqual(found, ("no stage 1 root cause blob-missing x\n", "note: none\n", 1))

    def test_a_fault_is_no_verdict(self):
        other = f"echo yes {'0' * 64}/2 steps 1"
        faults = ("exit 0", "echo a >&2; echo b >&2; exit 101", "exit 1", "exit 3", "exit 101", "kill -9 $$", other, f"echo yes {self.DIGEST} steps 1; exit 1")
        for script, status in (("exit 2", 2), *((it, 3) for it in faults)):
            with self.subTest(script):
                out, err, found = self.answer(script)
                self.assertEqual((out, err.count("\n"), err[:7], found), ("", 1, "error: ", status))
                if script != other:  # (the program alone knows the claim of what it is handed)
                    out, err, found = self.ask(script, jobs=())
                    self.assertEqual((out, err.count("\n"), err[:7], found), ("", 1, "error: ", status))

    def test_files_that_have_no_digest(self):
        two = f"{self.DIGEST}\n{self.DIGEST}\n"
        for content, name in (("", "claim"), ("\n", "1/sources"), ("(\n", "2/claim"), (f"{self.DIGEST}\0", "claim"), (two, "1/claim")):
            with self.subTest(content):
                self.answer("exit 0")
                stores.write_file(self.at("asked", name), content.encode())
                out, err, status = self.ask("exit 0")
                self.assertEqual((out, err.count("\n"), err[:7], status), ("", 1, "error: ", 2))

    def test_words_of_servers(self):
        words, store = (["--server", "h:1", "--prefix", "/p"], ["--server", "h:1"], ["--store", "s"], []), self.at("asked", "store")
        told = [self.answer('echo "error: $*" >&2; exit 2', *it)[1].split(" --sources ")[0] for it in words]
        self.assertEqual([it.removeprefix("error: stage 1: verify --") for it in told],
                         [f"server h:1 --prefix /p --results {store}", f"server h:1 --results {store}", "store s", f"store {store}"])
        rows = {"--store s --store s": "--store is given twice", "--prefix /p": "--prefix is for --server", "--server x": "'x' is no server's"}
        for words, reason in rows.items():
            out, err, status = self.answer("exit 0", *words.split())
            self.assertEqual((out, status, err.count("\n"), err[:7]), ("", 2, 1, "error: "))
            self.assertIn(reason, err)
        self.assertIn("'' is no path", self.answer("exit 0", "--store", "")[1])

    def test_an_output_that_cannot_be_written(self):
        for script in (f"echo yes {self.DIGEST} steps 1", "echo no root cause blob-missing x; exit 1"):
            self.answer(script)
            for before, told in ("exec >/dev/full;", "[Errno 28] No space left on device"), ("exec >&-;", "standard output is closed"):
                self.assertEqual(self.ask(script, before=before), ("", f"error: {told}\n", 3))

    def test_an_error_that_cannot_be_written_has_its_status(self):
        for before in ("exec 2>/dev/full;", "exec 2>&-;"):
            for script, words, status in ("exit 2", [], 2), ("exit 3", [], 3), ("exit 0", ["--none"], 2):
                self.answer(script)
                self.assertEqual(self.ask(script, *words, before=before), ("", "", status))

    def test_an_interrupt_is_no_verdict(self):
        out, err, status = self.answer("kill -INT $PPID; sleep 1; exit 1")
        self.assertEqual((out, err, status), ("", "error: KeyboardInterrupt\n", 3))

    def test_a_program_that_is_not_there(self):
        out, err, status = self.answer(None)
        self.assertEqual((out, err.count("\n"), err[:7], status), ("", 1, "error: ", 3))

    def test_jobs(self):
        line = f"yes {self.DIGEST} st"
        self.assertEqual(self.answer(f"echo {line}eps 1", "--jobs", "64"), (f"{line}ages 2 steps 2\n", "", 0))
        for number in ("0", "65", "x"):
            out, err, status = self.answer("exit 0", "--jobs", number)
            self.assertEqual((out, status), ("", 2))
            self.assertIn(f"{number!r} is no number from 1 to 64", err)
