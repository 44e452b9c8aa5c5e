"""Tests of what bazel_plan.py makes of directories that one step made, and of logs at random: how the lines of a plan put
together what each spawn read. bazel_case.py says what judges what is made.
"""

import io
import itertools
import random
import re
import shutil

import bazel_log
import plans
from shared import messages
from tests.bazel_case import TREE_STEP, Case, contents, kept_log
from tests.spawns import log, spawn

# A directory of three files that one step makes.


class WholeDirectories(Case):
    def inputs(self, *spawns, name="make-b"):
        """The version of the plan, and the lines of a step's input."""
        plan = self.turn(log(*spawns))
        start = next(number for number, line in enumerate(plan) if line.startswith(f"step {name} ")) + 1
        end = next(number for number in range(start, len(plan)) if not plan[number].startswith("in "))
        return [plan[0], *plan[start:end]]

    def test_what_a_step_made_is_one_line_where_all_of_it_is_read(self):
        self.assertEqual(self.inputs(TREE_STEP, spawn({"t/x/1": "1", "t/x/2": "2", "t/y": "3"}, ["b"])),
                         ["buildplan 1", "in t out make-t t"])
        self.judge("yes ")

    def test_so_is_a_directory_within_it(self):
        self.assertEqual(self.inputs(TREE_STEP, spawn({"t/x/1": "1", "t/x/2": "2"}, ["b"])), ["buildplan 1", "in t/x out make-t t/x"])
        self.judge("yes ")

    def test_where_a_file_of_it_is_not_read_each_other_is_a_line(self):
        self.assertEqual(self.inputs(TREE_STEP, spawn({"t/x/1": "1", "t/y": "3"}, ["b"])),
                         ["buildplan 1", "in t/x/1 out make-t t/x/1", "in t/y out make-t t/y"])
        self.judge("yes ")

    def test_where_a_file_of_it_is_unlike_each_is_a_line(self):
        self.assertEqual(self.inputs(TREE_STEP, spawn({"t/x/1": "1", "t/x/2": "other"}, ["b"])),
                         ["buildplan 1", "in t/x/1 out make-t t/x/1", "in t/x/2 out make-t t/x/2"])
        self.judge("no step make-b cause input-differs t/x/2\n")

    def test_outputs_that_stand_side_by_side_are_no_directory_that_was_made(self):
        self.assertEqual(self.inputs(spawn({}, ["o/1", "o/2"]), spawn({"o/1": "o/1", "o/2": "o/2"}, ["b"])),
                         ["buildplan 1", "in o/1 out make-o-1 o/1", "in o/2 out make-o-1 o/2"])
        self.judge("yes ")

    def test_a_source_directory_is_one_line_where_all_of_it_is_read(self):
        sources = {"s/a/1": "1", "s/a/2": "2", "s/3": "3", "top": "4"}
        self.assertEqual(self.inputs(spawn(sources, ["b"])), ["buildplan 1", "in s src s", "in top src top"])
        self.judge("yes ")
        self.assertEqual(self.inputs(spawn({"s/0": "0"}, ["c"]), spawn(sources, ["b"])),
                         ["buildplan 1", "in s/3 src s/3", "in s/a src s/a", "in top src top"])
        self.judge("yes ")

    def test_a_file_alone_is_its_own_line(self):
        self.assertEqual(self.inputs(spawn({"s/a/1": "1", "r/2": "2"}, ["b"])), ["buildplan 1", "in r/2 src r/2", "in s/a/1 src s/a/1"])
        self.judge("yes ")

    def test_a_directory_of_which_two_steps_read_other_contents_is_one_line_for_the_first(self):
        first, then = spawn({"s/1": "1", "s/2": "2"}, ["a"]), spawn({"s/1": "1", "s/2": "other"}, ["b"])
        self.assertEqual(self.inputs(first, then, name="make-a"), ["buildplan 1", "in s src s"])
        self.assertEqual(self.inputs(first, then), ["buildplan 1", "in s/1 src s/1", "in s/2 src s/2"])
        self.judge("no step make-b cause input-differs s/2\n")

    def test_links_are_of_it(self):
        reader = spawn({"s/1": "1"}, ["b"])
        reader["inputs"].append({"path": "s/l", "symlinkTargetPath": "1"})
        self.assertEqual(self.inputs(reader), ["buildplan 1", "in s src s"])
        self.judge("yes ")

    # A step makes `s/g` in a directory of sources.
    GENERATED = spawn({}, ["s/g"], mnemonic="Gen")

    def test_beside_other_lines_below_it_the_plan_has_version_2(self):
        reader = spawn({"s/1": "1", "s/2": "2", "s/g": "s/g"}, ["b"])
        self.assertEqual(self.inputs(self.GENERATED, reader), ["buildplan 2", "in s src s", "in s/g out gen-s-g s/g"])
        self.judge("yes ")

    def test_beside_other_lines_with_a_file_unread_it_has_version_1(self):
        reader = spawn({"s/1": "1", "s/2": "2", "s/g": "s/g"}, ["b"])
        self.assertEqual(self.inputs(self.GENERATED, reader, spawn({"s/3": "3"}, ["c"])),
                         ["buildplan 1", "in s/1 src s/1", "in s/2 src s/2", "in s/g out gen-s-g s/g"])
        self.judge("yes ")

    def test_a_directory_in_which_another_step_makes_one(self):
        within = spawn({}, ["t/w"], {"t/w/1": "1", "t/w/2": "2"})
        reader = spawn({"t/x/1": "1", "t/x/2": "2", "t/y": "3", "t/w/1": "1", "t/w/2": "2"}, ["b"])
        status, _, err = self.call(log(TREE_STEP, within, reader), "--outputs", "b")
        self.assertEqual((status, err), (0, ""))
        self.assertEqual(self.lines("plan")[0], "buildplan 2")
        self.assertEqual(self.lines("plan")[-4:], ["in t out make-t t", "in t/w out make-t-w t/w", "root", "in b out make-b b"])
        self.judge("yes ")

    def test_a_result_in_the_store_that_then_meets_another_line_is_a_no(self):
        makers = [spawn({}, ["t"], {"t/1": "1", "t/2": "2"}), spawn({}, ["t/3"], {"t/3": "3"})]
        self.turn(log(*makers, spawn({"t/1": "1", "t/2": "2", "t/3": "3"}, ["b"])), "--outputs", "b")
        action = next(line for line in self.lines("record") if line.startswith("step make-t ")).split()[2].partition("/")[0]
        changed = {name: messages.File(messages.Digest.of(content)) for name, content in (("1", b"1"), ("2", b"2"), ("3", b"no"))}
        tree = messages.tree_message(changed)
        for part, name, content in (
            ("cas", messages.Digest.of(tree).hash, tree), ("ac", action, messages.result_message({"t": messages.Digest.of(tree)}))
        ):
            with open(self.at("asked", "store", part, name), "wb") as out:
                out.write(content)
        self.judge("no step make-b cause input-conflict t/3\n")

    def test_a_step_may_read_more_files_than_it_may_have_lines(self):
        sources = {f"s/{number}": "" for number in range(plans.MOST_LINES + 1)}
        self.assertEqual(self.inputs(spawn(sources, ["b"])), ["buildplan 1", "in s src s"])
        self.judge("yes ")

    def test_the_size_of_a_plan(self):
        sources = {f"s/include/{number}.h": "" for number in range(500)}
        readers = [spawn({**sources, f"s/{it}.c": ""}, [f"o{it}"]) for it in range(100)]
        plan = self.turn(log(*readers))
        self.assertEqual(len(plan), 1 + 100 * 3 + 1 + 100)
        self.judge("yes ")


def contents_of(those):
    return {it["path"]: it["digest"]["hash"] for it in those}


class LogsAtRandom(Case):
    """What the lines of plans put together, by another way: it has to be what each spawn read."""

    def spawns(self, rng):
        """Spawns that read what stands below some folders, mostly all of it."""
        held = {path: path for path in ("s/1", "s/2", "s/d/1", "s/d/2", "s/d/e/1", "r/1", "r-/1", "r-/2", "top")}
        spawns = []
        for number in range(rng.randint(1, 6)):
            folders = rng.sample(sorted({it for path in held for it in (path, *plans.folders_of(path))}), rng.randint(0, 3))
            read = {path for path in held if any(f"{path}/".startswith(f"{it}/") for it in folders)}
            read -= set(rng.sample(sorted(read), 1)) if read and rng.random() < 0.3 else set()
            output = rng.choice(("o", "s/o", "s/d/o", "r-/o")) + str(number)
            made = rng.choice(([output], [f"{output}/1"], [f"{output}/1", f"{output}/d/1", f"{output}/d/2"]))
            spawns.append(spawn({path: held[path] for path in read}, [output], {path: f"{path} {number}" for path in made}))
            held.update((path, f"{path} {number}") for path in made)
        return spawns

    def put_together(self, lines, sources, made):
        """What these lines put together, by path."""
        found = {}
        for line in lines:
            _, target, kind, *step, path = line.split(" ")
            there = made[step[0]] if step else sources
            self.assertEqual(kind, "out" if step else "src")
            below = [it for it in there if f"{it}/".startswith(f"{path}/")]
            self.assertTrue(below, line)
            for it in below:
                self.assertEqual(found.setdefault(target + it[len(path):], there[it]), there[it], line)
        return found

    def follow(self, plan, sources, by_name):
        """What a plan's root has; each step's input has to be what its spawn read."""
        made, blocks = {}, "\n".join(plan[1:]).split("\nroot")
        is_met = False
        for block in blocks[0].split("step ")[1:]:
            head, *lines = block.rstrip("\n").split("\n")
            spawned = by_name[head.split(" ")[0]]
            self.assertEqual(self.put_together(lines, sources, made), contents_of(spawned["inputs"]), plan)
            made[head.split(" ")[0]] = contents_of(spawned["actualOutputs"])
            is_met = is_met or plans.targets_meet(it.split(" ")[1] for it in lines)
        self.assertEqual(plan[0], f"buildplan {1 + is_met}")
        return self.put_together(blocks[1].split("\n")[1:], sources, made)

    def test_the_order_of_the_log_is_nothing(self):
        logs = [self.spawns(random.Random(seed)) for seed in range(10)]
        kept = map(kept_log, ("counts.json", "taken.json", "recorded.json"))
        logs += [[it for _, it in bazel_log.objects(io.StringIO(text))] for text in kept]
        for number, spawns in enumerate(logs):
            for words in [], ["--stages", "3"]:
                with self.subTest(number=number, words=words):
                    rng, told = random.Random(number), []
                    for _ in range(4):
                        status, out, err = self.call(log(*spawns), *words)
                        self.assertEqual((status, err), (0, ""))
                        told.append((out, contents(self.at("asked"))))
                        shutil.rmtree(self.at("asked"))
                        rng.shuffle(spawns)
                    self.assertTrue(all(it == told[0] for it in told))

    def test_which_run_of_an_action_counts(self):
        """Whichever ran first: with the runs in each order the files are the same, those names too that a mnemonic gives."""
        outcomes = (("1", 2), ("2", 1), ("3", 1))
        failed = [spawn({}, ["z"], {"z": it}, exitCode=code, status="NON_ZERO_EXIT") for it, code in outcomes]
        linked = spawn({}, ["z"], {}, exitCode=1, status="NON_ZERO_EXIT")
        linked["actualOutputs"] = [{"path": "z", "symlinkTargetPath": "l"}]
        again = [spawn({}, ["a"], mnemonic=it, runner=runner) for it, runner in (("Make", "remote"), ("Other", "linux-sandbox"))]
        cached = spawn({}, ["a"], mnemonic="Make", runner="remote cache hit", remoteCacheHit=True)
        for runs, expected in (([*failed, linked], "step make-z "), ([*again, cached], "step other-a ")):
            told = set()
            for order in itertools.permutations(runs):
                status, out, err = self.call(log(spawn({}, ["b"]), *order, spawn({"s": "s"}, ["c"])))
                self.assertEqual((status, err), (0, ""))
                told.add((out, *sorted(contents(self.at("asked")).items())))
                shutil.rmtree(self.at("asked"))
            self.assertEqual(len(told), 1)
            self.assertIn(expected.encode(), dict(next(iter(told))[1:])["plan"])
            self.assertNotIn("from-cache", next(iter(told))[0])

    def test_what_lines_put_together(self):
        versions = set()
        for seed in range(30):
            spawns = self.spawns(random.Random(seed))
            made = contents_of(file for it in spawns for file in it["actualOutputs"])
            sources = {path: it for spawned in spawns for path, it in contents_of(spawned["inputs"]).items() if path not in made}
            by_name = {"make-" + re.sub("[/-]+", "-", it["listedOutputs"][0]): it for it in spawns}
            with self.subTest(seed):
                plan = self.turn(log(*spawns))
                self.assertEqual(self.follow(plan, sources, by_name), made)
                self.judge("yes ")
                versions.add(plan[0])
                self.call(log(*spawns), "--stages", "2")
                tree = {f"sources/{path}": it for path, it in sources.items()}
                for name in self.lines("stages"):
                    tree = self.follow(self.lines(f"{name}/plan"), tree, by_name)
                self.assertEqual(tree, made)
                shutil.rmtree(self.at("asked"))
        self.assertEqual(versions, {"buildplan 1", "buildplan 2"})
