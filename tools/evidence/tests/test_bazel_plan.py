"""Tests of bazel_plan.py.

Each rule and each refusal of tools/evidence/README.md has a small log here. The bytes of messages are those of Python's
protobuf (3.21.12, over the fields of remote_execution.proto). bazel_case.py says what judges what is made.
"""

import contextlib
import io
import os
import shutil
import subprocess
import sys

import bazel_log
import bazel_plan
from shared import messages, stores
from shared.crates import TOP
from tests.bazel_case import CHAIN, Case, contents, kept_log
from tests.spawns import as_bytes, log, named, spawn

# One spawn with everything that an action and a result have, and its messages as protobuf encodes them.
WHOLE = spawn(
    {"x/e": "", "a b": "a\n"},
    ["out/l", "out/f", "out/d"],
    {"out/f": "bb\n", "out/d/g": "a\n", "out/d/t/g": "bb\n", "out/d/s/g": "bb\n"},
    commandArgs=["/bin/sh", "-c", ""],
    environmentVariables=[{"name": "b", "value": as_bytes("é")}, {"name": "B", "value": ""}, {"name": "A", "value": "1"}],
    platform={"properties": [{"name": "pool", "value": "b"}, {"name": "os", "value": "linux"}, {"name": "pool", "value": "a"}]},
    cacheable=False,
    exitCode=-1,
    status="NON_ZERO_EXIT",
)
WHOLE["inputs"].append({"path": "l", "symlinkTargetPath": "../x"})
WHOLE["actualOutputs"].append({"path": "out/l", "symlinkTargetPath": "f"})
NOTED = {"notes": ['line 1: spawn "Making out/l out/f out/d" isn\'t to be cached, as by the tag no-cache or local: that is a no']}
COMMAND = (
    "0a072f62696e2f73680a022d630a0012060a014112013112030a014212070a01621202c3a93a056f75742f643a056f75742f663a056f7574"
    "2f6c"
)
INPUT = (
    "0a4d0a0361206212440a40383734323866633532323830336433313036356537626365336366303366653437353039363633316535653037"
    "626264376130666465363063346366323563371002200112490a017812440a40613437396134663937393137336464373439363938383062"
    "66633465353435316136333833316330393036336430376334636361316238313461666565613432104b1a090a016c12042e2e2f78"
)
FRAME = (
    "0a440a4034633335613264646366383132343430313534396561353461386561653866363665326532316339616332633433303236626266"
    "393964666163643235363033103a380152230a0b0a026f7312056c696e75780a090a04706f6f6c1201610a090a04706f6f6c120162"
)
ACTION = (
    "0a440a4034633335613264646366383132343430313534396561353461386561653866363665326532316339616332633433303236626266"
    "393964666163643235363033103a12450a403165376665343263396361616531636565353964383537333931636366656137383963353561"
    "643939623032383538373731353837643362643839356435373110a501380152230a0b0a026f7312056c696e75780a090a04706f6f6c1201"
    "610a090a04706f6f6c120162"
)
TREE = (
    "0ae3010a4b0a016712440a403837343238666335323238303364333130363565376263653363663033666534373530393636333165356530"
    "37626264376130666465363063346366323563371002200112490a017312440a403637663935363362646639396233643064613164623034"
    "3463643961316432653830643835643233366335663966373964663862363337636566333762343430104d12490a017412440a4036376639"
    "3536336264663939623364306461316462303434636439613164326538306438356432333663356639663739646638623633376365663337"
    "62343430104d124d0a4b0a016712440a40613831633331616336323632306239323135613134666630303534346362303761353562373635"
    "3539346633616233626537376537303932336165323763663110032001"
)
RESULT = (
    "124f0a056f75742f6612440a4061383163333161633632363230623932313561313466663030353434636230376135356237363535393466"
    "336162336265373765373039323361653237636631100320011a4e0a056f75742f641a450a40373763343430613333376336663039373961"
    "3661323836356330633336333066633133666166373864613636666432626234636537373833616338346134376410b50220ffffffffffff"
    "ffffff01620a0a056f75742f6c120166"
)


class Messages(Case):
    def test_as_protobuf_encodes_them(self):
        plan = self.turn(log(WHOLE), "--latin1-names", **NOTED)
        record = self.lines("record")
        frame, action = (messages.Digest.of(bytes.fromhex(it)).text() for it in (FRAME, ACTION))
        self.assertEqual(plan[1], f"step make-out-d {frame}")
        self.assertEqual(record, ["buildrecord 1", f"step make-out-d {action}"])
        self.assertEqual(self.stored("ac", action).hex(), RESULT)
        for message in (COMMAND, INPUT, ACTION, TREE):
            digest = messages.Digest.of(bytes.fromhex(message))
            self.assertEqual(self.stored("cas", digest.hash).hex(), message)
        self.judge("no step make-out-d cause do-not-cache\n")

    def test_lines(self):
        self.assertEqual(
            self.turn(log(WHOLE), "--latin1-names", **NOTED)[2:],
            [
                "in a%20b src a%20b",
                "in l src l",
                "in x/e src x/e",
                "root",
                "in out/d out make-out-d out/d",
                "in out/f out make-out-d out/f",
                "in out/l out make-out-d out/l",
            ],
        )


class Rules(Case):
    def test_an_input_that_an_output_made_is_out_and_every_other_src(self):
        plan = self.turn(log(spawn({"a": "1"}, ["b"]), spawn({"a": "1", "b": "b"}, ["c"])))
        self.assertEqual([it for it in plan if it.startswith("in")][:3], ["in a src a", "in a src a", "in b out make-b b"])
        self.judge("yes ")

    def test_an_input_unlike_what_was_made_is_a_no_that_names_the_step(self):
        self.turn(log(spawn({}, ["b"]), spawn({"b": "other"}, ["c"])))
        self.judge("no step make-c cause input-differs b\n")

    def test_a_source_that_is_read_in_two_ways_is_a_no(self):
        self.turn(log(spawn({"d/a": "1"}, ["b"]), spawn({"d/a": "2"}, ["c"])))
        self.judge("no step make-c cause input-differs d/a\n")

    def test_the_log_may_stand_in_any_order(self):
        plan = self.turn(log(spawn({"b": "b"}, ["c"]), spawn({}, ["z"]), spawn({"z": "z"}, ["b"])))
        self.assertEqual([it.split()[1] for it in plan if it.startswith("step")], ["make-z", "make-b", "make-c"])
        self.judge("yes ")

    def test_the_order_of_variables_properties_inputs_and_outputs_is_nothing(self):
        turned = dict(WHOLE, **{key: WHOLE[key][::-1] for key in ("environmentVariables", "inputs", "listedOutputs", "actualOutputs")})
        turned["platform"] = {"properties": WHOLE["platform"]["properties"][::-1]}
        texts = [(self.turn(it, "--latin1-names", **NOTED), self.lines("record"), self.lines("claim")) for it in (log(WHOLE), log(turned))]
        self.assertEqual(texts[0], texts[1])

    def test_a_spawn_that_ran_twice_is_one_step(self):
        plan = self.turn(log(spawn({}, ["a"]), spawn({"a": "a"}, ["b"]), spawn({}, ["a"], runner="remote")))
        self.assertEqual(sum(it.startswith("step") for it in plan), 2)
        self.judge("yes ")

    def test_a_spawn_that_failed_and_ran_again_is_one_step(self):
        self.turn(log(spawn({}, ["a"], {}, exitCode=1, status="NON_ZERO_EXIT"), spawn({}, ["a"])))
        self.judge("yes ")

    def test_a_spawn_that_failed_is_a_no(self):
        self.turn(log(spawn({}, ["b"]), spawn({}, ["a"], {}, exitCode=7, status="NON_ZERO_EXIT")))
        self.judge("no step make-a cause exit-code 7\n")

    def test_a_failed_test_that_ran_again_counts_by_its_last_run(self):
        def attempt(code):
            test = spawn({"t": "t"}, ["logs/xml", "logs/more"], {}, commandArgs=["t"], exitCode=code, timeoutMillis="60000")
            tell = spawn({"logs/log": "l"}, ["logs/xml"], {"logs/xml": f"x{code}"}, commandArgs=["xml", str(code)])
            return [dict(it, mnemonic="TestRunner", progressMessage="Testing //:t") for it in (test, tell)]

        plan = self.turn(log(*attempt(1), *attempt(2), *attempt(0)), "--drop-timeouts")
        self.assertEqual(sum(it.startswith("step") for it in plan), 2)
        claim = messages.directory_message({"logs": {"xml": messages.File(messages.Digest.of(b"x0"))}}, messages.Digest.of)
        self.assertEqual(self.lines("claim"), [messages.Digest.of(claim).text()])
        self.judge("yes ")

    def test_a_failed_test_that_ran_again_as_bazel_logs_it(self):
        text = kept_log("rerun.json")
        self.assertEqual([it["exitCode"] for _, it in bazel_log.objects(io.StringIO(text))], [1, 0, 0, 0])
        plan = self.turn(text, "--drop-timeouts", "--taken", "bazel-out/*/bin/pages/once_test", "*/test.log")
        self.assertEqual(sum(it.startswith("step") for it in plan), 2)
        self.assertEqual(self.lines("taken"), [
            "bazel-out/k8-fastbuild/bin/pages/once_test", "bazel-out/k8-fastbuild/testlogs/pages/once_test/test.log",
        ])
        self.judge("yes ")

    def test_spawns_without_outputs_are_steps(self):
        nothing = spawn({"a": "1"}, [], commandArgs=["/bin/look"], progressMessage="Looking", mnemonic="Look")
        plan = self.turn(log(nothing, spawn({}, ["b", "never"], {"b": "b"})))
        self.assertEqual([it.split()[1] for it in plan if it.startswith("step")], ["look", "make-b"])
        self.judge("yes ")

    def test_a_listed_directory_is_one_output(self):
        plan = self.turn(log(spawn({}, ["t"], {"t/x/ő": "1", "t/y": "2"}), spawn({"t/x/ő": "1"}, ["b"])))
        self.assertEqual(plan[3:], ["in t/x/%C5%91 out make-t t/x/%C5%91", "root", "in b out make-b b", "in t out make-t t"])
        self.judge("yes ")

    def test_an_empty_directory_is_an_output_that_was_not_made(self):
        plan = self.turn(log(spawn({}, ["t"], {}), spawn({}, ["b"])))
        self.assertEqual(plan[-2:], ["root", "in b out make-b b"])
        self.judge("yes ")

    def test_steps_are_named_by_mnemonic_and_output(self):
        long = "bazel-out/k8-opt/bin/" + "long/" * 20 + "End.TXT"
        plan = self.turn(log(*(spawn({}, [it], mnemonic="CppLink") for it in ("a+b", "A_B", "a/b", "bazel-out/host/bin/a/b", long))))
        names = [it.split()[1] for it in plan if it.startswith("step")]
        self.assertEqual(names[:4], ["cpplink-a_b", "cpplink-a-b", "cpplink-a-b-2", "cpplink-a-b-3"])
        self.assertTrue(names[4].endswith("-long-end-txt") and len(names[4]) <= 64, names[4])
        self.judge("yes ")

    def test_a_spawn_that_is_not_to_be_cached_is_a_no(self):
        uncached = spawn({}, ["a"], cacheable=False, targetLabel="//a:b")
        self.turn(log(uncached), notes=['line 1: spawn "Making a (//a:b)" isn\'t to be cached, as by the tag no-cache or local: that is a no'])
        self.judge("no step make-a cause do-not-cache\n")

    def test_an_output_that_is_not_listed_is_a_no(self):
        self.turn(log(spawn({}, ["a"], {"a": "a", "b": "b"})))
        self.judge("no step make-a cause output-unlisted b\n")

    def test_two_spawns_may_list_an_output_that_one_made(self):
        self.turn(log(spawn({}, ["a", "x"], {"a": "a"}), spawn({}, ["x"])))
        self.judge("yes ")

    def test_steps_from_a_cache_are_counted(self):
        hit = [spawn({}, ["b"], remoteCacheHit=True), spawn({}, ["c"], cacheHit=True, remoteCacheHit=False)]
        self.assertEqual(self.call(log(spawn({}, ["a"]), *hit))[1].splitlines()[-1], "steps 3 taken 0 from-cache 2")
        self.assertEqual(self.call(log(spawn({}, ["a"]), *hit), "--outputs", "b")[1].splitlines()[-1], "steps 1 taken 0 left-out 2 from-cache 1")

    def test_a_timeout_may_be_dropped(self):
        self.turn(log(spawn({}, ["a"], timeoutMillis="1000")), "--drop-timeouts")
        self.judge("yes ")


class Artifacts(Case):
    BUILD = log(spawn({}, ["bin/t"], {"bin/t/x": "1", "bin/t/y": "2"}), spawn({}, ["bin/a"]), spawn({}, ["lib/b"]))

    def root(self, *words, notes=()):
        plan = self.turn(self.BUILD, *words, notes=notes)
        return [it.split()[1] for it in plan[plan.index("root") + 1:]]

    def test_patterns_choose_the_outputs(self):
        self.assertEqual(self.root(), ["bin/a", "bin/t", "lib/b"])
        self.assertEqual(self.root("--outputs", "bin/*"), ["bin/a", "bin/t"])
        self.assertEqual(self.root("--outputs", "bin/t/[x]", "lib/?"), ["bin/t/x", "lib/b"])
        self.assertEqual(self.root("--outputs", "bin/t/[x]", "--outputs", "lib/?"), ["bin/t/x", "lib/b"])
        self.assertEqual(self.root("--below", "bin"), ["a", "t"])
        self.assertEqual(self.root("--outputs", "*/t", "--below", "bin/"), ["t"])
        self.judge("yes ")

    def test_a_folder_on_disk_is_claimed(self):
        self.ship({"a": "bin/a", "t/x": "1"})
        self.assertEqual(self.root("--below", "bin", "--artifact", self.at("shipped")), ["a", "t/x"])
        self.judge("yes ")
        words = ["--outputs", "bin/*", "--below", "bin", "--artifact", self.at("shipped")]
        self.assertEqual(self.root(*words, notes=['"t/y" of the artifact is missing; line 1: spawn "Making bin/t" made it']), ["a", "t"])
        self.judge("no root cause root-differs ")
        self.ship({"t/y": "2"})
        self.assertEqual(self.root("--outputs", "bin/*", "--below", "bin", "--artifact", self.at("shipped")), ["a", "t"])
        self.judge("yes ")

    def test_files_that_the_folder_lacks_are_counted(self):
        self.ship({"a": "bin/a", "t/x": "1"})
        told = [self.call(self.BUILD, *words, "--artifact", self.at("shipped"))[1].splitlines()[-1]
                for words in (["--below", "bin"], ["--below", "bin", "--outputs", "bin/*"])]
        self.assertEqual(told, ["steps 2 taken 0 left-out 1 not-shipped 1", "steps 2 taken 0 left-out 1"])
        self.ship({"t/y": "2"})
        self.assertTrue(self.call(self.BUILD, "--below", "bin", "--artifact", self.at("shipped"))[1].endswith("left-out 1\n"))

    def test_a_folder_that_is_unlike_the_build_is_a_no(self):
        self.ship({"bin/a": "other"})
        self.assertEqual(self.root("--artifact", self.at("shipped"), notes=['"bin/a" of the artifact has the digest ']), ["bin/a"])
        self.judge("no root cause root-differs ")

    def test_a_file_that_may_not_be_run_is_another(self):
        self.ship({"bin/a": "bin/a"})
        os.chmod(self.at("shipped", "bin/a"), 0o444)
        self.root("--artifact", self.at("shipped"), notes=['"bin/a" of the artifact may not be executed'])
        self.judge("no root cause root-differs ")

    def test_a_file_that_is_run_as_its_owner_or_its_group_is_refused(self):
        self.ship({"bin/a": "bin/a"})
        for mode in (0o4755, 0o2755):
            os.chmod(self.at("shipped", "bin/a"), mode)
            self.refuse('"bin/a" of the artifact is run as its owner or its group', self.BUILD, "--artifact", self.at("shipped"))

    def test_an_output_with_a_pattern_that_was_not_made_is_refused(self):
        self.ship({"b": "bin/b"})
        words = ["--below", "bin", "--artifact", self.at("shipped"), "--outputs"]
        reason = 'it lists "bin/a", which has a pattern and, by the log, wasn\'t made'
        for other in ({}, {"exitCode": 1, "status": "NON_ZERO_EXIT"}):
            text = log(spawn({}, ["bin/a"], {}, **other), spawn({}, ["bin/b"]))
            self.refuse(f'line 1: spawn "Making bin/a": {reason}', text, *words, "bin/*")
            self.turn(text, *words, "bin/b")
            self.judge("yes ")
            shutil.rmtree(self.at("asked"))
        self.refuse(reason, log(spawn({}, ["bin/a", "bin/b"], {"bin/b": "bin/b"})), *words, "bin/*")

    def test_a_test_may_leave_outputs_with_a_pattern_unmade(self):
        self.turn(log(spawn({}, ["logs/xml", "logs/more"], {"logs/xml": "x"}, mnemonic="TestRunner")), "--outputs", "logs/*")
        self.judge("yes ")

    def test_words_that_would_be_forgotten_are_refused(self):
        for option in ("--artifact", "--below", "--stages", "--store", "--server", "--prefix"):
            with self.assertRaises(SystemExit) as ended, contextlib.redirect_stderr(io.StringIO()) as err:
                bazel_plan.parse(["log", "asked", option, "1", option, "1"])
            self.assertEqual(ended.exception.code, 2)
            self.assertEqual(err.getvalue(), f"error: {option} is given twice; see --help\n")

    def test_nothing_is_written_into_the_artifact(self):
        self.ship({"bin/a": "bin/a", "plan": "of the artifact", "claim": "of it"})
        self.refuse_to_touch()
        os.symlink(self.at("shipped", "bin"), self.at("link"))
        for name in ("plan", "claim"):
            os.remove(self.at("shipped", name))
        self.refuse('/asked" lies in the artifact', self.BUILD, "--artifact", self.folder)
        for place in (self.at("shipped"), self.at("shipped", "new", "store"), self.at("link", "store")):
            self.refuse(f'"{place}" lies in the artifact', self.BUILD, "--artifact", self.at("shipped"), "--store", place)
        self.turn(self.BUILD, "--artifact", self.at("shipped"), "--store", self.at("shipped-store"))

    def refuse_to_touch(self):
        """Refuses to write into the artifact, and removes nothing there, though it has files of these names."""
        before = contents(self.at("shipped"))
        with open(self.at("log"), "w", encoding="utf-8") as out:
            out.write(self.BUILD)
        with contextlib.redirect_stderr(io.StringIO()) as err:
            self.assertEqual(bazel_plan.main([self.at("log"), self.at("shipped"), "--artifact", self.at("shipped")]), 2)
        self.assertIn('/shipped" lies in the artifact', err.getvalue())
        self.assertEqual(contents(self.at("shipped")), before)

    def test_words_without_a_path_are_refused(self):
        self.addCleanup(os.chdir, os.getcwd())
        os.chdir(self.folder)
        stores.write_texts(".", {"claim": []})
        rows = {"LOG": ["", "asked"], "FOLDER": ["log", ""]}
        rows.update((option, ["log", "asked", option, ""]) for option in ("--artifact", "--below", "--store"))
        for name, words in rows.items():
            with self.assertRaises(SystemExit) as ended, contextlib.redirect_stderr(io.StringIO()) as err:
                bazel_plan.main(words)
            self.assertEqual((ended.exception.code, err.getvalue()), (2, f"error: argument {name}: '' is no path; see --help\n"))
        self.assertTrue(os.path.exists("claim"))

    def test_names_are_utf8_in_every_locale(self):
        self.ship({"é": "bb\n", "è/é": "bb\n"})
        os.symlink("é", self.at("shipped", "l"))
        made = {"digest": named("bb\n")}
        outputs = [{"path": as_bytes("é"), **made}, {"path": as_bytes("è/é"), **made}, {"path": "l", "symlinkTargetPath": as_bytes("é")}]
        with open(self.at("log"), "w", encoding="utf-8") as out:
            out.write(log(spawn({}, [it["path"] for it in outputs], actualOutputs=outputs)))
        env = {**os.environ, "LC_ALL": "C", "PYTHONCOERCECLOCALE": "0", "PYTHONUTF8": "0"}
        words = [os.path.join(TOP, "tools", "evidence", "bazel_plan.py"), self.at("log"), self.at("asked"), "--latin1-names", "--artifact", self.at("shipped")]
        done = subprocess.run([sys.executable, *words], capture_output=True, text=True, env=env)
        self.assertEqual((done.returncode, done.stderr), (0, ""))
        # (the Directory's fields by printf, and sha256sum)
        self.assertEqual(self.lines("claim"), ["f1193d19fd8e551e6c0e6234bbedf69a92d2a957309f60dfa32fc35a4866f6f2/163"])

    def test_what_no_spawn_made_is_refused(self):
        self.ship({"bin/new": "1"})
        self.refuse('"bin/new" in the build, and no spawn of the log made it', self.BUILD, "--artifact", self.at("shipped"))

    def test_empty_folders_are_refused(self):
        self.ship({"bin/a": "bin/a"})
        os.mkdir(self.at("shipped", "bin", "none"))
        self.refuse('the folder "bin/none/" of the artifact is empty', self.BUILD, "--artifact", self.at("shipped"))

    def test_links_on_disk_are_links(self):
        os.makedirs(self.at("shipped", "bin"))
        os.symlink("elsewhere", self.at("shipped", "bin", "a"))
        self.root("--artifact", self.at("shipped"), notes=['"bin/a" of the artifact is a link to "elsewhere", and the log has a file'])
        self.judge("no root cause root-differs ")

    def test_names_and_targets_without_utf8_are_refused(self):
        self.ship({"bin/a": "bin/a"})
        os.symlink(b"\xff", os.fsencode(self.at("shipped", "bin", "link")))
        self.refuse('"bin/link" of the artifact is a link whose target', self.BUILD, "--artifact", self.at("shipped"))
        os.remove(self.at("shipped", "bin", "link"))
        os.rename(self.at("shipped", "bin", "a"), os.fsencode(self.at("shipped", "bin")) + b"/\xff")
        self.refuse("which is no UTF-8, or too long", self.BUILD, "--artifact", self.at("shipped"))

    def test_what_is_no_file_is_refused(self):
        os.mkdir(self.at("shipped"))
        os.mkfifo(self.at("shipped", "pipe"))
        self.refuse('"pipe" of the artifact is no file, folder or link', self.BUILD, "--artifact", self.at("shipped"))

    def test_patterns_without_outputs_are_refused(self):
        for pattern in ("x*", "", "bin/"):
            self.refuse(f'no output of the log has the pattern "{pattern}"', self.BUILD, "--outputs", "bin/*", pattern)
        self.refuse('is in the artifact; below "none" it has none, but below "bin" and 1 others', self.BUILD, "--below", "none")
        self.refuse('the output "lib/b" doesn\'t lie below "bin"', self.BUILD, "--outputs", "*/b", "--below", "bin")
        for path in ("../x", "/", "bin//", "/bin"):
            self.refuse(f"{path!r} is no path below", self.BUILD, "--below", path)


class Releases(Case):
    """One build, and each fault that a folder to be shipped may have: what it gets where patterns say what the release has, and
    where the folder does; and what is noted of each file that is otherwise."""

    BUILD = log(
        spawn({"s": "s"}, ["out/mid"]),
        spawn({"out/mid": "out/mid"}, ["out/rel/a", "out/rel/t"], {"out/rel/a": "a", "out/rel/t/ő": "1", "out/rel/t/u/100%": "2"}),
        spawn({}, ["out/rel/b c"], {"out/rel/b c": "b"}),
    )
    MADE = {"a": "a", "b c": "b", "t/ő": "1", "t/u/100%": "2"}
    NO, NOT_MADE, EMPTY = "no root cause root-differs", "no spawn of the log made it", "is empty, and the log has no empty directories"

    def expect(self, told, notes, *words):
        words = ["--below", "out/rel", "--artifact", self.at("shipped"), *words]
        if told in (self.NOT_MADE, self.EMPTY):
            return self.refuse(told, self.BUILD, *words)
        self.turn(self.BUILD, *words, notes=notes)
        self.judge(f"{told} ")

    def test_each_fault(self):
        rel = self.at("shipped")
        move = os.rename
        missing = "is missing; line"
        added = "was added: the log has no such file"
        rows = [
            ("none", "yes", "yes", {}, lambda: None),
            ("other bytes", self.NO, self.NO, {"t/ő": "has the digest "}, lambda: self.ship({"t/ő": "1 "})),
            ("no bit", self.NO, self.NO, {"b c": "may not be executed, as"}, lambda: os.chmod(f"{rel}/b c", 0o644)),
            ("a file more", self.NO, self.NOT_MADE, {"t/.hidden": added}, lambda: self.ship({"t/.hidden": ""})),
            ("a file less", self.NO, "yes", {"a": missing}, lambda: os.remove(f"{rel}/a")),
            ("a folder less", self.NO, "yes", {"t/u/100%": missing, "t/ő": missing}, lambda: shutil.rmtree(f"{rel}/t")),
            ("a link to the file", self.NO, self.NO, {"a": f'is a link to "{self.at("a")}", and the log has a file there: copy with `cp -rL`'},
             lambda: (move(f"{rel}/a", self.at("a")), os.symlink(self.at("a"), f"{rel}/a"))),
            ("a link to the folder", self.NO, self.NO,
             {"t": f'is a link to "{self.at("t")}", and the log has a folder there: copy', "t/u/100%": 'isn\'t there: "t" is', "t/ő": "isn't"},
             lambda: (move(f"{rel}/t", self.at("t")), os.symlink(self.at("t"), f"{rel}/t"))),
            ("a folder for a file", self.NO, self.NOT_MADE, {"a": missing, "a/a": added}, lambda: (os.remove(f"{rel}/a"), self.ship({"a/a": "a"}))),
            ("a file for a folder", self.NO, self.NO, {"t": added, "t/u/100%": 'isn\'t there: "t" is', "t/ő": "isn't there"},
             lambda: (shutil.rmtree(f"{rel}/t"), self.ship({"t": "1"}))),
            ("another case", self.NO, self.NOT_MADE, {"A": added, "a": missing}, lambda: move(f"{rel}/a", f"{rel}/A")),
            ("an escaped name", self.NO, self.NOT_MADE, {"b c": missing, "b%20c": added}, lambda: move(f"{rel}/b c", f"{rel}/b%20c")),
            ("an accent apart", self.NO, self.NOT_MADE, {"t/o\u030b": added, "t/ő": missing}, lambda: move(f"{rel}/t/ő", f"{rel}/t/o\u030b")),
            ("another place", self.NO, self.NOT_MADE, {"t/u/ő": added, "t/ő": missing}, lambda: move(f"{rel}/t/ő", f"{rel}/t/u/ő")),
            ("two exchanged", self.NO, self.NO, {"a": "has the digest", "b c": "has the digest"}, lambda: self.ship({"a": "b", "b c": "a"})),
            ("an empty folder", self.EMPTY, self.EMPTY, {}, lambda: os.mkdir(f"{rel}/t/none")),
        ]
        for name, by_patterns, by_folder, told, spoil in rows:
            with self.subTest(name):
                self.ship(self.MADE)
                spoil()
                notes = [f'"{path}" of the artifact {how}' for path, how in told.items()]
                self.expect(by_patterns, notes, "--outputs", "out/rel/*")
                shutil.rmtree(self.at("asked"), ignore_errors=True)
                self.expect(by_patterns, notes, "--outputs", *(f"out/rel/{it}" for it in self.MADE))
                shutil.rmtree(self.at("asked"), ignore_errors=True)
                # (without patterns what the folder lacks isn't asked for)
                self.expect(by_folder, [it for it in notes if missing not in it])
            for it in os.listdir(self.folder):
                (shutil.rmtree if os.path.isdir(self.at(it)) else os.remove)(self.at(it))


    def test_five_at_once(self):
        rel = self.at("shipped")
        self.ship({**self.MADE, "a": "b", "new": ""})
        os.chmod(f"{rel}/b c", 0o644)
        os.remove(f"{rel}/t/ő")
        os.remove(f"{rel}/t/u/100%")
        os.symlink("../../a", f"{rel}/t/u/100%")
        second, third = (f'; line {line}: spawn "Making {made}" made it' for line, made in ((43, "out/rel/a out/rel/t"), (103, "out/rel/b c")))
        # (by `printf b | sha256sum`, and `printf a`)
        digests = ["3e23e8160039594a33894f6564e1b1348bbd7a0088d42c4acb73eeaed59c009d/1",
                   "ca978112ca1bbdcafac231b39a23dc4da786eff8147c4e72b9807785afee48bb/1"]
        self.expect(self.NO, [
            f'"a" of the artifact has the digest {digests[0]}, and the log {digests[1]}{second}',
            f'"b c" of the artifact may not be executed, as an output of Bazel may{third}',
            '"new" of the artifact was added: the log has no such file',
            f'"t/u/100%" of the artifact is a link to "../../a", and the log has a file there: copy with `cp -rL` into an empty place{second}',
            f'"t/ő" of the artifact is missing{second}',
        ], "--outputs", "out/rel/*")


class LeftOut(Case):
    def steps(self, *words):
        plan = self.turn(log(*CHAIN), *words)
        return [it.split()[1] for it in plan if it.startswith("step")]

    def test_what_nothing_of_the_artifact_reads_is_left_out(self):
        self.assertEqual(self.steps("--outputs", "o/d"), ["make-o-a", "make-o-t", "make-o-d"])
        self.judge("yes ")
        self.assertEqual(self.call(log(*CHAIN), "--outputs", "o/a")[1].splitlines()[-1], "steps 1 taken 0 left-out 3")
        self.judge("yes ")

    def test_all_are_kept_where_that_is_asked_or_all_is_the_artifact(self):
        self.assertEqual(len(self.steps("--outputs", "o/d", "--all")), 4)
        self.assertEqual(len(self.steps()), 4)

    def test_no_blob_is_kept_of_what_is_left_out(self):
        self.turn(log(*CHAIN), "--outputs", "o/a")
        alone = contents(self.at("asked"))
        shutil.rmtree(self.at("asked"))
        self.turn(log(CHAIN[0]))
        self.assertEqual(contents(self.at("asked")), alone)
