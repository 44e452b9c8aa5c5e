"""Tests of what bazel_plan.py refuses, and of a server as its store."""

import contextlib
import io
import os
import shutil
import subprocess
import sys

import bazel_plan
import plans
from shared import stores
from shared.crates import TOP
from shared.harness import Keeper
from tests.bazel_case import Case, contents
from tests.spawns import files, log, named, spawn



class Servers(Case):
    def setUp(self):
        super().setUp()
        self.server = Keeper()
        self.server.__enter__()
        self.addCleanup(self.server.__exit__)
        self.words = ["--server", self.server.address]

    def fail_to_write(self, reason, *words):
        status, out, err = self.call(log(spawn({}, ["a"])), *words)
        self.assertEqual((status, out, err.count("\n")), (3, "", 1))
        self.assertTrue(err.startswith("error: ") and reason in err, err)
        self.assertFalse(os.path.exists(self.at("asked")))

    def test_a_server_gets_the_blobs_and_the_folder_the_results(self):
        text = log(spawn({"x": "1"}, ["a"]), spawn({"a": "a"}, ["b"]))
        self.turn(text, "--store", self.at("store"))
        plan = self.turn(text, *self.words, "--prefix", "/cache/main")
        self.assertEqual(plan[0], "buildplan 1")
        put = {path.removeprefix("/cache/main/"): content for path, content in self.server.held.items()}
        put.update({path: it for path, it in contents(self.at("asked", "store")).items() if path.startswith("ac/")})
        self.assertEqual(put, contents(self.at("store")))
        self.assertEqual({path.split("/")[3] for path in self.server.held}, {"cas"})
        self.assertEqual(os.listdir(self.at("asked", "store")), ["ac"])

    def test_results_on_the_server_are_neither_believed_nor_changed(self):
        text = log(spawn({}, ["a"]))
        self.turn(text, *self.words)
        told = contents(self.at("asked"))
        action = self.lines("record")[1].split()[2].partition("/")[0]
        self.server.held[f"/ac/{action}"] = b"\x20\x07"
        self.turn(text, *self.words)
        self.assertEqual(contents(self.at("asked")), told)
        self.assertEqual(self.server.held[f"/ac/{action}"], b"\x20\x07")
        self.refuse('spawn "Making a": the store has another result of its action', log(spawn({}, ["a"], {"a": "2"})), *self.words)

    def test_a_server_that_refuses(self):
        self.turn(log(spawn({}, ["a"])), *self.words)
        path = next(it for it in self.server.held if it.startswith("/cas/"))
        shutil.rmtree(self.at("asked"))
        self.server.refused.add(path)
        self.fail_to_write(f"{path}: the server answers 507", *self.words)

    def test_what_a_server_answers_where_it_keeps_what_is_put(self):
        for self.server.taken in (200, 201, 202, 204):
            self.turn(log(spawn({}, ["a"])), *self.words)
        shutil.rmtree(self.at("asked"))
        self.server.taken = 203
        self.fail_to_write("the server answers 203", *self.words)

    def test_a_server_that_is_not_there(self):
        self.fail_to_write("PUT http://127.0.0.1:1/cas/", "--server", "127.0.0.1:1")

    def test_words_of_servers(self):
        text = log(spawn({}, ["a"]))
        for address in ("127.0.0.1:x", "127.0.0.1", ":1", "127.0.0.1:65536", "http://127.0.0.1:1", "a\x01:80"):
            self.refuse(f"{address!r} is no server's address", text, "--server", address)
        self.refuse("'cache/' is no prefix", text, *self.words, "--prefix", "cache/")
        self.refuse("--prefix is for --server", text, "--prefix", "/cache")


# Why a spawn with other fields is refused, and these.
SPAWNS = [
    ("it has no program to run", dict(commandArgs=[])),
    ("it has no program to run", dict(commandArgs=["", "a"])),
    ("its argument 'a\\x00' has a NUL", dict(commandArgs=["a\0"])),
    ("its argument '\\ud800' has a NUL, or is no UTF-8", dict(commandArgs=["\ud800"])),
    ("its variable 'A=' is without a name", dict(environmentVariables=[{"name": "A=", "value": "1"}])),
    ('its variable "A" is set twice', dict(environmentVariables=[{"name": "A", "value": "1"}, {"name": "A", "value": "2"}])),
    ('the property "p" twice', dict(platform={"properties": [{"name": "p", "value": "1"}] * 2})),
    ("property 'p' has a NUL", dict(platform={"properties": [{"name": "p", "value": "\0"}]})),
    ("it lists the output '/a'", dict(listedOutputs=["/a"])),
    ("it lists the output 'a/../b'", dict(listedOutputs=["a/../b"])),
    ('"a/b", which lies under "a"', dict(listedOutputs=["a", "a/b"])),
    ('its input "a\\nb" has no digest', dict(inputs=[{"path": "a\nb"}])),
    ('its input "a\\r\\x1b[2Kő\\u2028" has no digest', dict(inputs=[{"path": "a\r\x1b[2Kő\u2028"}])),
    ("its exit code 2147483648 has more than 32 bits", dict(exitCode=2**31)),
    ('its status is "TIMEOUT", and its exit code 0', dict(status="TIMEOUT")),
    ('it has a field "extra"', dict(extra=1)),
    ("an object with \"nice\", of which this program knows nothing", dict(platform={"nice": 1})),
    ("an object with \"nice\"", dict(platform={"properties": [{"name": "p", "value": "1", "nice": 1}]})),
    ("an object with \"nice\"", dict(environmentVariables=[{"name": "A", "value": "1", "nice": 1}])),
    ("an object with \"nice\"", dict(inputs=[{"path": "a", "digest": {"nice": 1}}])),
    ("not as Bazel writes a spawn", dict(commandArgs=7)),
    ("not as Bazel writes a spawn", dict(timeoutMillis="soon")),
    ("not as Bazel writes a spawn", dict(exitCode=0.5)),
    ("not as Bazel writes a spawn", dict(cacheable="yes")),
    ("it has the input 'a//b'", dict(inputs=files({"a//b": ""}))),
    ("it has the input '" + "n/" * 64 + "n'", dict(inputs=files({"n/" * 64 + "n": ""}))),
    ('it has the input "a" twice, and not the same', dict(inputs=files({"a": "1"}) + files({"a": "2"}))),
    ('its input "a/b" lies under another one, or above it', dict(inputs=files({"a": "1", "a/b": "2"}))),
    ('its input "a" has no digest', dict(inputs=[{"path": "a"}])),
    ('its output "a" has no digest', dict(actualOutputs=[{"path": "a", "digest": {"hash": "A" * 64}}])),
    ('its input "a" has no digest of SHA-256', dict(inputs=[{"path": "a", "digest": dict(named(""), hashFunctionName="BLAKE3")}])),
    ('its input "a" has no digest of SHA-256', dict(inputs=[{"path": "a", "digest": dict(named(""), hashFunctionName="")}])),
    ('its input "a" has a field "mode"', dict(inputs=[{"path": "a", "mode": 1}])),
    ('its input "a" has a digest, and a target as a link', dict(inputs=[dict(files({"a": ""})[0], symlinkTargetPath="b")])),
    ('its input "bazel-out/cfg/a" stands where Bazel maps paths to', dict(inputs=files({"bazel-out/cfg/a": ""}))),
    ('its output "a" is a link whose target', dict(actualOutputs=[{"path": "a", "symlinkTargetPath": "x" * 4097}])),
    ('it made "a/b", and line', dict(actualOutputs=files({"a": "1", "a/b": "2"}))),
]


class Refusals(Case):
    def test_the_line_and_the_spawn_are_named(self):
        text = log(spawn({}, ["a"])) + "\n"
        line = text.count("\n") + 1
        self.refuse(f'log": line {line}: spawn "Making b": it has a timeout of 5 ms', text + log(spawn({}, ["b"], timeoutMillis="5")))

    def test_spawns(self):
        for reason, other in SPAWNS:
            with self.subTest(reason):
                self.refuse(reason, log(spawn({}, ["ok"]), dict(spawn({}, ["a"]), **other)))

    def test_how_a_spawn_is_called(self):
        rows = {"Making": dict(progressMessage="Making", mnemonic="Make"), "//a:b": dict(progressMessage="", targetLabel="//a:b"),
                "Making (//a:b)": dict(progressMessage="Making", targetLabel="//a:b"), "Genrule": dict(progressMessage="", mnemonic="Genrule"),
                "Making //a:b": dict(progressMessage="Making //a:b", targetLabel="//a:b"), "no name": dict(progressMessage="", mnemonic="")}
        for name, fields in rows.items():
            self.refuse(f'line 1: spawn "{name}": it has no program', log(spawn({}, ["a"], commandArgs=[], **fields)))

    def test_fields_that_are_passed_over(self):
        text = log(spawn({}, ["a"], extra={"x": [1]}), spawn({}, ["b"], more=1))
        self.refuse('spawn "Making a": it has a field "extra", of which this program knows nothing (see --pass-over)', text, "--pass-over", "more")
        self.turn(text, "--pass-over", "more", "extra")
        self.refuse('no spawn has the field "none", which is to be passed over', text, "--pass-over", "more", "extra", "none")
        for known in ("exitCode", "runner", "remotable"):
            self.refuse(f'the field "{known}" isn\'t passed over: this program knows it', text, "--pass-over", "extra", known)

    def test_texts_that_are_no_log(self):
        self.refuse("line 2: no JSON object begins here that ends", "\n{")
        self.refuse("line 1: this is no spawn, but another JSON value", "[]")
        twice = log(spawn({}, ["a"])).replace('"exitCode": 0', '"exitCode": 1, "exitCode": 0')
        self.refuse('line 2: an object has "exitCode" twice', "\n" + twice)
        self.refuse("no output of the log is in the artifact; Bazel logs what it ran, so `bazel clean` comes before", "")

    def test_logs_of_other_kinds(self):
        for content, reason in ((b"\x28\xb5\x2f\xfd\x04", "this is a compact log: give"), (b"\x0a\xff", "this is no text: give")):
            with open(self.at("log"), "wb") as out:
                out.write(content)
            err = io.StringIO()
            with contextlib.redirect_stderr(err):
                self.assertEqual(bazel_plan.main([self.at("log"), self.at("asked")]), 2)
            self.assertIn(reason, err.getvalue())

    def test_steps_from_a_cache_where_each_has_to_have_run(self):
        ran, hit = log(spawn({}, ["a"])), spawn({"c": "c"}, ["b"], remoteCacheHit=True)
        text = ran + log(hit, spawn({}, ["c"], cacheHit=True))
        place = f'log": line {1 + ran.count(chr(10))}: spawn "Making b": it came from a cache'
        self.refuse(f"{place} (2 of 3 steps): build with --remote_cache=, --disk", text, "--refuse-cached")
        self.refuse(f"{place} (this step): build with", ran + log(hit), "--refuse-cached")
        self.assertEqual(self.call(text, "--refuse-cached", "--outputs", "a")[1].splitlines()[-1], "steps 1 taken 0 left-out 2")
        self.turn(text)

    def test_an_output_that_two_spawns_made(self):
        self.refuse('it made the output "a", and so did line 1: spawn "Making a"', log(spawn({}, ["a"]), spawn({"x": ""}, ["a"])))

    def test_a_test_that_did_not_fail_has_one_run(self):
        runs = [spawn({}, ["a"], {"a": it}, commandArgs=[it], mnemonic="TestRunner") for it in "12"]
        self.refuse('it made the output "a", and so did', log(*runs))

    def test_a_spawn_that_ran_twice_and_came_to_two_outcomes(self):
        self.refuse("the same command with the same inputs made other outputs than at line 1", log(spawn({}, ["a"]), spawn({}, ["a"], {"a": "2"})))
        self.refuse("failed, and at line 1 it didn't", log(spawn({}, ["a"]), spawn({}, ["a"], exitCode=1)))

    def test_a_store_that_has_another_result(self):
        self.turn(log(spawn({}, ["a"])), "--store", self.at("store"))
        self.turn(log(spawn({}, ["a"]), spawn({}, ["b"])), "--store", self.at("store"))
        shutil.rmtree(self.at("asked"))
        text = log(spawn({}, ["c"]), spawn({}, ["a"], {"a": "other"}))
        self.refuse('spawn "Making a": the store has another result of its action', text, "--store", self.at("store"))

    def test_an_output_that_is_read_and_was_not_made(self):
        self.refuse('it reads "t/x", which line 1: spawn "Making t" lists and, by the log, didn\'t make', log(spawn({}, ["t"], {}), spawn({"t/x": ""}, ["b"])))

    def test_a_circle(self):
        self.refuse("it reads what it makes itself", log(spawn({"b": "b"}, ["a"]), spawn({"a": "a"}, ["b"])))
        self.refuse("it reads what it makes itself", log(spawn({"a": "a"}, ["a"])))

    def test_sources_that_overlap(self):
        for first, then in (("a", "a/b"), ("a/b", "a")):
            self.refuse(f'its input "{then}" lies under or above one', log(spawn({first: "1"}, ["x"]), spawn({then: "1"}, ["y"])))

    def test_a_directory_that_two_spawns_made(self):
        text = log(spawn({}, ["t"], {"t/a": "1"}), spawn({"x": ""}, ["t"], {"t/b": "1"}))
        self.refuse('it made files in the output "t", and so did line 1: spawn "Making t"', text)

    def test_outputs_of_two_spawns_that_overlap(self):
        self.refuse('it made "a/b", and line 1: spawn "Making a" made "a"', log(spawn({}, ["a"]), spawn({}, ["a/b"])))
        self.refuse('"a/b" of the artifact lies under "a", another output', log(spawn({}, ["a"], {"a/x": "1"}), spawn({}, ["a/b"])))

    def test_limits(self):
        steps = log(*(spawn({}, [f"o{it}"]) for it in range(plans.MOST_STEPS + 1)))
        self.assertEqual(self.call(steps)[1].splitlines()[-1], "steps 4097 taken 0 stages 2")
        shutil.rmtree(self.at("asked"))
        inputs = {f"i{it}": "" for it in range(plans.MOST_LINES + 1)}
        self.refuse("it has 65537 lines of a plan, and a step has 65536 at most", log(spawn(inputs, ["a"])))
        whole = spawn({}, ["a"], {f"a/{it}": "" for it in range(plans.MOST_LINES + 1)})
        self.refuse("put together from 65537 outputs", log(whole), "--outputs", "a/*")
        self.refuse("bytes, and buildcache reads 16777216 at most", log(spawn({}, ["a"], commandArgs=["x" * plans.MOST_BYTES])))

    def test_a_run_that_fails_leaves_nothing_of_the_one_before_but_the_store(self):
        for before in ([], ["--stages", "1"]):
            for words in (["--outputs", "b"], ["--artifact", self.at("none")], ["--server", "127.0.0.1:1"]):
                self.turn_or_stages(*before)
                for place, kept in ((self.at("asked", "kept"), "of another"), (self.at("asked", "2", "kept"), "of another")):
                    if os.path.isdir(os.path.dirname(place)):
                        stores.write_file(place, kept.encode())
                self.assertIn(self.call(log(spawn({}, ["a"])), *words)[0], (2, 3))
                left = {it for it in contents(self.at("asked")) if not it.startswith("store/")}
                self.assertEqual(left, {"kept", "2/kept"} if before else {"kept"})
                self.assertFalse(os.path.exists(self.at("asked", "1")))
                shutil.rmtree(self.at("asked"))

    def turn_or_stages(self, *words):
        self.assertEqual(self.call(log(spawn({}, ["a"]), spawn({"a": "a"}, ["b"])), *words)[0], 0)
        self.assertTrue(os.path.exists(self.at("asked", "1", "plan") if words else self.at("asked", "plan")))

    def test_an_output_that_cannot_be_written(self):
        self.call(log(spawn({}, ["a"])))
        shutil.rmtree(self.at("asked"))
        rows = {"exec >/dev/full": "[Errno 28] No space left on device", "exec >&-": "standard output is closed",
                "ulimit -f 0": "[Errno 27] File too large"}
        for before, reason in rows.items():
            words = sys.executable, os.path.join(TOP, "tools", "evidence", "bazel_plan.py"), self.at("log"), self.at("asked")
            done = subprocess.run(["sh", "-c", f'{before}; exec "$@"', "sh", *words], stderr=subprocess.PIPE, text=True)
            self.assertEqual((done.returncode, done.stderr), (3, f"error: {reason}\n"))
            self.assertFalse(os.path.exists(self.at("asked", "claim")))
        self.assertEqual([it for it in contents(self.at("asked")) if ".new" in it], [])

    def test_files_that_cannot_be_read(self):
        for words in (["none", "asked"], [__file__, "asked", "--artifact", "none"]):
            err = io.StringIO()
            with contextlib.redirect_stderr(err):
                self.assertEqual(bazel_plan.main([self.at(words[0]), *words[1:2], *words[2:]]), 3)
            self.assertIn("error: ", err.getvalue())
