"""Tests of what bazel_plan.py takes on trust of a log: files that no spawn made, patterns, texts beyond ASCII, and where a
spawn ran.

The logs of `kept_log` are Bazel's (tests/data/README.md says of what)."""


import plans
from tests.bazel_case import Case, kept_log
from tests.spawns import as_bytes, log, spawn

BIN = "bazel-out/k8-fastbuild/bin"


def reader(path, arguments, listed, **other):
    """A spawn that reads a file and makes these outputs."""
    return spawn({path: "1"}, listed, commandArgs=arguments, **other)


# What Bazel writes itself, each as a spawn reads it.
OWN = {
    "status": reader("bazel-out/volatile-status.txt", ["sh"], ["o"]),
    "parameters": reader(f"{BIN}/p/prog-2.params", ["ld", f"@{BIN}/p/prog-2.params"], [f"{BIN}/p/prog"]),
    "parameters by a flag": reader(f"{BIN}/p/a.jar-0.params", ["javac", f"--flagfile={BIN}/p/a.jar-0.params"], [f"{BIN}/p/a.jar", "o"]),
    "a genrule's script": reader(f"{BIN}/p/g.genrule_script.sh", ["/bin/bash", f"{BIN}/p/g.genrule_script.sh"], [f"{BIN}/p/d/o"]),
    "a rule's script": reader(f"{BIN}/p/r.run_shell_1.sh", ["/bin/bash", "-c", f"{BIN}/p/r.run_shell_1.sh", "", "x"], [f"{BIN}/p/o"]),
}
# What has a name like those, and isn't read as Bazel has it read.
OTHERS = {
    "a status of another folder": reader(f"{BIN}/volatile-status.txt", ["sh"], ["o"]),
    "parameters that aren't numbered": reader(f"{BIN}/p/prog.params", ["ld", f"@{BIN}/p/prog.params"], [f"{BIN}/p/prog"]),
    "parameters of another output": reader(f"{BIN}/p/prog-2.params", ["ld", f"@{BIN}/p/prog-2.params"], [f"{BIN}/p/other"]),
    "parameters that no argument names": reader(f"{BIN}/p/prog-2.params", ["ld", f"@{BIN}/p/prog-2.params.x"], [f"{BIN}/p/prog"]),
    "a script beside others": reader(f"{BIN}/p/g.genrule_script.sh", ["/bin/bash", f"{BIN}/p/g.genrule_script.sh", "x"], [f"{BIN}/p/o"]),
    "a script of another package": reader(f"{BIN}/p/g.genrule_script.sh", ["/bin/bash", f"{BIN}/p/g.genrule_script.sh"], [f"{BIN}/q/o"]),
    "a script of another configuration": reader(
        f"{BIN}/p/g.genrule_script.sh", ["/bin/bash", f"{BIN}/p/g.genrule_script.sh"], ["bazel-out/host/bin/p/o"]),
    "a script that is an argument": reader(f"{BIN}/p/r.run_shell_1.sh", ["/bin/bash", "-c", "x", f"{BIN}/p/r.run_shell_1.sh"], [f"{BIN}/p/o"]),
    "a test's log": reader(
        "bazel-out/c/testlogs/p/t/test.log", ["xml.sh", "bazel-out/c/testlogs/p/t/test.log"], ["bazel-out/c/testlogs/p/t/test.xml"],
        mnemonic="TestRunner",
    ),
    "a library's link of no library": reader(f"{BIN}/_solib_k8/libp_Slibx.so", ["ld"], ["o"]),
    **{f"an output {it}": reader(f"{BIN}/p/{it}", ["ld"], ["o"]) for it in ("a.o", "a.a", "a.so", "a", "a.h", "a.runfiles/MANIFEST")},
    "an output by a link of the workspace": reader("bazel-bin/p/a.o", ["ld"], ["o"]),
    "an output by the link of the root": reader("bazel-ws/bazel-out/c/bin/p/a.o", ["ld"], ["o"]),
    "an output of another workspace": reader("external/other/bazel-testlogs/p/a.o", ["ld"], ["o"]),
}


class Taken(Case):
    def test_what_an_earlier_build_left_is_refused(self):
        words = ["--outputs", "*/pages/release/*"]
        reason = f'it reads "{BIN}/greet/hello" of the outputs, and no spawn of the log made it, nor 4 others; Bazel logs what it ran'
        self.refuse(f'spawn "Executing genrule //pages:release": {reason}', kept_log("stale.json"), *words)
        self.turn(kept_log("stale.json"), *words, "--taken", f"{BIN}/greet/hello", f"{BIN}/pages/*")
        self.assertEqual([plans.unescaped(it).removeprefix(f"{BIN}/") for it in self.lines("taken")], [
            "greet/hello", "pages/counts.txt", "pages/site/by name/Hello, Grace!.txt", "pages/site/by name/Letter.txt", "pages/site/index",
        ])

    def test_what_bazel_writes_itself_as_it_logs_that(self):
        plan = self.turn(kept_log("taken.json"), "--refuse-cached")
        host = "bazel-out/host/bin"
        self.assertEqual(self.lines("taken"), [
            f"{host}/t/liblib.so-2.params", f"{host}/t/libshared.so-2.params", f"{host}/t/prog-2.params", f"{host}/t/prog2-2.params",
            f"{BIN}/t/long.genrule_script.sh", f"{BIN}/t/longshell.run_shell_0.sh", f"{BIN}/t/params.out-0.params",
            "bazel-out/stable-status.txt", "bazel-out/volatile-status.txt",
        ])
        links = {it for it in plan if "_solib_" in it}
        self.assertEqual(links, {
            f"in {host}/_solib_k8/libt_Sliblib.so out cpplink-t-liblib-so {host}/t/liblib.so",
            f"in {host}/_solib_k8/_U_S_St_Cprog2___Ut/libshared.so out cpplink-t-libshared-so {host}/t/libshared.so",
        })
        self.judge("yes ")

    def test_links_of_libraries_in_stages(self):
        self.assertEqual(self.call(kept_log("taken.json"), "--outputs", "*/useprog.txt", "--stages", "3")[0], 0)
        library = "src stage2/bazel-out/host/bin/t"
        self.assertEqual({it for it in self.lines("3/plan") if "_solib_" in it}, {
            f"in bazel-out/host/bin/_solib_k8/libt_Sliblib.so {library}/liblib.so",
            f"in bazel-out/host/bin/_solib_k8/_U_S_St_Cprog2___Ut/libshared.so {library}/libshared.so",
        })

    def test_a_library_in_place_of_another(self):
        library, link = f"{BIN}/p_q/liba.so", f"{BIN}/_solib_k8/libp_Uq_Sliba.so"
        for content, line in ((library, "yes "), ("another", f"no step ld-o cause input-differs {plans.escaped(link)}\n")):
            self.turn(log(spawn({}, [library], mnemonic="Ld"), spawn({link: content}, ["o"], mnemonic="Ld")))
            self.assertEqual(self.lines("taken"), [])
            self.judge(line)

    def test_a_library_whose_name_no_link_has(self):
        for link in ("libp_Xa.so", "libp_", "p_Sa.so", "_U_S_Sp___Uq/d/a.so", "_U_S_Sp_Uq/a.so"):
            makers = [spawn({}, [f"bazel-out/c/bin/{it}"]) for it in ("p_Xa.so", "p_", "p/a.so", "q/d/a.so", "q/a.so")]
            self.refuse(f'it reads "bazel-out/c/bin/_solib_k8/{link}" of', log(*makers, spawn({f"bazel-out/c/bin/_solib_k8/{link}": "1"}, ["o"])))

    def test_what_bazel_writes_itself_is_taken(self):
        for name, it in OWN.items():
            with self.subTest(name):
                self.turn(log(it))
                self.assertEqual(self.lines("taken"), [it["inputs"][0]["path"]])
                self.judge("yes ")

    def test_what_only_has_such_a_name_is_refused(self):
        for name, it in OTHERS.items():
            with self.subTest(name):
                self.refuse(f'it reads "{it["inputs"][0]["path"]}" of the outputs, and no spawn of the log made it; Bazel', log(it))

    def test_each_spawn_that_reads_it_has_to_read_it_so(self):
        path = f"{BIN}/p/prog-2.params"
        text = log(OWN["parameters"], spawn({path: "1"}, ["other"]))
        self.refuse(f'spawn "Making other": it reads "{path}"', text)
        self.turn(text, "--outputs", f"{BIN}/p/prog")

    def test_patterns_of_what_is_taken(self):
        text = log(spawn({f"{BIN}/[a]": "1", f"{BIN}/a": "2"}, ["o"]))
        self.refuse(f'it reads "{BIN}/a" of', text, "--taken", f"{BIN}/[[]a]")
        self.refuse(f'it reads "{BIN}/a" of', text, "--taken", f"{BIN}/[a]")
        self.refuse('no file that a step reads, and that no spawn made, has the pattern "x*" of --taken', text, "--taken", "*", "x*")
        self.turn(text, "--taken", f"{BIN}/[a]", "--taken", f"{BIN}/a")
        self.assertEqual(self.lines("taken"), [f"{BIN}/%5Ba%5D", f"{BIN}/a"])

    def test_a_file_of_the_artifact_is_never_taken(self):
        text = log(spawn({f"{BIN}/w": "w"}, [f"{BIN}/o"]))
        self.ship({"w": "w", "o": f"{BIN}/o"})
        words = ["--taken", f"{BIN}/w", "--artifact", self.at("shipped"), "--below", BIN]
        self.refuse(f'the artifact has a file that is "{BIN}/w" in the build, and no spawn of the log made it: either it was found built', text, *words)
        self.refuse(f'no output of the log has the pattern "{BIN}/w"', text, *words, "--outputs", f"{BIN}/w")
        text = log(spawn({f"{BIN}/w": "w"}, [f"{BIN}/o", "bazel-out/opt/bin/w"]))
        self.refuse('made it: "bazel-out/opt/bin/w" is of another configuration', text, *words)


class Patterns(Case):
    BUILD = log(spawn({}, ["o/i.js", "o/[id].js", "o/t"], {"o/i.js": "1", "o/[id].js": "2", "o/t/*": "3", "o/t/x": "4"}), spawn({}, ["o/[u]"], {}))

    def root(self, *patterns):
        plan = self.turn(self.BUILD, "--outputs", *patterns)
        return [plans.unescaped(it.split()[1]) for it in plan[plan.index("root") + 1:]]

    def test_a_path_that_is_an_output_means_that_output(self):
        self.assertEqual(self.root("o/[id].js"), ["o/[id].js"])
        self.assertEqual(self.root("o/t/*"), ["o/t/*"])
        self.assertEqual(self.root("o/[i].js", "o/[id].js"), ["o/[id].js", "o/i.js"])

    def test_one_that_was_not_made_is_no_pattern(self):
        self.refuse('it lists "o/[u]", which has a pattern and, by the log, wasn\'t made', self.BUILD, "--outputs", "o/[u]", "o/i.js")

    def test_a_path_by_a_link_of_the_workspace(self):
        text = log(spawn({}, [f"{BIN}/p/a"]))
        self.refuse(f'has the pattern "bazel-bin/p/*"; outputs have the paths of the execution root, as "{BIN}/p/*"', text, "--outputs", "bazel-bin/p/*")
        hint = f'; outputs have the paths of the execution root, as "{BIN}/p'
        self.refuse(f'the output "{BIN}/p/a" doesn\'t lie below "bazel-bin/p"{hint}"', text, "--outputs", f"{BIN}/p/a", "--below", "bazel-bin/p")
        self.refuse(f'{hint}"', text, "--below", "bazel-bin/p")
        self.ship({"a": "a"})
        reason = f'that is "bazel-bin/p/a" in the build, and no spawn of the log made it{hint}/a"'
        self.refuse(reason, text, "--below", "bazel-bin/p", "--artifact", self.at("shipped"))

    def test_an_artifact_of_other_paths(self):
        self.ship({"i.js": "1"})
        reason = 'no path of the artifact is one of the outputs: it has "i.js", and of the outputs there would be "o/i.js"; --below names'
        self.refuse(reason, self.BUILD, "--outputs", "o/i.js", "--artifact", self.at("shipped"))


class Texts(Case):
    """Texts beyond ASCII."""

    def test_names_as_bazel_logs_them(self):
        made = ["--outputs", f"{BIN}/t/ü ö.txt", "--latin1-names"]
        self.refuse('its argument "source ', kept_log("names.json"))
        self.refuse('which --latin1-names takes for "source ', kept_log("names.json"))
        plan = self.turn(kept_log("names.json"), *made)
        # (the names' bytes by `printf ü | xxd`)
        self.assertIn("in t/%C3%A9.txt src t/%C3%A9.txt", plan)
        self.assertEqual(plan[-1].split()[1], f"{BIN}/t/%C3%BC%20%C3%B6.txt")
        self.judge("yes ")

    def test_a_byte_that_is_no_utf8_as_bazel_logs_it(self):
        for words in ([], ["--latin1-names"]):
            self.refuse("has characters that may be bytes, as Bazel 4 logs them, and as bytes is no UTF-8", kept_log("e9.json"), *words)

    # A spawn with a text at each place.
    PLACES = {
        "its argument": lambda it: spawn({}, ["o"], commandArgs=["/bin/make", it]),
        "its variable": lambda it: spawn({}, ["o"], environmentVariables=[{"name": "A", "value": it}]),
        "its platform's property": lambda it: spawn({}, ["o"], platform={"properties": [{"name": it, "value": ""}]}),
        "its listed output": lambda it: spawn({}, ["o", it], {"o": "o"}, commandArgs=["/bin/make"]),
        "its input": lambda it: spawn({it: ""}, ["o"]),
        "its output": lambda it: spawn({}, ["o"], {"o": "o", it: ""}, commandArgs=["/bin/make", ascii(it)]),
        "its input's target": lambda it: dict(spawn({}, ["o"]), inputs=[{"path": "l", "symlinkTargetPath": it}]),
    }

    def test_each_text_is_meant(self):
        for what, place in self.PLACES.items():
            with self.subTest(what):
                self.refuse(f"{what} 'Ã©' may have each byte logged as a character", log(place("Ã©")))
                self.turn(log(place("Ã©")), "--latin1-names")
                self.turn(log(place("ő")))
                for words in ([], ["--latin1-names"]):
                    self.refuse(f"{what} 'é' has characters that may be bytes", log(place("é")), *words)
                self.refuse(f"{what} 'ő' has characters beyond U+00FF", log(place("ő")), "--latin1-names")

    def test_what_is_meant_is_what_is_encoded(self):
        rows = log(spawn({}, ["o"], commandArgs=["/bin/make", as_bytes("é€\U0001f600")])), log(spawn({}, ["o"], commandArgs=["/bin/make", "é€\U0001f600"]))
        told = [(self.turn(text, *words), self.lines("record")) for text, words in zip(rows, (["--latin1-names"], []))]
        self.assertEqual(told[0], told[1])


class LeftOut(Case):
    def test_what_the_plan_leaves_out_refuses_nothing(self):
        others = {
            "a timeout": [spawn({}, ["x"], timeoutMillis="1")],
            "a text": [spawn({}, ["x"], commandArgs=["Ã©"])],
            "a name": [spawn({"Ã©": "1"}, ["x"])],
            "a field": [spawn({}, ["x"], extra=1)],
            "a file that no spawn made": [spawn({"bazel-out/a.o": "1"}, ["x"])],
            "an output that wasn't made": [spawn({}, ["y"], {}), spawn({"y": "y"}, ["x"])],
            "two outcomes": [spawn({}, ["x"]), spawn({}, ["x"], {"x": "2"})],
            "two makers": [spawn({}, ["x"]), spawn({"s": "s"}, ["x"])],
            "one under another": [spawn({}, ["x"]), spawn({}, ["x/y"])],
            "inputs that meet": [spawn({"s": "s", "s/t": "t"}, ["x"])],
        }
        for name, spawns in others.items():
            with self.subTest(name):
                self.turn(log(spawn({}, ["o"]), *spawns), "--outputs", "o")
                self.judge("yes ")
                status, _, err = self.call(log(spawn({}, ["o"]), *spawns), "--outputs", "o", "x")
                self.assertEqual((status, err[:7]), (2, "error: "))


class Runners(Case):
    def test_where_each_spawn_has_to_have_run(self):
        for runner in ("linux-sandbox", "processwrapper-sandbox", "darwin-sandbox", "local", "worker"):
            self.turn(log(spawn({}, ["a"], runner=runner)), "--refuse-cached")
        others = ("remote", "remote cache hit", "disk cache hit", "docker", "linux-sandbox ", "LOCAL")
        text = log(*(spawn({}, [str(number)], runner=it) for number, it in enumerate(others)), spawn({}, ["a"], runner="local"), spawn({}, ["b"], runner=""))
        self.assertEqual(self.call(text)[1].splitlines()[-1], "steps 8 taken 0 elsewhere 6")
        for runner in ("remote", "remote cache hit", "disk cache hit", "docker", "linux-sandbox ", "LOCAL", ""):
            with self.subTest(runner):
                reason = f"its runner is {runner!r}, which isn't known to run here (this step)"
                self.refuse(reason, log(spawn({}, ["a"], runner=runner)), "--refuse-cached")
        for runner in ("remote cache hit", "linux-sandbox"):
            self.refuse("it came from a cache (this step)", log(spawn({}, ["a"], runner=runner, remoteCacheHit=True)), "--refuse-cached")
