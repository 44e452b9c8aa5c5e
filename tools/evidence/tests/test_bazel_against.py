"""Tests of --against of bazel_plan.py, which says what another build came to otherwise."""


from tests.bazel_case import Case, kept_log
from tests.spawns import log, spawn


class OtherBuilds(Case):
    def told(self, text, other, *words):
        """The notes on a build beside another, without what each begins with, and the numbers of the last line."""
        other_log = self.at("other")
        with open(other_log, "w", encoding="utf-8") as out:
            out.write(other)
        status, out, err = self.call(text, "--against", other_log, *words)
        self.assertEqual(status, 0, err)
        begun = f'note: against "{other_log}": '
        self.assertTrue(all(it.startswith(begun) for it in err.splitlines()), err)
        return [it.removeprefix(begun) for it in err.splitlines()], out.splitlines()[-1].partition(" taken ")[2]

    def test_a_cache_that_lied_as_bazel_logs_it(self):
        notes, counts = self.told(kept_log("recorded.json"), kept_log("poisoned.json"), "--outputs", "*/pages/release/*")
        card = "bazel-out/k8-fastbuild/bin/pages/card.txt"
        # (of `printf 'Hello, Grace!\\nWith all good wishes.\\n' | sha256sum`, and with Mally)
        digests = [f"{it}/36" for it in ("e353a39330f0d845928da0db73909342432ca32ecddaf148cd7d9813d088a63d",
                                         "b782fa4e1c2f925aedb1a6afd9a08c6bb423442fb2295062c5a706ba4b6a1932")]
        self.assertEqual(counts, "2 differ 1 follow 3")
        self.assertEqual(notes[0], (
            f'line 7: spawn "Executing genrule //pages:card" came to another result there (line 7, remote cache hit): "{card}" has '
            f"{digests[0]} there, and {digests[1]} in the recorded build"))
        self.assertEqual([it.split('"')[1] for it in notes[1:]], ["Making the pages of //pages:site", "Executing genrule //pages:counts",
                                                                   "Executing genrule //pages:release"])
        self.assertTrue(all(" only follows: it read another " in it for it in notes[1:]), notes)
        self.judge("yes ")

    def test_builds_that_are_the_same(self):
        self.assertEqual(self.told(kept_log("recorded.json"), kept_log("recorded.json")), ([], "2"))

    def test_each_kind(self):
        chain = spawn({"s": "s"}, ["a"]), spawn({"a": "a"}, ["b"]), spawn({"b": "b", "t": "t"}, ["c"])
        rows = [
            ([spawn({"s": "s"}, ["a"], exitCode=3, status="NON_ZERO_EXIT"), *chain[1:]], ["a\" came to another result there (line 1, linux-sandbox): the exit code 3 for 0"]),
            ([spawn({"s": "s"}, ["a"], {}), *chain[1:]], ['a" came to another result there (line 1, linux-sandbox): "a" has nothing there']),
            ([spawn({"s": "x"}, ["a"], {"a": "y"}), spawn({"a": "y"}, ["b"]), chain[2]],
             ['a" read another "s" there, which no step made otherwise (line 1)', 'b" only follows: it read another "a" there (line 43)']),
            ([chain[0], spawn({"a": "a"}, ["b"], commandArgs=["/bin/other"]), chain[2]], ['b" had another command there (line 43)']),
            ([chain[0], chain[1]], ['c" isn\'t in that log, in which Bazel may have found it built']),
            ([spawn({"s": "s"}, ["a"], {"a": "y"}), chain[1], spawn({"b": "b", "t": "u"}, ["c"])],
             ['a" came to another result there (line 1, linux-sandbox): "a" has ', 'c" read another "t" there']),
        ]
        for others, told in rows:
            with self.subTest(told):
                notes, _ = self.told(log(*chain), log(*others))
                self.assertEqual(len(notes), len(told), notes)
                for note, end in zip(notes, told):
                    self.assertIn(f'spawn "Making {end}', note)

    def test_a_library_by_its_link(self):
        library, link = "bazel-out/c/bin/p/liba.so", "bazel-out/c/bin/_solib_k8/libp_Sliba.so"
        chain = [[spawn({}, [library], {library: it}), spawn({link: it}, ["o"])] for it in "12"]
        notes, counts = self.told(log(*chain[0]), log(*chain[1]))
        self.assertEqual((len(notes), counts), (2, "0 differ 1 follow 1"))

    def test_what_refuses_a_plan_refuses_no_other_log(self):
        self.told(log(spawn({}, ["a"])), log(spawn({}, ["a"]), spawn({"bazel-out/x": "1"}, ["b"], timeoutMillis="7")))
        with open(self.at("other"), "w", encoding="utf-8") as out:
            out.write("[]")
        self.refuse('other": line 1: this is no spawn', log(spawn({}, ["a"])), "--against", self.at("other"))
