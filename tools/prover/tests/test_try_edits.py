"""Tests of try_edits.py.

Small crates, and what the prover said of them, in its own words; no prover is run.
"""

import contextlib
import io
import os
import re
import shutil
import signal
import sys
import tempfile
import threading
import unittest
import unittest.mock

import judging
import mistakes
import prover
import text_checksums
import try_edits
import verdicts

CODE = """
/// Two impls of one trait, a type's own functions, and a private one.
pub struct Size { bytes: u64 }

impl From<AllocError> for Fault {
    fn from(_e: AllocError) -> Fault { Fault::Memory }
}

impl<T: Drop> From<AllocFailed<T>> for Fault {
    fn from(_e: AllocFailed<T>) -> Fault { Fault::Memory }
}

impl<'a, A: Allocator> Iterator for Fields<'a, A> where A: Clone {
    fn next(&mut self) -> Option<[u8; 2]>
        requires { self.old ≡ record { rest = '}' } }
        ensures moves { "{" }
    {
        // a brace }
        let close = '}'; let text = "{"; count(self)
    }
}

impl Size {
    pub fn twice(&self) -> u64
        ensures { result ≡ self.now.bytes * 2 }
    {
        half(self.bytes) * 4
    }
}

pub(crate) fn half(count: u64) -> u64 { count / 2 }
ghost use Rattle.small.specs.Size.{IsHalf};

const fn third(count: u64) -> u64 { count / 3 }
"""
PATHS = {"sizes::FaultFrom<AllocError>::from", "sizes::FaultFrom<AllocFailed>::from", "sizes::FieldsIterator::next",
         "sizes::Size::twice", "sizes::half", "sizes::third"}

# What a check says of functions that are refused, that wait for one, and whose proofs name what is gone.
SAID = """
./proofs/sizes/FieldsIterator/next/Answers.antt:4:7: error: `returns-clause-moves`: record `Lts.After` has no field `count-it`
note: src/sizes.rt:19:5: it is not proved that what the function ensures holds when it returns (`returns-clause-moves`)
fn small::sizes::FieldsIterator::next: not proved
note: src/sizes.rt:33:1: it is not proved that what the function ensures holds when it returns (`returns`)
fn small::sizes::half: no proof: expected answers in ./proofs/sizes/half/Answers.antt; `search` did not prove `returns`
fn small::sizes::Size::twice: no proof: it calls `small::sizes::half`, which is not proved
fn small::sizes::FaultFromAllocError::from: proved
./proofs/sizes/FaultFromAllocFailed/from/Answers.antt:3:9: error: `returns`: the two types differ
fn small::sizes::FaultFromAllocFailed::from: not proved; it calls `small::sizes::half`, which is not proved
logic=not-proved
"""


def pairs(*named):
    return "\n\n".join(f"# {name}\nfile: src/sizes.rt\nold: {old}\nnew: {new}" for name, old, new in named)


class Shop(prover.Workspace):
    """A repository of one crate, and what each check of it says, in turn."""

    def __init__(self, top, *said):
        self.top, self.uses, self.said, self.asked, self.kit = top, {"small": []}, list(said), [], f"{top}/kit"

    def check(self, crate, texts, only=(), assumed=()):
        self.asked.append((texts, only))
        self.assumed = assumed
        return prover.Said(crate, 1, self.said.pop(0).strip().splitlines())


class Case(unittest.TestCase):
    def setUp(self):
        room = tempfile.TemporaryDirectory()
        self.addCleanup(room.cleanup)
        self.top = room.name
        self.keep("crates/small/src/sizes.rt", CODE)

    def keep(self, path, text):
        os.makedirs(os.path.dirname(os.path.join(self.top, path)), exist_ok=True)
        with open(os.path.join(self.top, path), "w", encoding="utf-8") as it:
            it.write(text)

    def read(self, path):
        with open(os.path.join(self.top, path), encoding="utf-8") as it:
            return it.read()

    def judge(self, edits, *said):
        """Why mistakes fail, by their names."""
        self.keep("crates/small/mistakes/mistakes.edit", edits)
        self.shop = Shop(self.top, *said)
        with contextlib.redirect_stdout(io.StringIO()) as self.printed:
            return judging.Judge(self.shop, "small").begin().run().faults


NEXT = ("next_skips", "count(self)", "skip(self)")
HALF = ("half_of_nothing", "count / 2", "0")
TWICE = ("twice_is_once", "half(self.bytes) * 4", "half(self.bytes) * 2")
FROM = ("memory_as_bad", "fn from(_e: AllocError) -> Fault { Fault::Memory }", "fn from(_e: AllocError) -> Fault { Fault::Bad }")
FAILED = ("failed_as_bad", "fn from(_e: AllocFailed<T>) -> Fault { Fault::Memory }", "fn from(_e: AllocFailed<T>) -> Fault { Fault::Bad }")


class Functions(Case):
    def test_paths_below_the_crate(self):
        self.assertEqual(set(mistakes.functions_of("src/sizes.rt", CODE, {})), PATHS)
        self.assertIn("deep::below::Size::twice", mistakes.functions_of("src/deep/below.rt", CODE, {}))
        self.assertIn("half", mistakes.functions_of("src/lib.rt", CODE, {}))
        pair = "impl<A: Allocator, V> Listed for (Path<A>, V) { fn text(&self) {} }"
        self.assertEqual(list(mistakes.functions_of("src/listed.rt", pair, {})), ["listed::Tuple2PathListed::text"])
        many = "impl<'a, A: Allocator> Listed for &'a [Path<A>] { fn text(&self) {} }"
        self.assertEqual(list(mistakes.functions_of("src/listed.rt", many, {})), ["listed::RefSlicePathListed::text"])

    def test_paths_of_one_type_with_different_arguments(self):
        text = """
impl<'r, S: Stream, K> Client<'r, S, K, PutsToo> { fn put(&mut self) -> u64 { 1 } }
impl<'r, S: Stream, K, U> Client<'r, S, K, U> { fn get(&self) -> u64 { 2 } }
impl<S: Stream, K> BlobSink<Global> for Client<'_, S, K, PutsToo> { fn put_blob(&mut self) -> u64 { 3 } }
"""
        found = [mistakes.spellings(it)[0] for it in mistakes.functions_of("src/client.rt", text, {})]
        self.assertEqual(found, ["client::Client+S+K+PutsToo::put", "client::Client::get",
                                 "client::ClientPutsTooBlobSinkGlobal::put_blob"])

    def test_a_types_functions_are_told_where_it_is_declared(self):
        self.keep("crates/small/src/text.rt", "impl Size { fn text(&self) {} }\n")
        homes = mistakes.homes_of(os.path.join(self.top, "crates", "small"))
        self.assertEqual(list(mistakes.functions_of("src/text.rt", "impl Size { fn text(&self) {} }", homes)), ["sizes::Size::text"])

    def test_a_mistake_turns_the_functions_whose_text_it_changes(self):
        for pair, path in ((NEXT, "FieldsIterator::next"), (HALF, "half"), (FROM, "FaultFrom<AllocError>::from")):
            (mistake,) = mistakes.read("small", "mistakes", pairs(pair))
            turned = mistakes.apply(mistake, lambda _file: CODE)
            self.assertEqual(mistakes.functions_turned(turned, lambda _file: CODE, {}), ({f"sizes::{path}"}, False))

    def test_what_a_check_can_take_by_its_contract(self):
        self.keep("crates/small/src/deep.rt", """
pub trait Shown { fn show(&self) -> u64 ensures { result ≡ 0 }; fn twice(&self) -> u64 { 2 } }
fn down(count: u64) -> u64 { if count == 0 { 0 } else { down(count - 1) } }
impl Deep { fn below(&self) -> u64 { self.below() } fn down(&self) -> u64 { down(self.count) } }
impl<'a, A: Allocator> Source<A> for Deep<'a, A> { fn new() -> u64 { Vec::new() } }
impl Source<Global> for Shallow { fn new() -> u64 { 0 } }
""")
        self.keep("crates/small/proofs/sizes/+half/Answers.antt", "")
        folder = os.path.join(self.top, "crates", "small")
        found = {mistakes.spellings(it)[0] for it in mistakes.assumable(folder, {})}
        self.assertEqual(found, {"deep::Deep::down", "deep::DeepSource::new", "deep::ShallowSourceGlobal::new", "sizes::Size::twice",
                                 "sizes::third", "sizes::FaultFromAllocError::from", "sizes::FaultFromAllocFailed::from", "sizes::FieldsIterator::next"})

    def test_what_is_more_than_bodies(self):
        more = (("bytes_are_few", "{ bytes: u64 }", "{ bytes: u8 }"), ("third_is_half", "count / 3", "count / 2"),
                ("twice_of_now", "self.now.bytes * 2", "self.now.bytes * 3"), ("another_use", "{IsHalf}", "{IsSize}"))
        for pair in (HALF, NEXT, FROM, TWICE, *more):
            (mistake,) = mistakes.read("small", "mistakes", pairs(pair))
            turned = mistakes.apply(mistake, lambda _file: CODE)
            self.assertEqual(mistakes.turns_more_than_bodies(turned, lambda _file: CODE), pair in more, pair)

    def test_a_mistake_in_a_type_turns_no_function(self):
        (mistake,) = mistakes.read("small", "mistakes", pairs(("bytes_are_few", "{ bytes: u64 }", "{ bytes: u8 }")))
        turned = mistakes.apply(mistake, lambda _file: CODE)
        self.assertEqual(mistakes.functions_turned(turned, lambda _file: CODE, {}), (set(), True))


class Judging(Case):
    def test_one_check_judges_those_that_turn_functions_of_their_own(self):
        self.assertEqual(self.judge(pairs(HALF, FAILED), SAID), {})
        self.assertEqual([only for _, only in self.shop.asked], [["sizes::FaultFromAllocFailed::from", "sizes::half"]])

    def test_functions_that_none_turns_are_taken_by_their_contracts(self):
        self.judge(pairs(HALF, FAILED), SAID)
        self.assertEqual(self.shop.assumed, ["sizes::FaultFromAllocError::from", "sizes::FieldsIterator::next", "sizes::Size::twice",
                                             "sizes::third"])
        types = ("bytes_are_few", "{ bytes: u64 }", "{ bytes: u8 }")
        self.judge(pairs(types), SAID)
        self.assertEqual((self.shop.asked[0][1], self.shop.assumed), ([], []))
        self.judge(pairs(types) + "\n# refused in sizes::Size::twice\n", SAID)
        self.assertNotIn("sizes::Size::twice", self.shop.assumed)
        self.assertIn("sizes::half", self.shop.assumed)

    def test_a_proof_with_a_hole_stands_where_a_check_reads_it(self):
        self.keep("proofs/sizes/Size/twice/Answers.antt", "returns = refl")
        prover.assume("small", "sizes::Size::twice", self.top)
        folder = os.path.join(self.top, "proofs", "sizes", "Size", "twice")
        self.assertEqual(os.listdir(folder), ["Proof.antt"])
        text = self.read("proofs/sizes/Size/twice/Proof.antt")
        self.assertIn("use Rattle.small.proofs.sizes.Size.twice.Statement as stated\n", text)
        self.assertTrue(text.endswith("twice_spec = ?\n"))

    def test_a_check_ends_after_its_processor_seconds(self):
        with unittest.mock.patch.object(prover, "LONGEST", 1):
            status, *_ = prover.run([sys.executable, "-c", "while True: pass"], self.top)
        self.assertEqual(status, -signal.SIGXCPU)

    def test_one_that_is_proved_fails(self):
        faults = self.judge(pairs(HALF, FROM), SAID)
        self.assertEqual(faults, {"memory_as_bad": "sizes::FaultFrom<AllocError>::from isn't refused"})

    def test_one_that_is_refused_only_for_a_name_that_is_gone_fails(self):
        faults = self.judge(pairs(HALF, NEXT), SAID)
        self.assertIn("sizes::FieldsIterator::next is refused only since a proof names what is gone", faults["next_skips"])

    def test_one_is_refused_where_a_lemma_is(self):
        lemma = "./proofs/Halves.antt:3:1: error: `quarters`: {}"
        rest = """./proofs/Halves.antt:9:1: error: 3 declarations that depend on `quarters`, which was rejected, were not checked: thirds, halves (via thirds) and 1 more
./proofs/sizes/half/Answers.antt:5:5: error: 1 declaration that depends on `halves`, which was not admitted, was not checked: returns
note: src/sizes.rt:33:1: it is not proved that what the function ensures holds when it returns (`returns`)
fn small::sizes::half: not proved
logic=not-proved"""
        self.assertEqual(self.judge(pairs(HALF), lemma.format("the two types differ\n") + rest), {})
        faults = self.judge(pairs(HALF), lemma.format("`count` is not in scope\n") + rest)
        self.assertIn("sizes::half is refused only since a proof names what is gone", faults["half_of_nothing"])

    def test_one_in_a_constant_is_refused_where_the_function_stands_on_a_lemma_of_it(self):
        edits = pairs(("ten_bytes", "pub struct Size", "const TEN: u64 = 10; pub struct Size")) + "\n# refused in sizes::half\n"
        said = """./proofs/Halves.antt:3:1: error: `ten_is_even`: {}
fn small::sizes::half: not proved; it stands on `Rattle.small.proofs.Halves.ten_is_even`, which antt refuses
only=1 holes=0"""
        self.assertEqual(self.judge(edits, said.format("the two types differ")), {})
        faults = self.judge(edits, said.format("`count` is not in scope"))
        self.assertIn("sizes::half is refused only since a proof names what is gone", faults["ten_bytes"])
        faults = self.judge(edits, said.format("the two types differ").replace("Halves.ten_is_even", "Halves.another"))
        self.assertEqual(faults, {"ten_bytes": "sizes::half isn't refused"})

    def test_one_that_waits_for_another_is_checked_without_it(self):
        alone = "fn small::sizes::half: proved\nfn small::sizes::Size::twice: {}\nonly=1 proved=0"
        self.assertEqual(self.judge(pairs(HALF, TWICE), SAID, alone.format("no proof; `search` did not prove `returns`")), {})
        self.assertEqual(self.shop.asked[1][1], ["sizes::Size::twice"])
        faults = self.judge(pairs(HALF, TWICE), SAID, alone.format("proved"))
        self.assertEqual(faults, {"twice_is_once": "sizes::Size::twice isn't refused"})

    def test_two_in_one_function_have_a_check_each(self):
        other = ("half_is_a_third", "count / 2", "count / 3")
        self.assertEqual(self.judge(pairs(HALF, other), SAID, SAID), {})
        self.assertEqual(len(self.shop.asked), 2)

    def test_two_in_one_cycle_of_calls_have_a_check_each(self):
        cycle = CODE.replace("pub(crate) fn half", "#[cycle(halves)]\nfn half").replace("    pub fn twice", "    #[cycle(halves)]\n    pub fn twice")
        self.keep("crates/small/src/sizes.rt", cycle)
        self.assertEqual(self.judge(pairs(HALF, FROM, ("twice_is_none", "half(self.bytes) * 4", "0")), SAID, SAID), {
            "memory_as_bad": "sizes::FaultFrom<AllocError>::from isn't refused",
            "twice_is_none": "it isn't told by itself: it calls small::sizes::half, which isn't proved either"})
        self.assertEqual([only for _, only in self.shop.asked], [["sizes::FaultFromAllocError::from", "sizes::half"], ["sizes::Size::twice"]])

    def test_one_in_a_type_is_checked_alone(self):
        types = ("bytes_are_few", "{ bytes: u64 }", "{ bytes: u8 }")
        self.assertEqual(self.judge(pairs(HALF, types), SAID, SAID), {})
        self.assertIn("'# refused in sizes::half'", self.printed.getvalue())
        self.assertEqual(self.judge(pairs(HALF, types), SAID, "fn small::sizes::half: proved\nlogic=proved"),
                         {"bytes_are_few": "no function is refused with it"})
        named = pairs(types) + "\n# refused in sizes::Size::twice\n"
        self.assertEqual(self.judge(named, "fn small::sizes::Size::twice: proved\nonly=1 proved=1"),
                         {"bytes_are_few": "sizes::Size::twice isn't refused"})

    def test_one_in_what_a_constant_may_read_is_checked_alone(self):
        faults = self.judge(pairs(HALF, ("third_is_half", "count / 3", "count / 2")), SAID, SAID)
        self.assertEqual(faults, {"third_is_half": "no line of the check tells of sizes::third"})
        self.assertEqual([only for _, only in self.shop.asked], [["sizes::half"], ["sizes::third"]])

    def test_one_that_can_not_be_read_fails_and_the_others_are_judged(self):
        unread = ("no_such_name", "half(self.bytes) * 4", "halve(self.bytes)")
        line = CODE.partition("half(self.bytes)")[0].count("\n") + 1
        error = f"src/sizes.rt:{line}:9: error[unknown-name]: cannot find value `halve` in this scope"
        faults = self.judge(pairs(HALF, unread), error, error, SAID)
        self.assertEqual(list(faults), ["no_such_name"])
        self.assertIn("cannot find value `halve`", faults["no_such_name"])
        self.assertEqual([only for _, only in self.shop.asked], [["sizes::Size::twice", "sizes::half"], ("",), ["sizes::half"]])

    def test_ones_that_are_read_alone_and_not_together_are_parted(self):
        error, alone = "src/sizes.rt:1:1: error[twice]: it is declared twice", "only=0 proved=0"
        self.assertEqual(self.judge(pairs(HALF, FAILED), error, alone, alone, SAID, SAID), {})
        self.assertEqual([only for _, only in self.shop.asked[3:]], [["sizes::half"], ["sizes::FaultFromAllocFailed::from"]])

    def test_ones_that_can_not_be_put_in_fail(self):
        faults = self.judge(pairs(("twice_there", "Fault::Memory", "Fault::Bad"), ("not_there", "nothing", "something")))
        self.assertIn("'Fault::Memory' stands in src/sizes.rt 2 times, and not once", faults["twice_there"])
        self.assertIn("0 times", faults["not_there"])

    def test_lines_are_those_of_the_function_and_of_its_closures(self):
        lines = ["a::Fault::of", "a::fn::Fault::of::all+FnOnce::call_once", "a::fn::Fault::offer::all+FnOnce::call_once", "a::b::of",
                 "b::FaultFrom::from", "c::NoneFromOne::from", "c::NoneFromTwo::from"]
        said = prover.Said("small", 1, [f"fn small::{it}: proved" for it in lines])
        for path, found in (("a::Fault::of", lines[:2]), ("a::of", []), ("a::FaultFrom<One>::from", lines[4:5]),
                            ("c::NoneFrom<Two>::from", lines[6:]), ("c::NoneFrom<Six>::from", [])):
            self.assertEqual(list(judging.lines_of(said, path)), found)

    def test_a_function_of_which_nothing_is_told_fails(self):
        self.assertEqual(self.judge(pairs(HALF), "logic=not-proved"), {"half_of_nothing": "no line of the check tells of sizes::half"})

    def test_checks_that_share_memory_wait_for_it(self):
        memory, has_room = try_edits.Memory(10), threading.Event()

        def take():
            with memory.taken(6):
                has_room.set()

        with memory.taken(6):
            waits = threading.Thread(target=take)
            waits.start()
            self.assertFalse(has_room.wait(0.1))
        self.assertTrue(has_room.wait(5))
        waits.join()
        self.assertEqual(memory.free, 10)
        with try_edits.Memory(10).taken(11):  # (what is more than all there is has all of it)
            pass

    def test_no_check_begins_once_the_time_is_up_but_of_what_is_named(self):
        self.keep("crates/small/mistakes/mistakes.edit", pairs(FROM, HALF).replace("# half_of_nothing", "# half_of_nothing\n# named"))
        for last, asked, left_out in ((0, 1, True), (2**40, 2, False)):
            shop = Shop(self.top, SAID, SAID)
            with contextlib.redirect_stdout(io.StringIO()) as printed:
                run = try_edits.Run([judging.Judge(shop, "small")])
                run.begin()
                run.run(last)
                run.end()
            self.assertEqual([only for _, only in shop.asked], [["sizes::half"], ["sizes::FaultFromAllocError::from"]][:asked])
            self.assertEqual("left out, since the run's time is up: 1 of small" in printed.getvalue(), left_out)
            self.assertEqual((run.passed, run.failed), (1, asked - 1))

    def test_a_named_one_that_is_not_judged_fails(self):
        self.keep("crates/small/mistakes/mistakes.edit", pairs(HALF, FROM).replace("# half_of_nothing", "# half_of_nothing\n# named"))
        judge = judging.Judge(Shop(self.top), "small")
        judge.run = lambda *_, **_how: judge
        with contextlib.redirect_stdout(io.StringIO()) as printed:
            run = try_edits.Run([judge])
            run.begin()
            run.run(2**40)
            run.end()
        self.assertIn("FAILED small/half_of_nothing: it is named, and wasn't judged", printed.getvalue())
        self.assertEqual((run.passed, run.failed), (0, 1))


class Kept(Case):
    """Two crates, of which one stands on the other, and a mistake of the upper one."""

    def setUp(self):
        super().setUp()
        self.keep("crates/low/src/counts.rt", "pub fn twice(n: u8) -> u64 ensures { result ≡ n * 2 } { n * 2 }\n")
        self.keep("crates/low/out/rlib/low.rlib/format", "rattle rlib")
        self.keep("crates/small/mistakes/mistakes.edit", pairs(HALF))
        self.keep("kit/KIT-ID", "kit 1")
        self.make("low")

    def shop(self, top=None):
        shop = Shop(top or self.top, SAID)
        shop.uses, shop.kit = {"low": ["std"], "small": ["std", "low"]}, f"{self.top}/kit"
        return shop

    def make(self, library):
        """As `rt lib` makes a library."""
        # (the kit's sum is kept for a run)
        text_checksums.sum_of_kit.cache_clear()
        self.shop().set_mark(library)

    def checks(self, edits=None, shop=None, anew=False):
        """How many checks a run begins; it counts what it took over."""
        if edits:
            self.keep("crates/small/mistakes/mistakes.edit", edits)
        self.kept, shop = verdicts.Verdicts(f"{self.top}/kept", anew), shop or self.shop()
        with contextlib.redirect_stdout(io.StringIO()) as self.printed:
            self.run_ = try_edits.Run([judging.Judge(shop, "small", kept=self.kept)])
            self.run_.begin()
            self.run_.run(2**40)
            self.run_.end()
        self.assertEqual(self.run_.passed + self.run_.failed, 1)
        return len(shop.asked)

    def test_a_refused_mistake_is_taken_over(self):
        self.assertEqual((self.checks(), self.checks(), self.run_.passed), (1, 0, 1))
        self.assertIn("mistakes: 0 judged, 1 taken over", self.printed.getvalue())
        self.assertEqual(self.checks(anew=True), 1)
        os.remove(f"{self.top}/crates/low/out/rlib/built-of")
        self.assertEqual(self.checks(), 0)

    def test_it_is_judged_again_after_a_change_of_the_contract_that_it_rests_on(self):
        self.assertEqual((self.checks(), self.checks()), (1, 0))
        self.keep("crates/small/src/sizes.rt", CODE.replace("self.now.bytes * 2", "self.now.bytes * 4"))
        self.assertEqual((self.checks(), self.checks()), (1, 0))
        self.keep("crates/low/src/counts.rt", "pub fn twice(n: u8) -> u64 ensures { result ≤ n * 2 } { n * 2 }\n")
        self.assertEqual((self.checks(), self.run_.failed), (0, 1))
        self.assertIn("not tried: the library low isn't built of the text that stands here", self.printed.getvalue())
        self.make("low")
        self.assertEqual((self.checks(), self.checks()), (1, 0))

    def test_it_is_judged_again_after_a_change_of_anything_else_that_it_rests_on(self):
        self.assertEqual(self.checks(), 1)
        self.assertEqual((self.checks(pairs(("half_of_one", "count / 2", "1"))), self.checks()), (1, 0))
        self.assertEqual((self.checks(pairs(HALF) + "\n# refused in sizes::half\n"), self.checks()), (1, 0))
        for path in ("kit/KIT-ID", "crates/small/proofs/Halves.antt", "crates/small/specs/Size.antt"):
            self.keep(path, "another")
            self.make("low")
            self.assertEqual((self.checks(), self.checks()), (1, 0), path)
        with unittest.mock.patch.object(verdicts, "JUDGES", ("judging.py",)):
            self.assertEqual(self.checks(), 1)
        shop = self.shop()
        shop.uses = {**shop.uses, "small": ["std", "low", "hex"]}
        self.assertEqual(self.checks(shop=shop), 1)

    def test_it_is_taken_over_in_another_folder(self):
        self.assertEqual(self.checks(), 1)
        with tempfile.TemporaryDirectory() as other:
            shutil.copytree(f"{self.top}/crates", f"{other}/crates")
            self.assertEqual(self.checks(shop=self.shop(other)), 0)

    def test_only_a_whole_and_own_file_is_taken_over(self):
        self.assertEqual(self.checks(), 1)
        (name,) = os.listdir(f"{self.top}/kept")
        whole = self.read(f"kept/{name}")
        for text in ("", whole[:-1], whole.replace(" small/", " large/"), whole + "\n"):
            self.keep(f"kept/{name}", text)
            self.assertEqual(self.checks(), 1, text)
        self.assertEqual(self.checks(), 0)
        with unittest.mock.patch("os.geteuid", return_value=os.geteuid() + 1):
            self.assertEqual(self.checks(), 1)
        os.chmod(f"{self.top}/kept", 0o770)
        self.assertEqual((self.checks(), self.kept.note), (1, f"{self.top}/kept isn't this user's alone"))

    def test_nothing_is_kept_of_one_that_is_not_refused(self):
        for said in (SAID.replace("sizes::half: no proof: expected", "sizes::half: proved: expected").replace("search` did", "search` had"),
                     "src/sizes.rt:1:1: error[unknown]: what is it?", "logic=not-proved"):
            shop = self.shop()
            shop.said = [re.sub(r"(?m)^note: src/sizes.rt:33.*\n", "", said)] * 2
            self.checks(shop=shop)
            self.assertEqual((self.run_.failed, os.listdir(f"{self.top}/kept")), (1, []), said)

    def test_nothing_is_kept_where_the_text_was_changed_meanwhile(self):
        shop = self.shop()
        check = shop.check

        def edited(*words):
            self.keep("crates/low/src/counts.rt", "pub fn twice(n: u8) -> u64 { n }\n")
            self.make("low")
            return check(*words)

        shop.check = edited
        before = self.read("crates/low/src/counts.rt")
        self.assertEqual((self.checks(shop=shop), self.run_.passed), (1, 1))
        self.assertEqual((self.checks(), self.checks()), (1, 0))
        self.keep("crates/low/src/counts.rt", before)
        self.make("low")
        self.assertEqual(self.checks(), 1)

    def test_what_is_old_goes(self):
        self.assertEqual(self.checks(), 1)
        (name,) = os.listdir(f"{self.top}/kept")
        self.kept.drop_oldest()
        self.assertEqual(os.listdir(f"{self.top}/kept"), [name])
        os.utime(f"{self.top}/kept/{name}", (0, 0))
        self.kept.drop_oldest()
        self.assertEqual(os.listdir(f"{self.top}/kept"), [])
