"""Tests of bazel_plan.py on logs that no Bazel wrote.

A value of another kind than Bazel writes is refused wherever it stands, and so is a log that is cut off within a spawn."""

import copy
import json
import random
import shutil

from tests.bazel_case import Case
from tests.spawns import files, log, spawn

# A spawn with each field of which a plan says something, and one that reads what it made.
MAKER = spawn(
    {"s": "s"}, ["o/a", "o/t"], {"o/a": "a", "o/t/b": "b"},
    environmentVariables=[{"name": "A", "value": "1"}], platform={"properties": [{"name": "p", "value": "1"}]}, targetLabel="//o:a",
)
MAKER["inputs"].append({"path": "l", "symlinkTargetPath": "s", "isTool": False})
READER = spawn({"o/a": "a", "o/t/b": "b"}, ["o/c"])
# A value of each kind of JSON, and some that are odd in themselves.
ODD = [None, True, False, 7, -1, 2**70, 0.5, float("nan"), "x", "", "\0", "\ud800", "a/../b", [], [7], [[]], {}, {"x": 1}]
# What is told of a spawn that isn't to be cached.
NOTE = "note: line 1: spawn \"Making o/a o/t (//o:a)\" isn't to be cached, as by the tag no-cache or local: that is a no\n"
# What says nothing of what was run or made, so that any value will do.
UNSAID = {"remotable", "remoteCacheable", "isTool"}


def places_of(value, above=()):
    """The places of all values in a value: the keys that lead to each."""
    pairs = value.items() if isinstance(value, dict) else enumerate(value) if isinstance(value, list) else ()
    for key, below in pairs:
        yield (*above, key)
        yield from places_of(below, (*above, key))


def changed(value, place, other):
    """A copy of a value with another one at this place."""
    whole = within = copy.deepcopy(value)
    for key in place[:-1]:
        within = within[key]
    within[place[-1]] = other
    return whole


def at(value, place):
    for key in place:
        value = value[key]
    return value


class OddLogs(Case):
    def end_well(self, text):
        """That the tool writes all, or one line of an error and nothing; which of the two."""
        status, _, err = self.call(text)
        told = err.replace(NOTE, "") if status == 0 else err
        self.assertEqual((status, told.count("\n"), told[:7]), (2, 1, "error: ") if status else (0, 0, ""))
        shutil.rmtree(self.at("asked"), ignore_errors=True)
        return status

    def test_a_value_of_another_kind_is_refused(self):
        for place in places_of(MAKER):
            was = at(MAKER, place)
            for other in ODD:
                with self.subTest(place=place, other=other):
                    status = self.end_well(log(changed(MAKER, place, other), READER))
                    # (a whole number may be written as a text, and has no other texts)
                    if place[-1] not in UNSAID and type(other) is not type(was) and not (
                        place[-1] in ("timeoutMillis", "sizeBytes") and type(other) is int
                    ):
                        self.assertEqual(status, 2)

    def test_a_log_that_is_cut_off(self):
        text = json.dumps(MAKER) + json.dumps(READER)
        between = len(json.dumps(MAKER))
        for end in range(len(text)):
            with self.subTest(end):
                self.assertEqual(self.end_well(text[:end]), 0 if end == between else 2)

    def test_bytes_at_random(self):
        rng = random.Random(1)
        text = log(MAKER, READER).encode()
        for _ in range(300):
            odd = bytearray(text)
            for _ in range(rng.randint(1, 4)):
                place = rng.randrange(len(odd))
                odd[place:place + rng.randint(0, 3)] = bytes(rng.randrange(256) for _ in range(rng.randint(0, 2)))
            self.end_well(odd.decode("utf-8", "replace"))

    def test_lists_that_are_deep(self):
        for depth in (100, 900, 1000, 100000):
            deep = log(changed(MAKER, ("progressMessage",), "deep")).replace('"deep"', "[" * depth + "]" * depth)
            self.assertEqual(self.end_well(deep), 2)

    def test_numbers_that_are_long(self):
        for digits in (20, 5000, 100000):
            for field in ("exitCode", "timeoutMillis"):
                text = json.dumps(dict(MAKER, **{field: 7777777})).replace("7777777", "9" * digits)
                self.assertEqual(self.end_well(text), 2)

    def test_names_at_the_limits(self):
        for name, status in (("n" * 255, 0), ("n" * 256, 2), ("ő" * 127, 0), ("ő" * 128, 2), ("/".join("n" * 64), 0)):
            self.assertEqual(self.end_well(log(dict(READER, inputs=files({name: "1"})))), status)
