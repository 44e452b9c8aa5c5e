"""Tests of show.py and decoding.py: what a blob is taken for, its lines, and what is refused. Blobs are written by
shared.messages, and those of the crates' rows by another implementation of protobuf."""

import collections
import os
import re
import shutil
import unittest

import archives
import decoding
import plans
import show
import showing
from shared import messages, stores
from shared.command_line import Refused
from shared.crates import TOP
from shared.harness import Keeper
from shared.messages import Digest, File, Link
from tests.bazel_case import CHAIN, Case, contents
from tests.spawns import log
from tests.test_archives import called

NINE = b"123456789"
# `printf 123456789 | sha256sum`
HASH = "15e2b0d3c33891ebb0f1ef609ec419420c20e320ce94c65fbc8c3312448eb225"
FILE, RUN, LINK = File(Digest(HASH, 9), False), File(Digest(HASH, 9)), Link("../a b")
BELOW = messages.directory_message({"x": FILE})
TREE = messages.tree_message({"a b": RUN, "d": {"l": LINK, "e": {"x": FILE}}, "z": FILE})
DIRECTORY = messages.directory_message({"é": FILE, "d": Digest.of(BELOW), "l": LINK})
COMMAND = messages.command_message(["/bin/sh", "a\nb"], ["o/a b", "p"], [("A", "1=2"), ("B", "")], "f")
ACTION = messages.action_message(Digest.of(COMMAND), Digest.of(DIRECTORY), False, [("os", "x"), ("os", "y")])
FRAME = messages.action_message(Digest.of(COMMAND))
RESULT = messages.result_message({"o/a": RUN, "o/l": LINK, "t": Digest.of(TREE)}, -9)
MESSAGES = {"Action": ACTION, "frame": FRAME, "Tree": TREE, "Directory": DIRECTORY, "Command": COMMAND, "ActionResult": RESULT}
# By each kind the lines below the first.
LINES = {
    "Action": [f"command {Digest.of(COMMAND).text()}", f"input {Digest.of(DIRECTORY).text()}", "do-not-cache",
               'property "os" "x"', 'property "os" "y"'],
    "frame": [f"command {Digest.of(COMMAND).text()}"],
    "Tree": [f"a%20b file x {HASH}/9", "d directory - HASH", f"z file - {HASH}/9", "d/e directory - HASH", 'd/l link - "../a b"',
             f"d/e/x file - {HASH}/9"],
    "Directory": [f"d directory - {Digest.of(BELOW).text()}", 'l link - "../a b"', f"%C3%A9 file - {HASH}/9"],
    "Command": ['argument "/bin/sh"', r'argument "a\nb"', 'variable "A" "1=2"', 'variable "B" ""', "folder f", "output o/a%20b",
                "output p"],
    "ActionResult": [f"o/a file x {HASH}/9", 'o/l link - "../a b"', f"t directory - {Digest.of(TREE).text()}", "exit-code -9"],
}


def bytes_of(text):
    """The bytes that a row of the crates spells."""
    return re.sub(rb"\\x([0-9a-f]{2})", lambda it: bytes([int(it[1], 16)]), text.encode())


class Kinds(unittest.TestCase):
    def test_each_message_is_read_back(self):
        for kind, blob in MESSAGES.items():
            self.assertIn(kind, decoding.kinds_of(blob), kind)
        self.assertEqual(decoding.decoded("Directory", DIRECTORY), {"é": FILE, "l": LINK, "d": Digest.of(BELOW)})
        self.assertEqual(decoding.decoded("ActionResult", RESULT), ({"o/a": RUN, "o/l": LINK, "t": Digest.of(TREE)}, -9, {}))
        self.assertEqual(decoding.decoded("Tree", TREE).children.keys(), {Digest.of(messages.directory_message(it)) for it in (
            {"x": FILE}, {"l": LINK, "e": Digest.of(BELOW)})})

    def test_a_message_has_one_encoding(self):
        """Each byte that is turned, and each cut, gives no message of the kind, or another that is written so."""
        for kind in ("Directory", "Command", "Action"):
            blob = MESSAGES[kind]
            for at in range(len(blob)):
                turned = blob[:at] + bytes([blob[at] ^ 1]) + blob[at + 1:]
                for other in (turned, blob[:at]):
                    try:
                        read = decoding.decoded(kind, other)
                    except Refused:
                        continue
                    self.assertNotEqual(read, decoding.decoded(kind, blob))

    def test_what_is_no_message(self):
        def node(name, entry=FILE):
            return messages.node_field(name, entry)

        digest = messages.Digest(HASH, 9).message()
        rows = {
            "out of order": ("Directory", node("b") + node("a")), "twice": ("Directory", node("a") + node("a")),
            "two kinds of one name": ("Directory", node("a") + node("a", LINK)),
            "a field of a later number": ("Directory", node("l", LINK) + node("a")),
            "no name": ("Directory", b"\x0a\x00"), "a name with a slash": ("Directory", node("a/b")),
            "two points": ("Directory", node("..")),
            "a long varint": ("Directory", b"\x8a\x00" + node("a")[1:]), "an unknown field": ("Directory", b"\x22\x00"),
            "a default": ("Action", messages.action_message(Digest.of(b""), Digest.of(b"")) + b"\x38\x00"),
            "no hash": ("frame", messages.bytes_field(1, messages.text_field(1, HASH[1:]))), "no command": ("Action", b""),
            "a size below 0": ("frame", messages.bytes_field(1, messages.text_field(1, HASH) + messages.number_field(2, -1))),
            "no argument": ("Command", messages.text_field(7, "a")), "a NUL": ("Command", messages.command_message(["a\0"], [])),
            "outputs that meet": ("Command", messages.command_message(["a"], ["b", "b/c"])),
            "a variable without a name": ("Command", messages.command_message(["a"], [], [("", "x")])),
            "a platform without properties": ("frame", messages.bytes_field(1, digest) + messages.bytes_field(10, b"")),
            "a child that nothing names": ("Tree", messages.bytes_field(1, b"") + messages.bytes_field(2, BELOW)),
            "a child that lacks": ("Tree", messages.bytes_field(1, DIRECTORY)),
            "results that meet": ("ActionResult", messages.result_message({"a": FILE, "a/b": FILE})),
        }
        for name, (kind, blob) in rows.items():
            with self.assertRaises(Refused, msg=name):
                decoding.decoded(kind, blob)

    def test_trees_that_are_larger_than_memory(self):
        """A directory that has another twice, which has another twice, and so on."""
        store, digest = plans.Store(), None
        for _ in range(60):
            digest = store.keep(messages.directory_message({"a": digest, "b": digest} if digest else {"a": FILE}))
        store.get = lambda part, name: next(blob for it, blob in store.blobs.items() if it.hash == name)
        self.assertRaisesRegex(Refused, "a tree has more than", decoding.Unfolded(store, room=5000).directory, digest)

    def test_a_result_as_bazel_writes_it(self):
        """Fields in any order and twice, defaults, and what is skipped (docs/FORMATS.md, Messages)."""
        link, run = messages.result_message({"l": LINK}), messages.result_message({"b": RUN, "a": FILE}, 3)
        read = decoding.decoded("ActionResult", link + messages.bytes_field(9, b"\xff") + b"\x20\x02" + run + b"\x20\x84\x00")
        self.assertEqual((read.outputs, read.exit_code), ({"l": LINK, "b": RUN, "a": FILE}, 4))

    def test_what_another_implementation_writes(self):
        """Messages as protoc writes them, and what the crates refuse: crates/test_messages has a row for each."""
        kinds = {"Directory": "Directory", "Tree": "Tree", "Command": "Command", "Action": "Action", "Frame": "frame",
                 "Result": "ActionResult"}
        seen = collections.Counter()
        for name in ("messages", "action_messages", "action_results", "results"):
            text = stores.read_file(os.path.join(TOP, "crates", "test_messages", "data", name)).decode()
            names = dict(re.findall(r"^(\{\w+\}) := (\w+)$", text, re.M))
            for row in text.splitlines():
                kind, *parts = re.sub(r"\{\w+\}", lambda it: names.get(it[0], it[0]), row).split(" | ")
                if kind.strip() in kinds and len(parts) == 2:
                    is_refused = re.match(r"[A-Z]\w+(\(.*\))?$", parts[1]) is not None
                    with self.subTest(f"{name}: {row}"):
                        self.assertEqual(self.is_refused(kinds[kind.strip()], bytes_of(parts[0])), is_refused)
                    seen[is_refused] += 1
        self.assertGreater(min(seen.values()), 50)

    def is_refused(self, kind, blob):
        try:
            decoding.decoded(kind, blob)
        except Refused:
            return True
        return False


class Shown(Case):
    def setUp(self):
        super().setUp()
        for blob in (*MESSAGES.values(), NINE, BELOW):
            stores.FolderStore(self.at("store")).put("cas", Digest.of(blob).hash, blob)
        stores.FolderStore(self.at("store")).put("ac", Digest.of(ACTION).hash, RESULT)

    def show(self, *words):
        """The lines, where nothing is refused."""
        status, out, err = called(show.main, *words)
        self.assertEqual((status, err), (0, ""))
        return out.splitlines()

    def refuse(self, why, status, *words):
        found, out, err = called(show.main, *words)
        self.assertEqual((found, out, err.count("\n"), err[:7]), (status, "", 1, "error: "), err)
        self.assertIn(why, err)

    def test_each_kind(self):
        for kind, blob in MESSAGES.items():
            digest = Digest.of(blob).text()
            lines = self.show(self.at("store"), digest, "--kind", kind) if kind != "ActionResult" else self.show(
                self.at("store"), Digest.of(ACTION).hash, "--kind", kind)
            self.assertEqual(lines[0], f"{kind} {digest if kind != 'ActionResult' else Digest.of(ACTION).hash}")
            folders = [re.sub(r"^(\S+ directory -) [0-9a-f]{64}/[0-9]+$", r"\1 HASH", it) for it in lines[1:]]
            self.assertEqual(folders if kind == "Tree" else lines[1:], LINES[kind], kind)

    def test_which_kind_is_taken_is_told(self):
        any_text = "not Command: any text may be an argument of a Command"
        rows = {
            ACTION: ("Action", None), DIRECTORY: ("Directory", None), COMMAND: ("Command", None),
            FRAME: ("frame", any_text), BELOW: ("Directory", any_text),
            messages.directory_message({"d": Digest.of(BELOW)}): (
                "Directory", "not ActionResult: results stand in ac, by the hash of their action"),
            b"\n\t/bin/true": ("Command", "not text: few texts are a message in its one encoding"),
            NINE: ("text", None), b"\0": ("bytes", None),
        }
        for blob, (kind, other) in rows.items():
            why = other and f"taken as {kind}, {other}; --kind takes another"
            stores.FolderStore(self.at("store")).put("cas", Digest.of(blob).hash, blob)
            lines = self.show(self.at("store"), Digest.of(blob).text())
            self.assertEqual(lines[0], f"{kind} {Digest.of(blob).text()}")
            self.assertEqual(lines[1] if lines[1:] and lines[1].startswith("taken") else None, why, blob)

    def test_what_is_no_message(self):
        rows = {
            b"#!/bin/sh\necho\n": ["#!/bin/sh", "echo"], b"a\x1b\xc3\xa9": [],
            b"\x7fELF" + bytes(70): ["it begins as ELF does", "7f 45 4c 46" + " 00" * 12 + "  .ELF" + "." * 12],
            ("é" * 2001).encode(): ["é" * 2000, ".. 1 more characters"],
        }
        for blob, lines in rows.items():
            stores.FolderStore(self.at("store")).put("cas", Digest.of(blob).hash, blob)
            self.assertEqual(self.show(self.at("store"), Digest.of(blob).hash)[1:len(lines) + 1], lines)
        self.assertIn(".. 10 more bytes", self.show(self.at("store"), Digest.of(b"\x7fELF" + bytes(70)).hash))
        # (no escape of a terminal is printed)
        self.assertEqual(self.show(self.at("store"), Digest.of(b"a\x1b\xc3\xa9").hash)[0][:5], "bytes")

    def test_down_a_path(self):
        store, action = self.at("store"), Digest.of(ACTION).text()
        content = [f"d/x file - {HASH}/9", "123456789"]
        self.assertEqual(self.show(store, action, "d/x"), content)
        self.assertEqual(self.show(store, Digest.of(DIRECTORY).hash, "d/x"), content)
        self.assertEqual(self.show(store, action, "d"), [f"d directory - {Digest.of(BELOW).text()}", f"x file - {HASH}/9"])
        self.assertEqual(self.show(store, action, "l"), ['l link - "../a b"'])
        for name in ("%C3%A9", "é"):
            self.assertEqual(self.show(store, action, name)[0], f"%C3%A9 file - {HASH}/9")
        self.assertEqual(self.show(store, Digest.of(TREE).hash, "d/e/x")[-1], "123456789")
        result = (store, action, "--kind", "ActionResult")
        below = [f"a file x {HASH}/9", 'l link - "../a b"']
        self.assertEqual(self.show(*result, "o"), ["o directory - of outputs below it", *below])
        self.assertEqual(self.show(*result, "t/d/e/x"), [f"t/d/e/x file - {HASH}/9", "123456789"])
        self.assertEqual(self.show(*result, "t")[0], f"t directory - {Digest.of(TREE).text()}")
        self.assertEqual(len(self.show(*result, "t")), 7)
        for path in ("d/y", "l/x", "d/x/y", "e"):
            self.refuse("nothing is at", 2, store, action, path)
        self.refuse("which has no paths", 2, store, Digest.of(COMMAND).hash, "a")
        os.remove(f"{store}/cas/{HASH}")
        self.assertEqual(self.show(store, action, "d/x"), [content[0], "its content isn't in the store"])
        os.remove(f"{store}/cas/{Digest.of(BELOW).hash}")
        self.refuse("isn't there", 3, store, action, "d/x")

    def test_places(self):
        """A store, evidence, an archive and a server have the same."""
        self.assertEqual(self.call(log(*CHAIN))[0], 0)
        with archives.written(self.at("e.tar")) as out:
            for name, content in sorted(contents(self.at("asked")).items(), key=lambda it: it[0] != "sources"):
                out.add(name, content)
        for line in self.lines("record")[1:]:
            digest = line.split()[2]
            told = [self.show(it, digest) for it in (self.at("asked"), self.at("asked", "store"), self.at("e.tar"))]
            with Keeper() as server:
                server.held[f"/cas/{digest.partition('/')[0]}"] = self.stored("cas", digest)
                told.append(self.show("--server", server.address, digest))
            self.assertTrue(all(it == told[0] for it in told))
            self.assertEqual(told[0][0], f"Action {digest}")

    def test_what_is_refused(self):
        store, missing = self.at("store"), "0" * 64
        self.refuse("isn't there: the store has no blob", 3, store, missing)
        self.refuse("name a store folder", 3, self.at("none"), missing)
        self.refuse("is no digest", 2, store, missing[1:])
        self.refuse("is no digest", 2, store, f"{missing}/01")
        self.refuse("is no path", 2, store, missing, "../a")
        self.refuse("at most a PATH", 2, store)
        self.refuse("at most a PATH", 2, "--server", "127.0.0.1:1", missing, "a", "b")
        self.refuse("--prefix is for --server", 2, store, missing, "--prefix", "/x")
        self.refuse(f"and not {HASH}/8", 2, store, f"{HASH}/8")
        stores.write_file(f"{store}/cas/{HASH}", b"other")
        self.refuse("the store isn't what was put there", 2, store, HASH)
        why = "what stands there is no Tree: a Tree has no root; without --kind it is shown as what it is"
        self.refuse(why, 2, store, Digest.of(b"").hash, "--kind", "Tree")
        action = messages.action_message(Digest.of(COMMAND), Digest.of(COMMAND))
        stores.FolderStore(store).put("cas", Digest.of(action).hash, action)
        self.refuse(f'{Digest.of(COMMAND).hash}" is no Directory: ', 2, store, Digest.of(action).hash, "a")
        os.makedirs(self.at("store", "store"))
        self.refuse("name the one that is meant", 2, store, HASH)
        shutil.rmtree(self.at("store"))
        os.makedirs(self.at("store"))
        self.refuse("is neither a store", 2, store, HASH)

    def test_a_blob_of_no_bytes(self):
        lines = self.show(self.at("store"), Digest.of(b"").text())
        self.assertEqual(lines, [f"Directory {Digest.of(b'').text()}", showing.why_line("Directory", ["ActionResult"])])

    def test_a_result_alone(self):
        os.remove(f"{self.at('store')}/cas/{Digest.of(ACTION).hash}")
        lines = self.show(self.at("store"), Digest.of(ACTION).hash)
        self.assertEqual(lines[1], "there is no blob with this hash: it is the result of the action that has it")
        self.assertEqual(lines[2:], LINES["ActionResult"])
