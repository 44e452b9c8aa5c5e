"""Messages read back, each by its fields (docs/FORMATS.md, Messages): strictly, in the one encoding that it has, and an
ActionResult tolerantly, as Bazel may write it."""

import re
from typing import NamedTuple

from plans import is_path, is_target, is_text, put, targets_meet
from shared.command_line import NotAnswered, Refused
from shared.messages import Digest, File, Link

HASH = re.compile("[0-9a-f]{64}")
# By its kind the fields of a message: by their numbers a name, what they have, and whether they come once, at most once, often.
ONE, MAYBE, MANY = "one", "maybe", "many"
FIELDS = {
    "Digest": {1: ("hash", "text", ONE), 2: ("size", "number", MAYBE)},
    "FileNode": {1: ("name", "text", ONE), 2: ("digest", "Digest", ONE), 4: ("is_executable", "bool", MAYBE)},
    "DirectoryNode": {1: ("name", "text", ONE), 2: ("digest", "Digest", ONE)},
    "SymlinkNode": {1: ("name", "text", ONE), 2: ("target", "text", ONE)},
    "Directory": {1: ("files", "FileNode", MANY), 2: ("directories", "DirectoryNode", MANY),
                  3: ("links", "SymlinkNode", MANY)},
    "Tree": {1: ("root", "Directory", ONE), 2: ("children", "bytes", MANY)},
    "Pair": {1: ("name", "text", MAYBE), 2: ("value", "text", MAYBE)},
    "Platform": {1: ("properties", "Pair", MANY)},
    "Command": {1: ("arguments", "text", MANY), 2: ("variables", "Pair", MANY), 6: ("folder", "text", MAYBE),
                7: ("outputs", "text", MANY)},
    "Action": {1: ("command", "Digest", ONE), 2: ("input", "Digest", ONE), 7: ("do_not_cache", "bool", MAYBE),
               9: ("salt", "bytes", MAYBE), 10: ("platform", "Platform", MAYBE)},
    "OutputFile": {1: ("path", "text", ONE), 2: ("digest", "Digest", ONE), 4: ("is_executable", "bool", MAYBE)},
    "OutputDirectory": {1: ("path", "text", ONE), 3: ("tree", "Digest", ONE), 4: (None, None, MAYBE)},
    "OutputSymlink": {1: ("path", "text", ONE), 2: ("target", "text", ONE)},
    "ActionResult": {2: ("files", "OutputFile", MANY), 3: ("directories", "OutputDirectory", MANY),
                     4: ("exit_code", "int32", MAYBE), 5: ("stdout_raw", "bytes", MAYBE), 6: ("stdout", "Digest", MAYBE),
                     7: ("stderr_raw", "bytes", MAYBE), 8: ("stderr", "Digest", MAYBE), 9: (None, None, MAYBE),
                     12: ("links", "OutputSymlink", MANY)},
}
FIELDS["frame"] = {number: it for number, it in FIELDS["Action"].items() if number != 2}
# What stands for a field that isn't there.
ABSENT = {"text": "", "bytes": b"", "bool": False, "number": 0, "int32": 0}
VARINTS = ("bool", "number", "int32")
# How many entries the trees of one build may have where they are unfolded.
MOST_ENTRIES = 1 << 20
# In the order in which they are tried: those first that few other bytes are.
KINDS = ("Action", "frame", "Tree", "Directory", "Command", "ActionResult")


# Records.

# The wire types of numbers and of bytes, and by those of fixed lengths the length.
NUMBER, OF_BYTES, FIXED = 0, 2, {1: 8, 5: 4}


def varint_at(blob, at, is_tolerant):
    """The number at an offset, and where it ends."""
    number = 0
    for place in range(at, min(at + 10, len(blob))):
        number |= (blob[place] & 0x7F) << 7 * (place - at)
        if blob[place] < 0x80:
            if number >> 64 or (place > at and blob[place] == 0 and not is_tolerant):
                raise Refused(f"at byte {at} is no varint in its shortest form")
            return number, place + 1
    raise Refused(f"at byte {at} is no whole varint")


def records_of(blob, is_tolerant):
    """The number of each field, its wire type, and its number or its bytes."""
    at = 0
    while at < len(blob):
        start = at
        tag, at = varint_at(blob, at, is_tolerant)
        wire, value = tag & 7, FIXED.get(tag & 7)
        if wire in (3, 4, 6, 7) or not 0 < tag >> 3 < 1 << 29:
            raise Refused(f"at byte {start} begins no field")
        if value is None:
            value, at = varint_at(blob, at, is_tolerant)
        if wire != NUMBER:
            if value > len(blob) - at:
                raise Refused(f"the field at byte {start} is cut off")
            value, at = blob[at:at + value], at + value
        yield tag >> 3, wire, value


def value_of(kind, value, is_tolerant):
    """What a record of a kind has."""
    if kind == "bool":
        if value > 1 and not is_tolerant:
            raise Refused("a bool is above 1")
        return value != 0
    if kind == "int32":
        return (value + (1 << 31)) % (1 << 32) - (1 << 31)
    if kind == "number":
        if value >> 63:
            raise Refused("a size is negative")
        return value
    if kind == "bytes":
        return value
    if kind == "text":
        try:
            return value.decode()
        except UnicodeDecodeError:
            raise Refused("a text is no UTF-8") from None
    return fields_of(kind, value, is_tolerant)


def fields_of(kind, blob, is_tolerant=False):
    """The fields of a message by their names; of one that comes often a list."""
    shape, found, parts, last = FIELDS[kind], {}, {}, 0
    for number, wire, value in records_of(blob, is_tolerant):
        if number not in shape:
            raise Refused(f"a {kind} has no field {number}")
        name, what, often = shape[number]
        if name is None:
            continue
        if wire != (NUMBER if what in VARINTS else OF_BYTES):
            raise Refused(f"field {number} of a {kind} has another wire type")
        if not is_tolerant and (number < last or (number == last and often != MANY)):
            raise Refused(f"field {number} of a {kind} stands in another place, or twice")
        last = number
        if what in FIELDS and often != MANY:
            # (all its occurrences are one message, and each is cut by itself)
            list(records_of(value, is_tolerant))
            parts[name] = what, parts.get(name, ("", b""))[1] + value
            continue
        read = value_of(what, value, is_tolerant)
        if often == MANY:
            found.setdefault(name, []).append(read)
        elif read == ABSENT.get(what) and not is_tolerant:
            raise Refused(f"field {number} of a {kind} has its default, which isn't written")
        else:
            found[name] = read
    found.update((name, fields_of(*it, is_tolerant)) for name, it in parts.items())
    lacking = next((name for name, what, often in shape.values() if often == ONE and found.get(name, "") == ""), None)
    if lacking:
        raise Refused(f"a {kind} has no {lacking}")
    return {name: found.get(name, [] if often == MANY else ABSENT.get(what)) for name, what, often in shape.values() if name}


# Messages.


class Outputs(NamedTuple):
    """An ActionResult: files, links and the Trees' digests by path, the exit code, and what was printed."""

    outputs: dict
    exit_code: int
    printed: dict


class Directories(NamedTuple):
    """A Tree: the top, and the Directories below by their digests."""

    root: dict
    children: dict


def digest_of(fields):
    if not HASH.fullmatch(fields["hash"]):
        raise Refused("a hash isn't 64 lower-case hex digits")
    return Digest(fields["hash"], fields["size"])


def link_of(fields):
    if not is_target(fields["target"]):
        raise Refused("a link has no target")
    return Link(fields["target"])


def check_order(kind, keys):
    """Refuses a list that isn't strictly ascending."""
    encoded = [tuple(part.encode() for part in it) for it in keys]
    if any(it >= other for it, other in zip(encoded, encoded[1:])):
        raise Refused(f"a list of the {kind} isn't in its order")


def directory_of(fields):
    """A Directory as a dictionary: files, links, and the digests of Directories."""
    entries = {}
    for name, read in (("files", lambda it: File(digest_of(it["digest"]), it["is_executable"])),
                       ("directories", lambda it: digest_of(it["digest"])), ("links", link_of)):
        names = [it["name"] for it in fields[name]]
        check_order("Directory", [(it,) for it in names])
        wrong = next((it for it in names if "/" in it or not is_path(it) or it in entries), None)
        if wrong is not None:
            raise Refused(f"a Directory has the name {wrong!r} twice, or it is none")
        entries.update((it["name"], read(it)) for it in fields[name])
    return entries


def tree_of(fields):
    children = {Digest.of(it): directory_of(fields_of("Directory", it)) for it in fields["children"]}
    root, named = directory_of(fields["root"]), set()
    waiting = [root]
    while waiting:
        for it in waiting.pop().values():
            if isinstance(it, Digest) and it not in named:
                if it not in children:
                    raise Refused(f"the Tree lacks the Directory {it.text()}")
                named.add(it)
                waiting.append(children[it])
    if len(named) < len(children):
        raise Refused("the Tree has a child that nothing names")
    return Directories(root, children)


def result_of(fields):
    """An ActionResult, whose outputs may stand in any order."""
    outputs, paths = {}, []
    for name, read in (("files", lambda it: File(digest_of(it["digest"]), it["is_executable"])),
                       ("directories", lambda it: digest_of(it["tree"])), ("links", link_of)):
        outputs.update((it["path"], read(it)) for it in fields[name])
        paths += (it["path"] for it in fields[name])
    wrong = next((it for it in paths if not is_path(it)), None)
    if wrong is not None or targets_meet(paths):
        raise Refused(f"an output has the path {wrong!r}" if wrong is not None else "two outputs meet at one path")
    printed = {it: fields[it] for it in ("stdout_raw", "stderr_raw") if fields[it]}
    printed.update((it, digest_of(fields[it])) for it in ("stdout", "stderr") if fields[it])
    return Outputs(outputs, fields["exit_code"], printed)


def command_of(fields):
    check_order("Command", [(it["name"],) for it in fields["variables"]])
    check_order("Command", [(it,) for it in fields["outputs"]])
    texts = [*fields["arguments"], *(part for it in fields["variables"] for part in it.values())]
    are_named = all(it["name"] and "=" not in it["name"] for it in fields["variables"])
    paths = [*fields["outputs"], *([fields["folder"]] if fields["folder"] else [])]
    are_right = all(map(is_text, texts)) and all(map(is_path, paths))
    if not (fields["arguments"] and fields["arguments"][0] and are_named and are_right):
        raise Refused("the Command has no program, or a text or a path that none has")
    if targets_meet(fields["outputs"]):
        raise Refused("two outputs of the Command meet at one path")
    return fields


def action_of(fields):
    read = {**fields, **{it: digest_of(fields[it]) for it in ("command", "input") if it in fields}}
    pairs = (fields["platform"] or {"properties": []})["properties"]
    check_order("Action", [(it["name"], it["value"]) for it in pairs])
    if fields["platform"] is not None and not pairs:
        raise Refused("the Action has a Platform without properties")
    return {**read, "platform": pairs}


READ = {
    "Action": action_of, "frame": action_of, "Tree": tree_of, "Directory": directory_of, "Command": command_of,
    "ActionResult": result_of,
}


def decoded(kind, blob):
    """A message of a kind; bytes that are none are refused."""
    return READ[kind](fields_of(kind, blob, is_tolerant=kind == "ActionResult"))


def kinds_of(blob):
    """By each kind of message that these bytes are, what they have as that."""
    found = {}
    for kind in KINDS:
        try:
            found[kind] = decoded(kind, blob)
        except Refused:
            continue
    return found


# Trees.


def blob_at(store, digest):
    """The bytes of a digest, which have to be in the store."""
    blob = b"" if digest.size == 0 else store.get("cas", digest.hash)
    if blob is None:
        raise NotAnswered(f'"{store.place("cas", digest.hash)}" isn\'t there: the store has no blob {digest.text()}')
    if Digest.of(blob) != digest:
        raise Refused(f'"{store.place("cas", digest.hash)}" has other bytes than those of its hash')
    return blob


def message_at(store, kind, digest):
    """The message of a kind with a digest, which has to be in the store."""
    blob = blob_at(store, digest)
    try:
        return decoded(kind, blob)
    except Refused as fault:
        raise Refused(f'"{store.place("cas", digest.hash)}" is no {kind}: {fault}') from None


class Unfolded:
    """Whole trees as dictionaries, of a store. They have so many entries at most: directories that stand one in another again and
    again have more than fit into memory."""

    def __init__(self, store, room=MOST_ENTRIES):
        self.store, self.room = store, room

    def directory(self, digest, tree=None):
        """What stands at and below a Directory: of a Tree, or else of the store."""
        return self.entries(tree.children[digest] if tree else message_at(self.store, "Directory", digest), tree)

    def entries(self, entries, tree=None):
        """A Directory's entries with a dictionary in the place of each digest."""
        self.room -= len(entries)
        if self.room < 0:
            raise Refused(f"a tree has more than {MOST_ENTRIES} entries")
        return {name: self.directory(it, tree) if isinstance(it, Digest) else it for name, it in entries.items()}

    def outcome(self, result):
        """What a step made by its result."""
        made = {}
        for path, it in result.outputs.items():
            if isinstance(it, Digest):
                tree = message_at(self.store, "Tree", it)
                it = self.entries(tree.root, tree)
            put(made, path, it)
        return made
