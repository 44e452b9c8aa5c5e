#!/usr/bin/env python3
"""Prints what a blob of a store is, as text.

    show.py evidence HASH/SIZE                 an Action, a Command, a Directory, a Tree, or what else the blob is
    show.py evidence HASH/SIZE data/x          what stands at that path of the tree
    show.py evidence HASH --kind ActionResult  the result of the action with that hash
    show.py --server 127.0.0.1:8080 HASH

PLACE is a store folder (cas/HASH and ac/HASH), evidence with its folder `store`, or an archive of evidence; with --server it is
left out. DIGEST is HASH/SIZE or HASH. PATH, escaped or not, goes down from a Directory or a Tree, from an Action into its input,
and from an ActionResult to its outputs; no link is followed.

The first line is the kind and the digest. A Directory, a Tree and the outputs of a result are lines `NAME KIND BIT DIGEST`: file,
directory or link; x or -; the digest, or a link's target in quotes. Names are escaped as in plans, other texts as JSON has them.
Bytes may be several kinds of message; a line then says which was taken, and why. --kind takes another, and refuses bytes that
aren't of that kind.

The status is 0; 2 where the command line or the blob is at fault; 3 where it isn't there or can't be read.
"""

import argparse
import contextlib
import os
import re
import sys
from dataclasses import dataclass

import archives
import decoding
import showing
from judgements import DIGEST
from plans import escaped, is_path, put, unescaped
from shared import command_line, stores
from shared.command_line import NotAnswered, Refused
from shared.messages import Digest, File, Link

# Where results are, and where all else.
RESULTS, BLOBS = "ac", "cas"


def store_at(options):
    """The store that is asked."""
    if options.server is not None:
        asked = argparse.Namespace(folder="", store=None, server=options.server, prefix=options.prefix)
        return stores.store_of(asked).parts[BLOBS]
    place = options.place
    if options.prefix:
        raise Refused("--prefix is for --server")
    if os.path.isfile(place):
        return archives.Archive(place)
    if not os.path.isdir(place):
        raise NotAnswered(f'"{place}" isn\'t there: name a store folder, evidence, or an archive of it')
    is_evidence = os.path.isdir(os.path.join(place, "store"))
    is_store = any(os.path.isdir(os.path.join(place, it)) for it in (BLOBS, RESULTS))
    if is_evidence and is_store:
        raise Refused(f'"{place}" has a folder store and cas or ac beside it: name the one that is meant, as "{place}/store"')
    if not (is_evidence or is_store):
        raise Refused(f'"{place}" is neither a store, with cas or ac, nor evidence, with store')
    return stores.FolderStore(os.path.join(place, "store") if is_evidence else place)


def blob_of(store, digest):
    """A blob by HASH or HASH/SIZE, which has to have that hash and that size; or nothing."""
    hashed, _, size = digest.partition("/")
    blob = store.get(BLOBS, hashed)
    if blob is None and hashed == Digest.of(b"").hash:
        blob = b""
    if blob is None:
        return None
    found = Digest.of(blob)
    if found.hash != hashed or size not in ("", str(found.size)):
        raise Refused(f'"{store.place(BLOBS, hashed)}" is {found.text()}, and not {digest}: the store isn\'t what was put there')
    return blob


@dataclass
class Shown:
    """A blob, what it is taken for, and what it has as that; `why` says so, where it isn't the only kind."""

    kind: str
    blob: bytes
    read: object
    why: str = None

    @classmethod
    def as_kind(cls, kind, blob, why=None):
        """What a blob is as a kind that is told, by --kind or by where it stands."""
        try:
            return cls(kind, blob, decoding.decoded(kind, blob) if kind in decoding.KINDS else None, why)
        except Refused as fault:
            raise Refused(f"what stands there is no {kind}: {fault}; without --kind it is shown as what it is") from None

    def lines(self, digest):
        return [f"{self.kind} {digest}", *([self.why] if self.why else []), *showing.lines_of(self.kind, self.read, self.blob)]


def start_of(store, options):
    """What stands under the digest, as it is asked for or by its bytes."""
    kind, hashed = options.kind, options.digest.partition("/")[0]
    blob = blob_of(store, options.digest)
    if kind == "ActionResult" or (kind is None and blob is None):
        result = store.get(RESULTS, hashed)
        if result is not None:
            why = None if kind else "there is no blob with this hash: it is the result of the action that has it"
            return Shown.as_kind("ActionResult", result, why)
    if blob is None:
        raise NotAnswered(f'"{store.place(BLOBS, hashed)}" isn\'t there: the store has no blob {options.digest}')
    if kind:
        return Shown.as_kind(kind, blob)
    kind, others, read = showing.kind_of(blob)
    return Shown(kind, blob, read, showing.why_line(kind, others) if others else None)


# Down a path.


def node_lines(store, start, path):
    """The lines of what stands at a path of what is shown."""
    entries, tree = entries_of(store, start)
    for depth, name in enumerate(names := path.split("/")):
        if not isinstance(entries, dict) or name not in entries:
            raise Refused(f'nothing is at "{escaped("/".join(names[:depth + 1]))}"')
        entries = entries[name]
        is_output = start.kind == "ActionResult" and isinstance(entries, Digest) and tree is None
        if is_output:
            tree = decoding.message_at(store, "Tree", entries)
        if isinstance(entries, Digest) and depth < len(names) - 1:
            entries = tree.root if is_output else below(store, entries, tree)
    return lines_at(store, path, entries, tree, is_output)


def entries_of(store, start):
    """The top of the tree that something has, and the Tree by which its Directories are known, or none."""
    if start.kind == "Directory":
        return start.read, None
    if start.kind == "Tree":
        return start.read.root, start.read
    if start.kind == "Action":
        return below(store, start.read["input"], None), None
    if start.kind == "ActionResult":
        made = {}
        for path, it in start.read.outputs.items():
            put(made, path, it)
        return made, None
    raise Refused(f"it is taken as {start.kind}, which has no paths; Action, ActionResult, Directory and Tree have; see --kind")


def below(store, digest, tree):
    """The Directory with this digest, of a Tree, or else of the store."""
    return tree.children[digest] if tree else decoding.message_at(store, "Directory", digest)


def lines_at(store, path, entry, tree, is_output):
    """The lines of an entry: its own, and what it has."""
    first = showing.entry_line(path, entry)
    if isinstance(entry, Link):
        return [first]
    if isinstance(entry, File):
        content = blob_of(store, entry.digest.text())
        if content is None:
            return [first, "its content isn't in the store"]
        kind = showing.TEXT if showing.is_shown_as_text(content) else showing.BYTES
        return [first, *showing.lines_of(kind, None, content)]
    if is_output:
        return [first, *showing.lines_of_tree(tree)]
    return [first, *showing.entry_lines(below(store, entry, tree) if isinstance(entry, Digest) else entry)]


# The command line.


def parse(words):
    parser = command_line.Parser("show.py", __doc__)
    parser.usage = "show.py [-h] [--kind KIND] {PLACE | --server HOST:PORT [--prefix PREFIX]} DIGEST [PATH]"
    parser.add_argument("words", metavar="WORD", nargs="+", type=command_line.place_of, help="PLACE, DIGEST and PATH")
    stores.add_server(parser, "a cache over HTTP, in place of PLACE: blobs at /cas/HASH, results at /ac/HASH")
    parser.add_argument(
        "--kind", metavar="KIND", choices=showing.ALL_KINDS, action=command_line.Once,
        help=f"how the blob is read: {', '.join(showing.ALL_KINDS)}",
    )
    options = parser.parse_intermixed_args(words)
    given = options.words if options.server is None else [None, *options.words]
    if not 2 <= len(given) <= 3:
        parser.error("PLACE, DIGEST and at most a PATH are taken; with --server there is no PLACE")
    options.place, options.digest, options.path = (*given, None)[:3]
    if not re.fullmatch(f"[0-9a-f]{{64}}|{DIGEST}", options.digest):
        parser.error(f"{options.digest!r} is no digest, HASH/SIZE or HASH")
    if options.path is not None:
        options.path = unescaped(options.path) or options.path
        if not is_path(options.path):
            parser.error(f"{options.path!r} is no path below a directory")
    return options


def lines_of(options):
    """The status and the lines."""
    with contextlib.closing(store_at(options)) as store:
        start = start_of(store, options)
        if options.path is None:
            return 0, *start.lines(options.digest)
        return 0, *([start.why] if start.why else []), *node_lines(store, start, options.path)


def main(words):
    options = parse(words)
    return command_line.status_of(lambda: lines_of(options))


if __name__ == "__main__":
    sys.exit(main(sys.argv[1:]))
