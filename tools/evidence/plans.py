"""What a plan may say: its texts and paths, trees as dictionaries, its limits, and the blobs that a store is told with it."""

import functools
import os
import re

from shared.command_line import Refused
from shared.messages import Digest

MOST_STEPS = 4096
MOST_LINES = 65536
MOST_BYTES = 16777216
MOST_NAMES = 64
LONGEST_STEP = 64


# What is read.


def without_repeats(pairs):
    """The dictionary of a JSON object, which has no name twice."""
    value = dict(pairs)
    if len(value) < len(pairs):
        names = [name for name, _ in pairs]
        raise Refused(f'an object has "{next(it for it in names if names.count(it) > 1)}" twice')
    return value


def entries_of(folder):
    """What stands in a folder on disk, with its names in their order."""
    return sorted((as_utf8(it.name), it) for it in os.scandir(folder))


def target_of(link):
    """The target of a link on disk."""
    return as_utf8(os.readlink(link.path))


def as_utf8(name):
    """A name on disk by its bytes as UTF-8, whatever the locale takes them for; if they are none, it is no text of a message."""
    return os.fsencode(name).decode("utf-8", "surrogateescape")


# Paths, as messages have them.


def is_text(text):
    """Whether a text may stand in a message: it has bytes as UTF-8, and no NUL."""
    try:
        return b"\0" not in text.encode()
    except UnicodeEncodeError:
        return False


def is_target(target):
    return is_text(target) and 0 < len(target.encode()) <= 4096


@functools.lru_cache(maxsize=None)
def is_path(path):
    names = path.split("/")
    return (
        is_text(path)
        and len(names) <= MOST_NAMES
        and all(name not in ("", ".", "..") and len(name.encode()) <= 255 for name in names)
    )


def folders_of(path):
    """The folders above a path, the nearest first."""
    while "/" in path:
        path = path.rpartition("/")[0]
        yield path


UNSAFE = re.compile("[^A-Za-z0-9._~/-]")


def escaped(path):
    """The one text that a path has in a plan."""
    return UNSAFE.sub(lambda it: "".join(f"%{byte:02X}" for byte in it[0].encode()), path)


def unescaped(text):
    """The path that has this text in a plan; where none has, an empty one, which is no path."""
    try:
        path = re.sub(b"%([0-9A-F]{2})", lambda it: bytes([int(it[1], 16)]), text.encode()).decode()
    except UnicodeError:
        return ""
    return path if escaped(path) == text else ""


def targets_meet(targets):
    """Whether one of these paths is another, or lies under it."""
    seen = set()
    for target in targets:
        if target in seen:
            return True
        seen.add(target)
    return any(folder in seen for target in seen for folder in folders_of(target))


# Trees as dictionaries: a file, a link or such a dictionary by each name.


def put(entries, path, entry):
    """Puts an entry at a path of a dictionary, and answers whether there was room for it, or it stood there."""
    *folders, name = path.split("/")
    for folder in folders:
        entries = entries.setdefault(folder, {})
        if not isinstance(entries, dict):
            return False
    return entries.setdefault(name, entry) == entry


def files_at(path, entry):
    """The files and links at a path and below it, by their paths, where this stands there."""
    if isinstance(entry, dict):
        for name, below in sorted(entry.items()):
            yield from files_at(f"{path}/{name}", below)
    else:
        yield path, entry


def stands_at(entries, path):
    """What stands at a path of a dictionary, or nothing."""
    for name in path.split("/"):
        if not isinstance(entries, dict) or name not in entries:
            return None
        entries = entries[name]
    return entries


# What is written.


class Store:
    """The blobs by digest, and the results by their action's hash, that a store is to be told."""

    def __init__(self):
        self.blobs = {}
        self.results = {}

    def keep(self, blob):
        digest = Digest.of(blob)
        self.blobs[digest] = blob
        return digest

    def put_into(self, store):
        """Tells a store all, by the hashes: the blobs before the results that refer to them."""
        for digest in sorted(self.blobs):
            store.put("cas", digest.hash, self.blobs[digest])
        for action in sorted(self.results):
            store.put("ac", action.hash, self.results[action])


def check_sizes(store, texts):
    """Refuses what the program reads no more of: blobs, results, and texts by their names, each a list of lines."""
    def check(size, name, what=""):
        if size > MOST_BYTES:
            raise Refused(f"the {name}{what and what.text()} has {size} bytes, and buildcache reads {MOST_BYTES} at most")

    for digest, blob in store.blobs.items():
        check(len(blob), "blob ", digest)
    for action, blob in store.results.items():
        check(len(blob), "result of ", action)
    for name, lines in texts.items():
        check(sum(len(it) + 1 for it in lines), name)
