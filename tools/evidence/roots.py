"""What a build ends in by its evidence: the tree that the lines of the root put together, of what the record, the results and the
Directories of the store say."""

import os
import re

from bazel_artifact import digest_of_file
from decoding import Unfolded, decoded, message_at
from plans import files_at, put, stands_at
from shared import stores
from shared.command_line import NotAnswered, Refused
from shared.messages import Digest, directory_message

RECORDED = re.compile(rb"^step (\S+) ([0-9a-f]{64})/[0-9]+$", re.M)


class Root:
    """The tree of the last stage's root."""

    def __init__(self, stages, plans, store):
        self.store, self.stage, self.unfolded = store, stages[-1], Unfolded(store)
        record = stores.read_file(os.path.join(self.stage.folder, "record"))
        self.actions = {name.decode(): action.decode() for name, action in RECORDED.findall(record)}
        self.outcomes, self.tree = {}, {}
        for line in plans.plans[-1].root:
            self.add(line)

    def add(self, line):
        """Puts what a line names at its target."""
        if line.step and line.step not in self.outcomes:
            self.outcomes[line.step] = self.outcome(line.step)
        entry = stands_at(self.outcomes[line.step], line.path) if line.step else self.source(line.path)
        if entry is None or not merge(self.tree, line.target, entry):
            raise Refused(f'nothing is at the origin of the line of "{line.target}", or it meets another')

    def outcome(self, step):
        """What a step made, by its recorded result."""
        result = self.store.get("ac", self.actions[step])
        if result is None:
            raise NotAnswered(f"the store has no result of step {step}")
        return self.unfolded.outcome(decoded("ActionResult", result))

    def source(self, path):
        """What stands at a path of the sources, or nothing."""
        hashed, _, size = self.stage.sources.partition("/")
        entry = Digest(hashed, int(size))
        for name in filter(None, path.split("/")):
            entry = message_at(self.store, "Directory", entry).get(name) if isinstance(entry, Digest) else None
        return self.unfolded.directory(entry) if isinstance(entry, Digest) else entry

    def digest(self):
        return Digest.of(directory_message(self.tree)).text()


def merge(entries, path, entry):
    """Puts an entry at a path of a dictionary, a folder's name by name, and answers whether nothing else stood there."""
    if not isinstance(entry, dict):
        return put(entries, path, entry)
    here = stands_at(entries, path)
    if here is None and not put(entries, path, here := {}):
        return False
    return isinstance(here, dict) and all(merge(here, name, it) for name, it in entry.items())


def files_of(tree):
    """The files and links of a tree, by their paths."""
    return {path: it for name in tree for path, it in files_at(name, tree[name])}


def hash_of_file(path):
    """The SHA-256 of a file, however large."""
    return digest_of_file(path).hash
