"""The steps of a recorded build beside the log of another build of the same sources, as the one that was shipped: which actions
came to other results there, and which only read what those made. The rules are those of tools/evidence/README.md."""

from collections import Counter

from bazel_taken import library_of
from shared.messages import Link


class Against:
    """What differs: a line for each step, those first that came to other results, and how many there are of each kind."""

    def __init__(self, steps, others, name):
        self.name = name
        self.by_action = {it.action: it for it in others}
        self.by_outputs = {tuple(it.listed): it for it in others}
        self.changed, self.lines, self.counts = set(), {"differ": [], "follow": [], "unlike": []}, Counter()
        for spawn in steps:
            self.add(spawn)

    def add(self, spawn):
        """Compares a step, which comes after those that it reads."""
        other = self.by_action.get(spawn.action)
        if other:
            paths = unequal(spawn.made, other.made)
            if paths or spawn.exit_code != other.exit_code:
                where = f"line {other.line}, {how_made(other)}"
                self.tell("differ", spawn, f"came to another result there ({where}): {results(spawn, other, paths)}")
        else:
            other = self.by_outputs.get(tuple(spawn.listed))
            paths = unequal(spawn.made, other.made) if other else []
            self.tell(*self.why_other(spawn, other))
        self.changed.update(paths)

    def why_other(self, spawn, other):
        """Why there is no such action in the other log: of which kind this is, the step, and the words."""
        if not other:
            return "unlike", spawn, "isn't in that log, in which Bazel may have found it built"
        paths = unequal(spawn.inputs, other.inputs)
        own = [it for it in paths if it not in self.changed and library_of(it) not in self.changed]
        if own:
            return "unlike", spawn, f'read another "{own[0]}" there, which no step made otherwise (line {other.line})'
        if spawn.frame != other.frame or not paths:
            return "unlike", spawn, f"had another command there (line {other.line})"
        return "follow", spawn, f'only follows: it read another "{paths[0]}" there (line {other.line})'

    def tell(self, kind, spawn, words):
        self.counts[kind] += 1
        self.lines[kind].append(f'against "{self.name}": {spawn.place()} {words}')

    def notes(self):
        return [line for kind in ("differ", "unlike", "follow") for line in self.lines[kind]]


def unequal(entries, others):
    """The paths at which two dictionaries have other files or links, or only one has any."""
    return [path for path in sorted(entries.keys() | others.keys()) if entries.get(path) != others.get(path)]


def how_made(spawn):
    return spawn.runner or ("from a cache" if spawn.is_from_cache else "its runner isn't said")


def results(spawn, other, paths):
    """What two spawns of one action came to, where that differs."""
    if not paths:
        return f"the exit code {other.exit_code} for {spawn.exit_code}"
    path, more = paths[0], f", and {len(paths) - 1} other outputs" if len(paths) > 1 else ""
    return f'"{path}" has {shown(other.made.get(path))} there, and {shown(spawn.made.get(path))} in the recorded build{more}'


def shown(entry):
    """A file by its digest, a link by its target, or that there is none."""
    return "nothing" if entry is None else f'a link to "{entry.target}"' if isinstance(entry, Link) else entry.digest.text()
