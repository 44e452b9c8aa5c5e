#!/usr/bin/env python3
"""Prints how much has to be believed, which docs/GUARANTEES.md tells: a table of the lines of each crate's specs/, without
blank lines, imports, comments and the files that ASIDE names; and what two claims stand on. It takes no arguments.

A claim stands on the definitions that its clauses name, on those that these name, and so on: `use` says whose a name is. Lines
count as in the table. The code's types, the contracts of traits, and the kit's words aren't followed.
"""

import re
import sys

import definitions
from shared.command_line import words_of
from shared.crates import TOP

# Words of private functions alone, and examples (TwoSteps, SmallExample): no other public claim rests on these.
ASIDE = {
    "action_cache": ["Survey"],
    "action_messages": ["Merging"],
    "actions": ["Parts"],
    "builder": ["TwoSteps"],
    "cache_server": ["Sessions", "Writing"],
    "cli": ["Progress", "Running"],
    "commands": ["Children", "Hashed", "Putting", "SmallExample", "Walked"],
    "eviction": ["Victims", "View"],
    "exchange": ["Conversation"],
    "http_core": ["Method"],
    "plan": ["Parts", "Targets"],
    "processes": ["Process", "Walking"],
    "remote": ["Steps"],
    "runs": ["TwoSteps"],
    "service": ["Member", "Rounds", "Together"],
    "tree": ["Comparing", "Given", "MergeExample", "MergeParts", "Unfolding", "Visiting"],
    "verifier": ["Answers", "Checks", "Stage", "TwoSteps"],
    "worker": ["Gathering", "Going", "Stopping", "Storing", "TwoSteps"],
}

# Claims: a file of a crate, a function in it, and its clauses (all, where none is named).
PROGRAM = ("cli/src/running.rt", "run_words", ())
HEADLINE = ("verifier/src/verifying.rt", "verify", ("holds", "unstuck"))

NO_CODE = ("use ", "pub use ", "pub mod ", "mod ", "--")
USE = re.compile(r"(?:pub |ghost )?use Rattle\.(\w+)\.specs\.(\w+)[\w.]*?(?:\.\{(.*)\}| as (\w+));?")
NAME = re.compile(r"[^\s(){}\[\],;]+")
# Names that a text binds, and those of fields.
BOUND = re.compile(r"[({]([^(){}:]+?) : |λ ([^.()]+)\.")
FIELD = re.compile(r"\bpub \S+ :")
IS_SET = re.compile(r" =(?!\S)")
# A clause of a contract, or the body behind the contract.
CLAUSE = re.compile(r"\b(?:ensures|requires)(?: (\w+))?\s*\{|\n\{")


def is_code(line):
    return bool(line.strip()) and not line.strip().startswith(NO_CODE)


def indent_of(line):
    return len(line) - len(line.lstrip())


def spellings(name):
    """How a name is written in a text: an operator by its first sign."""
    return [name, *[it for it in name.split("◌") if it][:1]]


class Names:
    """Whose the names of a text are by its `use` lines: of which file, and the name there; of an alias the file alone."""

    def __init__(self, lines):
        self.brought = {}
        for crate, file, names, alias in (it.groups() for it in map(USE.fullmatch, map(str.strip, lines)) if it):
            pairs = [("", alias)] if alias else [it.strip().partition(" as ")[::2] for it in names.split(",")]
            for there, here in pairs:
                for spelling in spellings(here or there):
                    self.brought[spelling] = (crate, f"{file}.antt"), there

    def own(self, name):
        """The definition that stands here."""
        return None


class Words(Names):
    """A file of definitions: by their words, and the constructors of types."""

    def __init__(self, crate, file, found):
        self.lines = definitions.lines_of(crate, file)
        super().__init__(self.lines)
        self.place, self.found, self.words = (crate, file), found, {}
        for it in found:
            constructors = re.findall(r"^ +(\S+) :", it.text, re.M) if it.text.lstrip().startswith("pub data") else []
            for name in (it.word, *constructors):
                for spelling in spellings(name):
                    self.words.setdefault(spelling, it)

    def own(self, name):
        return self.words.get(name)

    def numbers_of(self, it):
        """The numbers of a definition's lines of code, and of those of the sections (`module _ ..`) that it stands in."""
        numbers = list(range(it.at, it.at + it.text.count("\n") + 1))
        depth = indent_of(self.lines[it.at])
        for at in range(it.at, -1, -1):
            if is_code(self.lines[at]) and indent_of(self.lines[at]) < depth:
                depth = indent_of(self.lines[at])
                if self.lines[at].lstrip().startswith("module "):
                    end = next(end for end in range(at, it.at) if self.lines[end].endswith("where"))
                    numbers += range(at, end + 1)
        return {at for at in numbers if is_code(self.lines[at])}


class Library:
    """All files of definitions."""

    def __init__(self):
        self.files = {(crate, file): Words(crate, file, found) for crate in definitions.crates_in_order()
                      for file, _, found in definitions.files_of(crate)}

    def meant(self, names, name, behind):
        """The definition that a name of a text means, `behind` being what stands behind its dot, or nothing."""
        if names.own(name) or name not in names.brought:
            return names.own(name)
        place, there = names.brought[name]
        return self.meant(self.files[place], there or behind, "") if place in self.files else None

    def cited(self, names, code):
        """The definitions that a text names."""
        code = FIELD.sub(":", re.sub("--.*", "", code))
        bound = {it for found in BOUND.finditer(code) for it in (found[1] or found[2]).split()}
        for found in NAME.finditer(code):
            name, _, behind = found[0].partition(".")
            if name not in bound and not IS_SET.match(code, found.end()):
                meant = self.meant(names, name, behind.partition(".")[0])
                if meant:
                    yield meant

    def stands_on(self, claim):
        """The lines of all definitions that a claim stands on: their files and numbers."""
        lines, left, known = set(), list(self.cited(*clauses_of(*claim))), set()
        while left:
            it = left.pop()
            if it not in known:
                known.add(it)
                words = self.files[it.crate, it.file]
                numbers = words.numbers_of(it)
                lines |= {(*words.place, at) for at in numbers}
                left += self.cited(words, "\n".join(words.lines[at] for at in sorted(numbers)))
        return lines


def clauses_of(file, function, wanted):
    """The names of a file of code, and the text of the clauses of a function's contract."""
    with open(f"{TOP}/crates/{file}") as text:
        code = re.sub("//.*", "", text.read())
    start = re.search(rf"^pub fn {function}\b", code, re.M)
    found = []
    while start:
        start = CLAUSE.search(code, start.end())
        if not start or start[0] == "\n{":
            break
        end, depth = start.end(), 1
        while depth:
            depth += {"{": 1, "}": -1}.get(code[end], 0)
            end += 1
        found.append((start[1], code[start.end() : end - 1]))
    told = [text for name, text in found if not wanted or name in wanted]
    if not told or not set(wanted) <= {name for name, _ in found}:
        raise SystemExit(f"error: crates/{file}: {function} hasn't the clauses {' '.join(wanted)}; correct PROGRAM or HEADLINE")
    return Names(code.split("\n")), "\n".join(told)


def is_aside(crate, file):
    return file.removesuffix(".antt") in ASIDE.get(crate, [])


def lines_by_crate(library):
    counts = {}
    for crate, file in library.files:
        if not is_aside(crate, file):
            counts[crate] = counts.get(crate, 0) + sum(map(is_code, library.files[crate, file].lines))
    return dict(sorted(counts.items()))


def sentences(library):
    """What docs/GUARANTEES.md says of the whole, and of the claims."""
    program, headline = (len(library.stands_on(it)) for it in (PROGRAM, HEADLINE))
    return [
        f"{sum(lines_by_crate(library).values()):,} lines of definitions",
        f"the contract of `run_words` stands on {program:,} of them",
        f"the headline (`holds` and `unstuck` of `verify`) stands on {headline:,}",
    ]


def main():
    words_of(__doc__, 0, 0)
    library = Library()
    counts = lines_by_crate(library)
    print("| Crate | Lines |\n|---|---|")
    for crate, count in counts.items():
        print(f"| `{crate}` | {count} |")
    print(f"| all | {sum(counts.values()):,} |\n")
    print(f"{'; '.join(sentences(library))}.")


if __name__ == "__main__":
    sys.exit(main())
