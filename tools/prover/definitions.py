#!/usr/bin/env python3
"""Prints what the words of contracts mean: definitions.py [CRATE .. | WORD ..]

Without arguments it prints each file of definitions (crates/*/specs), lowest crate first, with what it is about and its public
words. With a CRATE it prints each of the crate's public words, its comment and its file. With a WORD (or `CRATE.WORD`, where
a word stands in two crates) it prints the definition whole. The status is 1 where a word stands nowhere.
"""

import os
import re
import signal
import sys
import textwrap

from shared.command_line import words_of
from shared.crates import TOP, crates_of

HEAD = re.compile(r"\s*(?:(?:abbrev|unfoldable|data|record|syntax)\s+pub\s+(\S+)|pub\s+(?:data|record|abbrev)\s+(\S+))")


class Definition:
    """A public word of a crate's specs: its file, its comment, its text, and the number of its first line, from 0 on."""

    def __init__(self, crate, file, word, comment, text, at):
        self.crate, self.file, self.word, self.comment, self.text, self.at = crate, file, word, comment, text, at


def crates_in_order():
    """The crates that have definitions, lowest first, as crates.txt has them."""
    return [it for it in crates_of(TOP) if os.path.isdir(f"{TOP}/crates/{it}/specs")]


def is_heading(line):
    return line.strip().startswith("-- ----")


def is_comment(line):
    """Whether a line is one of a comment."""
    return line.strip().startswith("--") and not is_heading(line)


def start_of_comment(lines, end):
    """The first line of the comment that ends right above a line."""
    while end > 0 and is_comment(lines[end - 1]):
        end -= 1
    return end


def comment_above(lines, at):
    """The comment that stands right above a line, which may be in a section (`module _`)."""
    return " ".join(line.strip()[2:].strip() for line in lines[start_of_comment(lines, at) : at])


def comments_of(lines):
    """Each comment of a file, with the number of its first line, from 1 on: of what the file is about, of a definition, or within
    one. What goes on with a heading, up to an empty line, is none."""
    for end in range(1, len(lines) + 1):
        below = "".join(lines[end : end + 1])
        first = start_of_comment(lines, end)
        if first < end and not is_comment(below) and (below.strip() or not (first and is_heading(lines[first - 1]))):
            yield first + 1, comment_above(lines, end)


def lines_of(crate, file):
    with open(f"{TOP}/crates/{crate}/specs/{file}") as text:
        return text.read().split("\n")


def definitions_of(crate, file):
    """The public words of a file, and what the file is about."""
    lines = lines_of(crate, file)
    end_of_header = next((at for at, line in enumerate(lines) if not line.startswith("--")), len(lines))
    about = " ".join(line[2:].strip() for line in lines[:end_of_header])
    found = []
    for at, line in enumerate(lines):
        head = HEAD.match(line)
        if not head:
            continue
        end = next((it for it in range(at + 1, len(lines)) if not lines[it].strip()), len(lines))
        word = head.group(1) or head.group(2)
        found.append(Definition(crate, file, word, comment_above(lines, at), "\n".join(lines[at:end]), at))
    return about, found


def files_of(crate):
    names = sorted(it for it in os.listdir(f"{TOP}/crates/{crate}/specs") if it.endswith(".antt") and it != "Lib.antt")
    return [(it, *definitions_of(crate, it)) for it in names]


def filled(text, indent):
    return textwrap.fill(text, 100, initial_indent=indent, subsequent_indent=indent)


def print_files():
    for crate in crates_in_order():
        print(crate)
        for file, about, found in files_of(crate):
            print(filled(f"{file}: {about}", "  "))
            if found:
                print(filled(" ".join(it.word for it in found), "      "))


def print_crate(crate):
    for file, about, found in files_of(crate):
        print(filled(f"{file}: {about}", ""))
        for it in found:
            print(filled(f"{it.word}: {it.comment}" if it.comment else it.word, "  "))


def print_word(word, every):
    crate, _, name = word.rpartition(".")
    found = [it for it in every if it.word == name and crate in ("", it.crate)]
    for it in found:
        print(f"-- crates/{it.crate}/specs/{it.file}")
        if it.comment:
            print(textwrap.fill(it.comment, 96, initial_indent="-- ", subsequent_indent="-- "))
        print(f"{it.text}\n")
    if not found:
        print(f"error: no definition of crates/*/specs has the name {word}", file=sys.stderr)
    return bool(found)


def main():
    words = words_of(__doc__)
    # (who reads only its head ends this quietly)
    signal.signal(signal.SIGPIPE, signal.SIG_DFL)
    if not words:
        print_files()
        return 0
    crates = crates_in_order()
    every = [] if all(it in crates for it in words) else [
        it for crate in crates for _, _, found in files_of(crate) for it in found]
    told = True
    for word in words:
        if word in crates:
            print_crate(word)
        else:
            told = print_word(word, every) and told
    return 0 if told else 1


if __name__ == "__main__":
    sys.exit(main())
