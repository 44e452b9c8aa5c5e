#!/usr/bin/env python3
"""Lists what the proofs take for granted in the code: assumptions.py [--compare FILE]

One line each, with its file and the impl that it stands in:
- `ghost`: a member that says nothing of its value (it looks at none, or is `None`, `[]`, `Unit` or a definition of something
  unknown), so nothing is proved of what the system does there; and every member of an impl over the system's own files, sockets
  or processes
- `constant`: a member that a trait declares of no value, neither of the type itself nor of one of its types, so all values of a
  type would share it; and why that is right (WHY in this tool). One without a reason fails
- `open`: a public function, or a method of a public trait, without a clause; of a trait's method in an impl the trait's clauses
  count
- `unsafe`: what the checker takes as it is written
- `handle`: a function or an impl that takes a handle (HANDLES)
Crates of tests and measurements are left out. docs/assumptions.txt is this list; with --compare the tool tells how FILE differs
from it, ends with 'N passed, M failed', and has the status 1 where they differ.
"""

import glob
import os
import re
import sys

import mistakes
from shared.command_line import fail, words_of
from shared.crates import TOP
from shared.rows import Rows

LEFT_OUT = re.compile(r"test_\w+|benchmark")
MEMBER = re.compile(r"ghost (?P<name>\w+) = \{(?P<term>.*?)\};", re.DOTALL)
# A term that looks at no value.
BLIND = re.compile(r"λ [_ ]+\. .*|(?:None|\[\]|Unit|\w*(?:nothing|unknown)\w*|[{}0-9 ])+")
# The bounds by which code reaches the system, and the types in which it holds what it got there.
SYSTEM = re.compile(r"\b(?:Files|Net|Processes|Clock|TcpStream|TcpListener|SystemListener|SystemSockets)\b")
HANDLE = re.compile(r"\b(?:Net|Processes|Threads|Wait)\b")
DECLARED = re.compile(r"ghost (?P<name>\w+): \{(?P<term>.*?)\};", re.DOTALL)
# A term that is of a value.
OF_VALUE = re.compile(r"\bSelf(?:\.\w+)* →")
MARK = "a mark, picked by a call for the values behind it"
SPENT = "of a connection that has ended: no value of it is left, and what listens changes with each call"
# Why a member of a trait is of no value.
WHY = {
    "AsksResults.asks": "a law of a mark",
    "FolderMark.folder": MARK,
    "FolderMark.sees": MARK,
    "Listener.ended": SPENT,
    "Listener.lost": SPENT,
    "Listener.opened": SPENT,
    "Listener.sent": SPENT,
    "Message.reads": "what the type reads of bytes, nothing outside",
    "Opened.start": MARK,
    "Permit.access": MARK,
    "Sockets.broken": "why a wait failed, after which nothing is served",
    "Sockets.ended": SPENT,
    "Sockets.lost": SPENT,
    "Tolerant.says": "what the type reads of bytes, nothing outside",
    "Workshop.works": "a record: each part is of a room, of a child or of what ended, which carry what they hold",
}
UNEXPLAINED = "no reason is given"


def plain(text):
    """A text of code without comments, in one line."""
    return " ".join(re.sub(r"//[^\n]*", "", text).split())


def heads(text):
    """The impls and public traits of a file: where each begins and ends, and its head."""
    words, found = mistakes.words_of(text), []
    for at, (word, start) in enumerate(words):
        if word not in ("impl", "trait") or at and words[at - 1][0] not in (";", "}", "]", "{", "unsafe", "pub"):
            continue
        brace = next((it for it in range(at, len(words)) if words[it][0] == "{"), None)
        if brace is not None:
            end = mistakes.skip(words, brace)
            is_public = word == "impl" or at and words[at - 1][0] == "pub"
            found.append((start, words[end - 1][1] + 1, plain(text[start:words[brace][1]]), is_public))
    return found


def above(found, place):
    """The head of the impl or trait in which a place stands, or nothing."""
    return next((head for start, end, head, _ in found if start < place < end), "")


def ghosts(text, found):
    for it in MEMBER.finditer(text):
        head, term = above(found, it.start()), plain(it["term"])
        if BLIND.fullmatch(term) or SYSTEM.search(head):
            yield head, f"ghost {it['name']} = {{ {term} }}"


def constants(text, found):
    """The ghost members of traits that are of no value, each with why."""
    for it in DECLARED.finditer(text):
        head, term = above(found, it.start()), plain(it["term"])
        if head.startswith("trait ") and not OF_VALUE.search(term):
            member = f"{re.match(r'trait ([A-Za-z0-9_]+)', head)[1]}.{it['name']}"
            yield head, f"ghost {it['name']}: {{ {term} }}: {WHY.get(member, UNEXPLAINED)}"


def is_without_clause(head):
    return not re.search(r"\b(?:requires|ensures)\b", head)


def functions(text, found):
    """The public functions of a file, with the impl or trait of each and its head."""
    for it in re.finditer(r"\bfn (\w+)", text):
        owner = next(((head, is_public) for start, end, head, is_public in found if start < it.start() < end), ("", True))
        before = text[text.rfind("\n", 0, it.start()) + 1:it.start()]
        words = mistakes.words_of(text[it.start():])
        texts = mistakes.Functions()
        mistakes.read_function(words, 0, 0, [], texts, text[it.start():])
        (whole,), body = texts[it[1]], next((brace for brace, _ in texts.bodies), None)
        yield owner, before, plain(whole[:body]), it[1]


def open_functions(text, found):
    for (head, is_public), before, whole, name in functions(text, found):
        in_trait = head.startswith("trait ") and is_public
        if is_without_clause(whole) and "//" not in before and (in_trait or re.search(r"\bpub (?:const |unsafe )*$", before)):
            yield head, f"fn {name}"


def unsafes(text, found):
    for it in re.finditer(r"(?m)^[^\n/]*\bunsafe\b[^\n]*", text):
        yield above(found, it.start()), plain(it.group())


def handles(text, found):
    """Of each function and impl that names a handle as a bound, its name or head and the handles."""
    for start, end, head, _ in found:
        if HANDLE.search(head):
            yield "", f"{head}: {' '.join(sorted(set(HANDLE.findall(head))))}"
    for (head, _), before, whole, name in functions(text, found):
        named = sorted(set(HANDLE.findall(re.split(r"\b(?:requires|ensures)\b", whole)[0])))
        if named and "//" not in before:
            yield head, f"fn {name}: {' '.join(named)}"


KINDS = {"ghost": ghosts, "constant": constants, "open": open_functions, "unsafe": unsafes, "handle": handles}


def lines_of(file, text):
    """The lines of a file of code, of each kind in its order."""
    found = heads(text)
    return [f"{kind} {file}: {f'{head}: ' if head else ''}{what}" for kind, of in KINDS.items() for head, what in of(text, found)]


def lines(top=TOP):
    found = []
    for path in sorted(glob.glob(f"{top}/crates/*/src/**/*.rt", recursive=True)):
        file = os.path.relpath(path, top)
        if not LEFT_OUT.fullmatch(file.split("/")[1]):
            with open(path, encoding="utf-8") as it:
                found += lines_of(file, it.read())
    return [it for kind in KINDS for it in found if it.startswith(f"{kind} ")]


def compare(found, file):
    try:
        with open(file, encoding="utf-8") as it:
            listed = it.read().splitlines()
    except OSError as fault:
        fail(3, fault)
    rows = Rows()
    for line in sorted({*found} | {*listed}):
        more = found.count(line) - listed.count(line)
        if more:
            print(f"{'+' if more > 0 else '-'} {line}")
    rows.tell(f"{file} lists what the code takes for granted: {len(found)} lines", sorted(found) == sorted(listed),
              "it differs as is told above: + is in the code alone, - in the list alone")
    unexplained = [line for line in found if line.endswith(UNEXPLAINED)]
    rows.tell("each ghost member of no value has a reason", not unexplained,
              f"make it of a value, or say why not in WHY of assumptions.py: {'; '.join(unexplained)}")
    return rows.end()


def main(words):
    found = lines()
    if words[:1] == ["--compare"] and len(words) == 2:
        return compare(found, words[1])
    if words:
        fail(2, "assumptions.py takes no words, or --compare and a file")
    print("\n".join(found))
    return 0


if __name__ == "__main__":
    sys.exit(main(words_of(__doc__, 0, 2, ["--compare"])))
