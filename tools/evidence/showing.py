"""Blobs as text: a message by its fields, a tree as lines, and any other by its first bytes."""

import json
import re

from decoding import KINDS, kinds_of
from plans import escaped
from shared.command_line import on_one_line
from shared.messages import Digest, File, Link

# What a blob is besides a message.
TEXT, BYTES = "text", "bytes"
ALL_KINDS = (*KINDS, TEXT, BYTES)
MAGICS = {
    b"\x7fELF": "ELF", b"!<arch>\n": "an ar archive", b"\x1f\x8b": "gzip", b"PK\x03\x04": "zip", b"\x28\xb5\x2f\xfd": "zstd",
    b"\x89PNG": "PNG", b"#!": "a script", b"%PDF": "PDF", b"\xca\xfe\xba\xbe": "a Java class",
}
# How much is shown of what is no message.
MOST_CHARACTERS, MOST_BYTES, IN_ROW = 2000, 64, 16
# How much is shown of a Tree.
MOST_LINES = 65536
# Why another kind isn't taken, by that kind.
WHY_NOT = {
    "Command": "any text may be an argument of a Command", "ActionResult": "results stand in ac, by the hash of their action",
    TEXT: "few texts are a message in its one encoding",
    **{it: "fewer bytes are the other" for it in ("frame", "Tree", "Directory")},
}


def kind_of(blob):
    """Which kind a blob is taken for, which others it is too, and what it has as the first: a message where it is one, else a
    text or bytes."""
    found = kinds_of(blob)
    kinds = [*found, *([TEXT] if is_shown_as_text(blob) else [])] or [BYTES]
    return kinds[0], kinds[1:], found.get(kinds[0])


def is_shown_as_text(blob):
    """Whether bytes are UTF-8 without characters that aren't printed, and not none."""
    try:
        text = blob.decode()
    except UnicodeDecodeError:
        return False
    return bool(text) and re.sub("[\n\r\t]", "", text).isprintable()


def why_line(kind, others):
    """Why a kind is taken, and not one of the others."""
    said = "; ".join(f"not {it}: {WHY_NOT[it]}" for it in others)
    return f"taken as {kind}, {said}; --kind takes another"


def lines_of(kind, read, blob):
    """The lines of a blob that is taken for a kind; `read` is the message."""
    if kind == TEXT:
        return lines_of_text(blob.decode(errors="backslashreplace"))
    return lines_of_bytes(blob) if kind == BYTES else SHOWN[kind](read)


def quoted(text):
    """A text on one line, in quotes."""
    return on_one_line(json.dumps(text, ensure_ascii=False))


# Trees.


def entry_line(name, entry):
    """A line of what stands at a name: name, kind, executable bit, and the digest or a link's target."""
    if isinstance(entry, File):
        return f"{escaped(name)} file {'x' if entry.is_executable else '-'} {entry.digest.text()}"
    if isinstance(entry, Link):
        return f"{escaped(name)} link - {quoted(entry.target)}"
    return f"{escaped(name)} directory - {entry.text() if isinstance(entry, Digest) else 'of outputs below it'}"


def entry_lines(entries, above=""):
    """The lines of a dictionary, by the order of the names."""
    return [entry_line(f"{above}{name}", it) for name, it in sorted(entries.items(), key=lambda it: it[0].encode())]


def lines_of_tree(tree):
    """The whole of a Tree, each folder before what stands in it."""
    lines, waiting = [], [("", tree.root)]
    while waiting:
        if len(lines) > MOST_LINES:
            return [*lines[:MOST_LINES], ".. and more: a path goes down"]
        above, entries = waiting.pop()
        lines += entry_lines(entries, above)
        below = [(f"{above}{name}/", tree.children[it]) for name, it in entries.items() if isinstance(it, Digest)]
        waiting += sorted(below, reverse=True)
    return lines


# Other messages.


def lines_of_command(command):
    return [
        *(f"argument {quoted(it)}" for it in command["arguments"]),
        *(f"variable {quoted(it['name'])} {quoted(it['value'])}" for it in command["variables"]),
        *([f"folder {escaped(command['folder'])}"] if command["folder"] else []),
        *(f"output {escaped(it)}" for it in command["outputs"]),
    ]


def lines_of_action(action):
    return [
        f"command {action['command'].text()}",
        *([f"input {action['input'].text()}"] if "input" in action else []),
        *(["do-not-cache"] if action["do_not_cache"] else []),
        *([f"salt {action['salt'].hex()}"] if action["salt"] else []),
        *(f"property {quoted(it['name'])} {quoted(it['value'])}" for it in action["platform"]),
    ]


def lines_of_result(result):
    """The outputs, whose directories have the digest of a Tree, the exit code, and what was printed."""
    def said(it):
        return it.text() if isinstance(it, Digest) else quoted(it.decode(errors="backslashreplace"))

    printed = [f"{name.replace('_', '-')} {said(it)}" for name, it in result.printed.items()]
    return [*entry_lines(result.outputs), f"exit-code {result.exit_code}", *printed]


SHOWN = {
    "Action": lines_of_action, "frame": lines_of_action, "Tree": lines_of_tree, "Directory": entry_lines,
    "Command": lines_of_command, "ActionResult": lines_of_result,
}


# What is no message.


def lines_of_text(text):
    shown = text[:MOST_CHARACTERS]
    more = [f".. {len(text) - len(shown)} more characters"] if len(text) > len(shown) else []
    return [*(on_one_line(it) for it in shown.removesuffix("\n").split("\n")), *more]


def lines_of_bytes(blob):
    """The first bytes in rows, each with what of it is ASCII."""
    known = [f"it begins as {name} does" for magic, name in MAGICS.items() if blob.startswith(magic)]
    rows = [blob[at:at + IN_ROW] for at in range(0, min(len(blob), MOST_BYTES), IN_ROW)]
    shown = [f"{row.hex(' '):{IN_ROW * 3}} {''.join(chr(it) if 32 <= it < 127 else '.' for it in row)}" for row in rows]
    more = [f".. {len(blob) - MOST_BYTES} more bytes"] if len(blob) > MOST_BYTES else []
    return [*known, *shown, *more]
