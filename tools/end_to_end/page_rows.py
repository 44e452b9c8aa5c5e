#!/usr/bin/env python3
"""Types the pages, and compares what the program prints with what they say: page_rows.py PROGRAM

It takes each block of shell in README.md, docs/*.md and README.md in examples/ and tools/: each fenced block of the language
`sh`, or whose first line begins with '$ '. A page has one shell, in a copy of the repository of its own, where ./buildcache
leads to the program. A line '$ ' is a command, and ends in a '\\' where it goes on; the lines up to the next one are all that
it prints. HASH/SIZE stands for any digest there, and 127.0.0.1:PORT for a free port, the same in all of the page. `buildcache
serve` goes on, as in a terminal of its own, and is ended with the page.

A block that isn't typed has '<!-- not typed: WHY -->' on the line before it, which readers don't see. A page with
'<!-- typed with: PROGRAM .. -->' is left out where one of these isn't installed, and a line says so. It prints a line for each
page, with how many commands were typed and how many blocks weren't, and ends with status 1 where a page is wrong. Nothing
outside this machine is asked.
"""

import collections
import contextlib
import glob
import os
import re
import secrets
import shutil
import signal
import socket
import subprocess
import tempfile

from shared import harness
from shared.crates import BUILT, TOP
from shared.rows import try_rows

PAGES = ("README.md", "docs/*.md", "examples/*/README.md", "tools/*/README.md")
PAGE_SECONDS = 60
FENCE = re.compile(r"( *)```(\w*) *$")
NOT_TYPED = re.compile(r" *<!-- not typed: \S.* -->$")
TYPED_WITH = re.compile(r"^<!-- typed with: (.+) -->$", re.M)
SERVES = re.compile(r"\S*buildcache serve ")
DIGEST = re.compile(re.escape(re.escape("HASH/SIZE")))
ADDRESS = re.compile(r"\b127\.0\.0\.1:(\d+)")
NOT_COPIED = shutil.ignore_patterns(".git", "out", "__pycache__")

# A command with its line in the page, and all that the page says it prints.
Command = collections.namedtuple("Command", "line text printed")


class Faulty(Exception):
    """What is wrong with a page, or came otherwise than it says."""


def blocks_of(text):
    """The fenced blocks of a page: the number of the first line, the language, the lines, and the line before."""
    lines, begun = text.split("\n"), None
    for number, line in enumerate(lines):
        fence = FENCE.match(line)
        if begun is None and fence:
            begun = number, *fence.groups()
        elif begun and line == f"{begun[1]}```":
            at, indent, language = begun
            yield at + 2, language, [it.removeprefix(indent) for it in lines[at + 1:number]], lines[at - 1] if at else ""
            begun = None
    if begun:
        raise Faulty(f"line {begun[0] + 1}: its block doesn't end")


def commands_of(first, lines):
    """The commands of a block of shell."""
    found, goes_on = [], False
    for number, line in enumerate(lines, first):
        if goes_on:
            found[-1][1].append(line)
        elif line.startswith("$ "):
            found.append((number, [line[2:]], []))
        elif found:
            found[-1][2].append(line)
        else:
            raise Faulty(f"line {number}: no command stands before it; a block that isn't typed has a mark that says why")
        goes_on = (goes_on or line.startswith("$ ")) and line.endswith("\\")
    return [Command(number, "\n".join(text), "\n".join(printed)) for number, text, printed in found]


def read_page(text):
    """The commands of a page that are typed, and how many blocks aren't."""
    commands, left, marks = [], 0, sum(bool(NOT_TYPED.match(it)) for it in text.split("\n"))
    for first, language, lines, before in blocks_of(text):
        if NOT_TYPED.match(before):
            left += 1
        elif language == "sh" or lines[:1] and lines[0].startswith("$ "):
            commands += commands_of(first, lines)
    if marks != left:
        raise Faulty(f"{marks - left} of its marks stand before no block")
    return commands, left


def with_free_ports(commands):
    """These commands, with a free port for each that the page names."""
    named = sorted({it for command in commands for it in ADDRESS.findall(command.text)})
    with contextlib.ExitStack() as held:
        free = [held.enter_context(socket.create_server((harness.LOCAL, 0))) for _ in named]
        ports = {port: it.getsockname()[1] for port, it in zip(named, free)}

    def moved(text):
        return ADDRESS.sub(lambda it: f"{harness.LOCAL}:{ports.get(it[1], it[1])}", text)

    return [Command(it.line, moved(it.text), moved(it.printed)) for it in commands]


def script_of(commands, end, folder):
    """What a shell is given: behind each command a line with `end` tells that it is over, and its status is the one that the next
    command sees."""
    lines = []
    for number, command in enumerate(commands):
        if SERVES.match(command.text):
            said = f"{folder}/said{number}"
            lines.append(f"{command.text} >{said} 2>/dev/null &")
            lines.append(f"until [ -s {said} ] || ! kill -0 $! 2>/dev/null; do sleep 0.05; done; cat {said}")
        else:
            lines.append(command.text)
        lines.append(f"page_status=$?; printf '\\n%s\\n' {end}; (exit $page_status)")
    return "\n".join([*lines, "kill $(jobs -p) 2>/dev/null; wait", ""])


def type_commands(commands, program, folder):
    """What each command prints, in one shell in a copy of the repository; the last one may lack its end."""
    top, end = f"{folder}/repository", f"end-{secrets.token_hex(8)}"
    shutil.copytree(TOP, top, ignore=NOT_COPIED, symlinks=True)
    os.remove(f"{top}/buildcache")
    os.makedirs(os.path.dirname(f"{top}/{os.path.relpath(BUILT, TOP)}"))
    for place in ("buildcache", os.path.relpath(BUILT, TOP)):
        os.symlink(program, f"{top}/{place}")
    with open(f"{folder}/script", "w", encoding="utf-8") as out:
        out.write(script_of(commands, end, folder))
    place = {**os.environ, "BUILDCACHE": program, "PWD": top, "LC_ALL": "C.UTF-8"}
    with open(f"{folder}/typed", "wb") as typed:
        shell = subprocess.Popen(["bash", f"{folder}/script"], cwd=top, env=place, stdin=subprocess.DEVNULL, stdout=typed,
                                 stderr=subprocess.STDOUT, start_new_session=True)
        try:
            shell.wait(harness.within(PAGE_SECONDS))
        except subprocess.TimeoutExpired:
            pass
        finally:
            if shell.poll() is None:
                os.killpg(shell.pid, signal.SIGKILL)
                shell.wait()
    with open(f"{folder}/typed", encoding="utf-8", errors="replace") as typed:
        return typed.read().split(f"\n{end}\n")


def is_printed(said, printed):
    """Whether a command printed what the page says."""
    return re.fullmatch(DIGEST.sub("[0-9a-f]{64}/[0-9]+", re.escape(printed)), said.rstrip("\n")) is not None


def type_page(text, program):
    """Types a page: how many commands it has, and how many blocks aren't typed."""
    commands, left = read_page(text)
    if not commands:
        return 0, left
    with tempfile.TemporaryDirectory() as folder:
        typed = with_free_ports(commands)
        told = type_commands(typed, program, folder)
    for number, command in enumerate(typed):
        if number + 1 >= len(told):
            raise Faulty(f"line {command.line}: {command.text!r} doesn't end, and printed {told[-1]!r}")
        if not is_printed(told[number], command.printed):
            seen = told[number].rstrip()
            raise Faulty(f"line {command.line}: {command.text!r} printed {seen!r}, and the page says {command.printed!r}")
    return len(commands), left


def try_page(rows, page, text, program):
    """A row for a page with blocks of shell."""
    lacking = [it for given in TYPED_WITH.findall(text) for it in given.split() if not shutil.which(it)]
    if lacking:
        print(f"{lacking[0]} isn't installed: {page} is left out")
        return
    try:
        count, left = type_page(text, program)
    except Faulty as fault:
        rows.tell(f"{page} is as it says", False, fault)
        return
    if count or left:
        rows.tell(f"{page}: commands typed: {count}, blocks that aren't: {left}", True)


def try_all(rows, program):
    for path in sorted(it for pages in PAGES for it in glob.glob(f"{TOP}/{pages}")):
        with open(path, encoding="utf-8") as it:
            try_page(rows, os.path.relpath(path, TOP), it.read(), program)


if __name__ == "__main__":
    try_rows(__doc__, try_all)
