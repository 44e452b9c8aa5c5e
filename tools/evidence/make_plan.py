#!/usr/bin/env python3
"""Makes a plan, with all that it names, of a list of steps written by hand.

    make_plan.py steps.json asked --server 127.0.0.1:8080

STEPS is a file with one JSON object:

    {"sources": "src",
     "environment": {"PATH": "/usr/bin:/bin"},
     "steps": [
       {"name": "compile", "arguments": ["/usr/bin/gcc", "-c", "-o", "a.o", "a.c"],
        "inputs": ["a.c", "include"], "outputs": ["a.o"]},
       {"name": "link", "arguments": ["/usr/bin/gcc", "-o", "a", "obj/a.o"],
        "inputs": [{"step": "compile", "path": "a.o", "at": "obj/a.o"}], "outputs": ["a"]}],
     "root": [{"step": "link", "path": "a", "at": "bin/a"}]}

`sources` is a folder, seen from the file. An input is a path of it, or an object: "path" is the path, "." for all sources;
"step" is an earlier step of whose outputs it is, without one it is of the sources; "at" is where it stands for the step, by
default at that path. `root` has what the build ends in, in the same words. A step may have an "environment" and a "platform",
each a name with a value, in place of those of the object. Targets may meet; then the plan has version 2.

FOLDER gets the files `plan` and `sources` (the digest of the source tree). The commands, the frames, the source tree's
Directories and the contents of its files go to the store: FOLDER/store, or where --store or --server says. With --archive FILE
all that would be in FOLDER is in one tar archive (docs/FORMATS.md, Archives). A file of the sources never has the executable
bit, as `buildcache put` puts it. Wrong steps are refused with status 2 and one line that says where, and then nothing is written.
"""

import contextlib
import json
import os
import re
import sys
from dataclasses import dataclass

import archives
from plans import LONGEST_STEP, MOST_BYTES, MOST_LINES, MOST_STEPS, Store
from plans import check_sizes, entries_of, escaped, folders_of, is_path, is_target, is_text, stands_at, target_of
from plans import targets_meet, without_repeats
from shared import command_line, stores
from shared.command_line import Refused
from shared.messages import EMPTY, Digest, File, Link, action_message, command_message, directory_message

KINDS = {str: "a text", list: "a list", dict: "an object"}


# The file, and where in it something is.


class Place:
    """A value of the file with the words that say where it stands."""

    def __init__(self, value, where):
        self.value, self.where = value, where

    def refuse(self, reason):
        raise Refused(f"{self.where}: {reason}" if self.where else reason)

    def of_kind(self, kind):
        if not isinstance(self.value, kind):
            self.refuse(f"it has to be {KINDS[kind]}")
        return self.value

    def with_keys(self, needed, more=()):
        """An object with these keys, and of the others none but those in `more`."""
        value = self.of_kind(dict)
        unknown = next((key for key in value if key not in needed and key not in more), None)
        if unknown is not None:
            self.refuse(f'"{unknown}" is none of {", ".join((*needed, *more))}')
        missing = next((key for key in needed if key not in value), None)
        if missing is not None:
            self.refuse(f'it has no "{missing}"')
        return value

    def at(self, key, kind):
        """What stands under a key; where nothing does, nothing of that kind."""
        there = Place(self.value.get(key, kind()), f"{self.where}: {key}" if self.where else key)
        there.of_kind(kind)
        return there

    def each(self, word):
        """The values of a list, each with its number from 1."""
        return [Place(it, f"{self.where}, {word} {number}") for number, it in enumerate(self.value, 1)]

    def text(self):
        if not is_text(self.of_kind(str)):
            self.refuse("it has a NUL, or is no UTF-8")
        return self.value

    def path(self):
        if not is_path(self.text()):
            self.refuse(f"{self.value!r} is no path: 1 to 64 names with / between them, none of them empty, . or ..")
        return self.value

    def pairs(self):
        """Names with values, in the order of the names."""
        for name, value in self.value.items():
            Place(name, self.where).text()
            Place(value, f'{self.where} "{name}"').text()
        return sorted(self.value.items(), key=lambda it: it[0].encode())


def read_file(path):
    with open(path, "rb") as it:
        content = it.read()
    try:
        return Place(json.loads(content.decode(), object_pairs_hook=without_repeats), "")
    except json.JSONDecodeError as fault:
        raise Refused(f"line {fault.lineno}, column {fault.colno}: {fault.msg}") from None
    except RecursionError:
        raise Refused("its lists and objects are too deep") from None
    except ValueError as fault:
        raise Refused(f"this is no JSON: {fault}") from None


# The sources.


def read_sources(folder, shown=""):
    """A folder as a dictionary, and the contents of its files by digest. Files have no executable bit."""
    entries, contents = {}, {}
    for name, it in entries_of(folder):
        path = f"{shown}{name}"
        if not is_path(path):
            raise Refused(f"the sources have {path!r}, which is no UTF-8, or too long or too deep for a plan")
        if it.is_symlink():
            if not is_target(target := target_of(it)):
                raise Refused(f'"{path}" of the sources is a link whose target has no UTF-8, or over 4,096 bytes')
            entries[name] = Link(target)
        elif it.is_dir():
            entries[name], below = read_sources(it.path, f"{path}/")
            contents.update(below)
        elif it.is_file():
            entries[name], content = read_source(it.path, path)
            contents[entries[name].digest] = content
        else:
            raise Refused(f'"{path}" of the sources is no file, folder or link')
    return entries, contents


def read_source(place, path):
    if os.path.getsize(place) > MOST_BYTES:
        raise Refused(f'"{path}" of the sources has over {MOST_BYTES} bytes')
    with open(place, "rb") as it:
        content = it.read()
    return File(Digest.of(content), False), content


# The steps.


@dataclass
class Step:
    name: str
    outputs: list
    frame: Digest
    lines: list


@dataclass
class Line:
    """A line of a step or of the root: the target, and the text of the origin."""

    target: str
    origin: str


class Maker:
    """The plan of a file, step by step: the steps so far, and what the store is told."""

    def __init__(self, steps, sources, store):
        self.top, self.sources, self.store = steps, sources, store
        self.steps = {}

    def make(self):
        """The plan's lines."""
        listed = self.top.at("steps", list)
        if len(listed.value) > MOST_STEPS:
            listed.refuse(f"there are {len(listed.value)}, and a plan has {MOST_STEPS} steps at most")
        for it in listed.each("step"):
            self.add(it)
        root = self.lines(self.top.at("root", list), "line")
        meet = any(targets_meet(it.target for it in lines) for lines in (root, *(it.lines for it in self.steps.values())))
        texts = [f"buildplan {2 if meet else 1}"]
        for step in self.steps.values():
            texts.append(f"step {step.name} {step.frame.text()}")
            texts += (f"in {escaped(it.target)} {it.origin}" for it in step.lines)
        return [*texts, "root", *(f"in {escaped(it.target)} {it.origin}" for it in root)]

    def add(self, place):
        value = place.with_keys(("name", "arguments", "outputs"), ("inputs", "environment", "platform"))
        name = place.at("name", str).value
        if not re.fullmatch(f"[a-z0-9_-]{{1,{LONGEST_STEP}}}", name):
            place.refuse(f"the name {name!r} isn't 1 to {LONGEST_STEP} of a-z, 0-9, _ and -")
        place.where += f' "{name}"'
        if name in self.steps:
            place.refuse("an earlier step has its name")
        outputs = self.outputs(place.at("outputs", list))
        arguments = [it.text() for it in place.at("arguments", list).each("argument")]
        if not arguments or not arguments[0].startswith("/"):
            place.refuse("its first argument isn't the place of a program, which begins with /")
        settings = {key: (place if key in value else self.top).at(key, dict).pairs() for key in ("environment", "platform")}
        unnamed = next((it for it, _ in settings["environment"] if not it or "=" in it), None)
        if unnamed is not None:
            place.refuse(f'the variable "{unnamed}" has no name, or a = in it')
        lines = self.lines(place.at("inputs", list), "input")
        command = self.store.keep(command_message(arguments, outputs, settings["environment"]))
        frame = self.store.keep(action_message(command, platform=settings["platform"]))
        self.steps[name] = Step(name, outputs, frame, lines)

    def outputs(self, place):
        paths = sorted((it.path() for it in place.each("output")), key=str.encode)
        for path, other in zip(paths, paths[1:]):
            if path == other:
                place.refuse(f'"{path}" stands there twice')
        listed = set(paths)
        for path in paths:
            above = next((it for it in folders_of(path) if it in listed), None)
            if above:
                place.refuse(f'"{path}" lies under "{above}", another output')
        return paths

    def lines(self, place, word):
        if len(place.value) > MOST_LINES:
            place.refuse(f"there are {len(place.value)}, and a step or the root has {MOST_LINES} at most")
        return [self.line(it) for it in place.each(word)]

    def line(self, place):
        if isinstance(place.value, str):
            place.value = {"path": place.value}
        value = place.with_keys(("path",), ("step", "at"))
        is_whole = value["path"] == "." and "step" not in value
        path = "." if is_whole else place.at("path", str).path()
        if is_whole and "at" not in value:
            place.refuse('it has no "at", and all sources can\'t stand at "."')
        target = place.at("at", str).path() if "at" in value else path
        if "step" in value:
            return Line(target, f"out {self.maker(place, path).name} {escaped(path)}")
        if not is_whole and stands_at(self.sources, path) is None:
            place.refuse(f'the sources have no "{path}"')
        return Line(target, f"src {escaped(path)}")

    def maker(self, place, path):
        """The earlier step that an input names, which lists the path or a folder above it."""
        name = place.at("step", str).value
        step = self.steps.get(name)
        if step is None:
            place.refuse(f'no earlier step has the name "{name}"')
        if not any(it in step.outputs for it in (path, *folders_of(path))):
            place.refuse(f'the step "{name}" has no output "{path}", and none above it')
        return step


# What is written.


def parse(words):
    parser = command_line.Parser("make_plan.py", __doc__)
    parser.add_argument("steps", metavar="STEPS", type=command_line.place_of, help="the steps, as JSON")
    archives.add_option(parser, stores.add_options(parser))
    return parser.parse_args(words)


def make(options):
    """The plan's lines, the digest of the sources, and the store's blobs but for the contents of source files; these too."""
    store = Store()
    try:
        top = read_file(options.steps)
        top.with_keys(("steps", "root"), ("sources", "environment", "platform"))
        sources, contents = {}, {}
        if "sources" in top.value:
            folder = os.path.join(os.path.dirname(options.steps), top.at("sources", str).text())
            sources, contents = read_sources(folder)
        plan = Maker(top, sources, store).make()
        root = store.keep(directory_message(sources, store.keep))
        check_sizes(store, {"plan": plan})
    except Refused as fault:
        raise Refused(f'"{options.steps}": {fault}') from None
    store.blobs.update(contents)
    store.blobs.pop(EMPTY, None)
    return plan, root, store


def lines_of(options):
    """Does all, and the status and what is printed then."""
    with archives.written(options.archive) as out, contextlib.closing(stores.store_of(options, out)) as place:
        plan, root, store = make(options)
        texts = {"sources": [root.text()], "plan": plan}
        if out:
            out.add_texts(texts)
        store.put_into(place)
        if not out:
            stores.write_texts(options.folder, texts)
    at = f"archive {options.archive}" if options.archive else f"plan {os.path.join(options.folder, 'plan')}"
    at = at.encode(errors="backslashreplace").decode()
    return 0, f"sources {root.text()}", at, f"steps {sum(it.startswith('step ') for it in plan)}"


def main(words):
    options = parse(words)
    return command_line.status_of(lambda: lines_of(options))


if __name__ == "__main__":
    sys.exit(main(sys.argv[1:]))
