"""Plans read back (docs/FORMATS.md, Plans), of one plan or of stages: who made what stands at a path, and who reads it."""

import bisect
import itertools
import os
import re
from collections import deque
from typing import NamedTuple

from plans import folders_of, unescaped
from shared import stores
from shared.command_line import Refused

STEP = re.compile("step ([a-z0-9_-]{1,64}) ([0-9a-f]{64}/[0-9]{1,19})")
LINE = re.compile("in ([^ ]+) (?:src ([^ ]+)|out ([a-z0-9_-]{1,64}) ([^ ]+))")


class Line(NamedTuple):
    """A line of an input or of the root: at the target is what stands at a path of the sources, or of what the step made. All
    sources have the empty path."""

    target: str
    step: str
    path: str

    def at(self, path):
        """Where in its origin stands what is at a path, which is the target or lies below it."""
        return f"{self.path}{path[len(self.target):]}".removeprefix("/")


class Node(NamedTuple):
    """A step of a stage, counted from 0; without a name the sources of the build."""

    stage: int
    step: str


SOURCES = Node(-1, "")


class Made(NamedTuple):
    """What stands at a path of what a step made, or of the sources."""

    maker: Node
    path: str


class Lines:
    """Lines by their targets, which are looked up one by one: a root may have many, and many steps may ask."""

    def __init__(self, lines):
        self.by_target = {}
        for it in lines:
            self.by_target.setdefault(it.target, []).append(it)
        self.targets = sorted(self.by_target)

    def origins_at(self, path):
        """The origins of what stands at a path: by the lines at or above it, the highest first, or else below it."""
        above = [it for target in reversed([path, *folders_of(path)]) for it in self.by_target.get(target, [])]
        return [(it.step, it.at(path)) for it in above] or [(it.step, it.path) for it in self.below(path)]

    def below(self, path):
        """The lines whose targets lie below a path; all, below none."""
        prefix = f"{path}/" if path else ""
        places = range(bisect.bisect_left(self.targets, prefix), len(self.targets))
        for target in itertools.takewhile(lambda it: it.startswith(prefix), map(self.targets.__getitem__, places)):
            yield from self.by_target[target]


class Plan:
    """A plan: by the names of its steps, in their order, their lines, and the lines of the root."""

    def __init__(self, text, where):
        self.steps, self.root, self.looked_up, lines = {}, [], {}, None
        for number, it in enumerate(text.decode(errors="replace").splitlines()[1:], 2):
            if found := STEP.fullmatch(it):
                lines = self.steps.setdefault(found[1], [])
            elif it == "root":
                lines = self.root
            elif (found := LINE.fullmatch(it)) and lines is not None:
                path = "" if found[2] == "." else unescaped(found[2] or found[4])
                lines.append(Line(unescaped(found[1]), found[3], path))
            else:
                raise Refused(f"{where}: line {number} is none of a plan")

    def lines_of(self, step):
        """The lines of a step, or of the root."""
        return self.root if step is None else self.steps[step]

    def origins_at(self, step, path):
        """The origins of what the lines of a step, or of the root, put at a path."""
        if step not in self.looked_up:
            self.looked_up[step] = Lines(self.lines_of(step))
        return self.looked_up[step].origins_at(path)


class Plans:
    """The plans of a build, one or a stage each. The sources of each stage but the first are what the one before ended in."""

    def __init__(self, stages):
        self.plans = [Plan(stores.read_file(os.path.join(it.folder, "plan")), it.shown()) for it in stages]

    def count(self):
        """The number of all steps."""
        return sum(len(it.steps) for it in self.plans)

    def has_step(self, name):
        return any(name in it.steps for it in self.plans)

    def origins_at(self, stage, step, path):
        """Who made what the lines of a step, or of the root of a stage, put at a path."""
        return self.made(stage, self.plans[stage].origins_at(step, path))

    def of_origin(self, stage, step, path):
        """Who made what lines of a step, or of the root of a stage, name as their origin by this path."""
        lines = self.plans[stage].lines_of(step)
        return self.made(stage, [(it.step, it.path) for it in lines if it.path == path])

    def all_of(self, stage, step):
        """Who made all that a step reads, or that the root of a stage has."""
        return self.made(stage, [(it.step, it.path) for it in self.plans[stage].lines_of(step)])

    def made(self, stage, origins):
        """Who made what stands at these origins of a stage's lines: a step there or of a stage before, or the sources."""
        found, waiting, seen = [], deque((stage, *it) for it in origins), set()
        while waiting:
            number, step, path = it = waiting.popleft()
            if it in seen:
                continue
            seen.add(it)
            if step:
                found.append(Made(Node(number, step), path))
            elif number == 0:
                found.append(Made(SOURCES, path))
            else:
                waiting.extend((number - 1, *before) for before in self.plans[number - 1].origins_at(None, path))
        return found

    def readers(self):
        """By each step and the sources the steps that read of it, and the end of the build, where that has something of it."""
        found = {}
        for stage, plan in enumerate(self.plans):
            ends = [None] if plan is self.plans[-1] else []
            for step in [*plan.steps, *ends]:
                for maker in dict.fromkeys(it.maker for it in self.all_of(stage, step)):
                    found.setdefault(maker, []).append(Node(stage, step))
        return found
