"""The plans of a log's steps: one of them all, or where they are more than a plan holds, or it is asked, one a stage. The rules
are those of tools/evidence/README.md.

A stage is a plan whose sources are the claim of the stage before. The source tree of a stage has the build's sources at
`sources`, and what stage K made at `stageK`, as far as this stage or a later one reads it; the last claim is the artifact's.
"""

import re
from dataclasses import dataclass, field

from plans import MOST_BYTES, MOST_LINES, MOST_NAMES, MOST_STEPS, escaped, files_at, folders_of, put, targets_meet
from shared.command_line import Refused
from shared.messages import Digest, directory_message

SOURCES = "sources"
# What the lines of a plan are beside its steps, and those that hand on what stages before have made.
ROOM = 65536
HASH = re.compile(rb"[0-9a-f]{64}")


@dataclass
class Build:
    """One plan: its text and that of the record, each in pieces, and the digests of its sources and of what it ends in. Of a stage
    also the digests of its actions, and of those folders of its sources in which its lines lead to something."""

    plan: list
    record: list
    sources: Digest
    claim: Digest
    actions: list = ()
    folders: list = ()


def builds_of(steps, most):
    """One plan of all steps, or one a stage, each of so many steps at most; where `most` is None, stages only where they
    are needed. With it whether they are stages."""
    if most is None and len(steps.spawns) <= MOST_STEPS:
        whole = whole_build(steps)
        if length(whole.plan) <= MOST_BYTES:
            return [whole], False
    return Stages(steps, min(most or MOST_STEPS, MOST_STEPS)).builds(), True


def groups_of(store, builds):
    """What a store is told, by the plan that is the first to look at it: each blob and result by its part and name. The last plan's
    has also what none looks at."""
    left = {("cas", it.hash): blob for it, blob in store.blobs.items()}
    left.update((("ac", it.hash), result) for it, result in store.results.items())
    for build in builds:
        folders = [("cas", it.hash) for it in (build.sources, *build.folders)]
        group = {it: left.pop(it) for it in folders if it in left}
        take(left, [(part, it.hash) for it in build.actions for part in ("cas", "ac")], group)
        if build is builds[-1]:
            group.update(left)
        yield group


def take(left, waiting, group):
    """Moves into a group what these are of what is left, and all that it names."""
    while waiting:
        it = waiting.pop()
        if it in left:
            group[it] = left.pop(it)
            waiting += (("cas", name.decode()) for name in HASH.findall(group[it]))


def length(lines):
    return sum(len(it) + 1 for it in lines)


def plan_of(steps, root):
    """The text of a plan of these steps and lines of the root. It has version 2 where lines of a directory meet."""
    meet = any(it.lines_meet for it in steps) or targets_meet(it.split(" ")[1] for it in root)
    return [f"buildplan {2 if meet else 1}", *(it.text for it in steps), "root", *root]


def record_of(spawns):
    return ["buildrecord 1", *(f"step {it.name} {it.action.text()}" for it in spawns)]


class Step:
    """The text of a step, and whether lines of it meet."""

    def __init__(self, spawn, given, place):
        """`place` says of a path and the spawn that made it, or none, where it comes from."""
        lines = given.lines_of(spawn)
        texts = (f"in {escaped(target)} {place(path, maker)}" for target, maker, path in lines)
        self.text = "\n".join([f"step {spawn.name} {spawn.frame.text()}", *texts])
        # (the inputs don't meet, so without a whole directory no lines do)
        self.lines_meet = len(lines) < len(spawn.inputs) and targets_meet(it for it, _, _ in lines)


def root_lines(chosen, place):
    """The lines of the artifact."""
    if len(chosen) > MOST_LINES:
        raise Refused(f"the artifact is put together from {len(chosen)} outputs, of which a plan has {MOST_LINES} at most")
    return [f"in {escaped(target)} {place(path, spawn)}" for target, (path, spawn, _) in sorted(chosen.items())]


def whole_build(steps):
    """One plan of all steps."""
    def place(path, maker):
        return f"out {maker.name} {escaped(path)}" if maker else f"src {escaped(path)}"

    plan = plan_of([Step(it, steps.given, place) for it in steps.spawns], root_lines(steps.chosen.outputs, place))
    return Build(plan, record_of(steps.spawns), steps.keep(steps.sources), steps.claim())


def check_depth(paths, where):
    """Refuses paths below which nothing can be put a name deeper, as a stage does that hands them on."""
    deepest = next((it for it in paths if it.count("/") == MOST_NAMES - 1), None)
    if deepest:
        raise Refused(f'{where}"{deepest}" has {MOST_NAMES} names, and a stage hands on no more than {MOST_NAMES - 1}')


@dataclass
class Stage:
    """The spawns of a stage, their steps, and what of their outputs later stages read, by path."""

    number: int
    spawns: list = field(default_factory=list)
    steps: list = field(default_factory=list)
    size: int = ROOM
    outputs: int = 0
    # the folders of its sources in which its lines lead to something
    folders: set = field(default_factory=set)
    read_later: dict = field(default_factory=dict)
    # the last stage that reads something of it, and what these outputs are
    last: int = 0
    digest: Digest = None

    def name(self):
        return f"stage{self.number}"


class Stages:
    """Steps in stages, of so many steps each at most."""

    def __init__(self, steps, most):
        self.steps, self.most = steps, most
        self.stage_of, self.stages = {}, [Stage(1)]
        # by their paths the digests of the folders that are handed on, and in which of them the last lines lead to something
        self.digests, self.folders = {}, set()
        self.last_of_sources = 0
        check_depth(steps.given.sources, "")
        for spawn in steps.spawns:
            self.add(spawn)

    def place(self, path, maker):
        """Where a path comes from, for a step of the last stage so far."""
        here = self.stages[-1]
        if maker is None:
            self.last_of_sources = here.number
            return self.origin(f"{SOURCES}/{path}")
        made_in = self.stage_of[maker.number]
        if made_in is here:
            return f"out {maker.name} {escaped(path)}"
        output = next(it for it in (path, *folders_of(path)) if it in maker.outputs)
        if output not in made_in.read_later:
            check_depth((it for it, _ in files_at(output, maker.outputs[output])), f"{maker.place()}: ")
        made_in.read_later[output], made_in.last = maker, here.number
        return self.origin(f"{made_in.name()}/{path}")

    def origin(self, path):
        """Where a path of the sources of a stage comes from."""
        self.folders.add(path.rpartition("/")[0])
        return f"src {escaped(path)}"

    def add(self, spawn):
        """Puts a step into the last stage, or into a new one where that is full."""
        for is_again in (False, True):
            here = self.stages[-1]
            self.stage_of[spawn.number], self.folders = here, set()
            step = Step(spawn, self.steps.given, self.place)
            # (each output may be a line of the root)
            size = len(step.text) + sum(2 * len(escaped(it)) + 128 for it in spawn.outputs)
            fits = (
                len(here.spawns) < self.most
                and here.size + size <= MOST_BYTES
                and here.outputs + len(spawn.outputs) + len(self.stages) < MOST_LINES
            )
            if fits or is_again or not here.spawns:
                break
            self.stages.append(Stage(here.number + 1))
        here.spawns.append(spawn)
        here.steps.append(step)
        here.size += size
        here.outputs += len(spawn.outputs)
        here.folders |= self.folders

    def builds(self):
        """The plan of each stage."""
        artifact = root_lines(self.steps.chosen.outputs, self.place)
        if self.stages[-1].size + length(artifact) > MOST_BYTES:
            self.stages.append(Stage(len(self.stages) + 1))
            artifact = root_lines(self.steps.chosen.outputs, self.place)
        self.stages[-1].folders |= self.folders
        whole = self.keep(SOURCES, self.steps.sources)
        builds, claim = [], self.steps.keep({SOURCES: whole} if self.last_of_sources else {})
        for stage in self.stages:
            sources = claim
            if stage is self.stages[-1]:
                lines, claim = artifact, self.steps.claim()
            else:
                lines, claim = self.hand_on(stage, whole)
            plan, record, actions = plan_of(stage.steps, lines), record_of(stage.spawns), [it.action for it in stage.spawns]
            builds.append(Build(plan, record, sources, claim, actions, self.looked_at(stage)))
        return builds

    def keep(self, path, entries):
        """The digest of a dictionary, of which the store is told; it stands at this path in the sources of later stages."""
        nodes = {name: self.keep(f"{path}/{name}", it) if isinstance(it, dict) else it for name, it in entries.items()}
        self.digests[path] = self.steps.store.keep(directory_message(nodes))
        return self.digests[path]

    def looked_at(self, stage):
        """The digests of the folders on the way to what a stage's lines name of its sources."""
        paths = {path for folder in stage.folders for path in (folder, *folders_of(folder))}
        return [self.digests[it] for it in sorted(paths)]

    def hand_on(self, stage, whole):
        """The root of a stage that isn't the last: the sources and what stages before made, as long as it is read, and of
        what it made what is read later. Its lines, and its digest."""
        entries = {SOURCES: whole} if self.last_of_sources > stage.number else {}
        for it in self.stages[:stage.number - 1]:
            if it.last > stage.number:
                entries[it.name()] = it.digest
        lines = [f"in {name} src {name}" for name in entries]
        made = {}
        for path, maker in sorted(stage.read_later.items()):
            for it, entry in files_at(path, maker.outputs[path]):
                put(made, it, entry)
            lines.append(f"in {escaped(f'{stage.name()}/{path}')} out {maker.name} {escaped(path)}")
        if made:
            entries[stage.name()] = stage.digest = self.keep(stage.name(), made)
        return lines, self.steps.keep(entries)
