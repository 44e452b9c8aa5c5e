"""The steps of a log: its spawns in order, where each of their inputs comes from, and what the store has to be told. The rules
are those of tools/evidence/README.md."""

import heapq
import re
from array import array
from dataclasses import dataclass

from bazel_artifact import Chosen, lacking, read_artifact
from bazel_lines import Given
from bazel_log import read_log
from bazel_taken import check_taken, is_of_outputs, library_of
from plans import LONGEST_STEP, Store, folders_of, is_path, put
from shared.command_line import Refused
from shared.messages import Digest, directory_message, result_message

# What becomes of the spawns.


class Directories:
    """Directories by what stands in them: one that many spawns read is encoded once."""

    def __init__(self):
        self.known, self.made = {}, {}

    def digest_of(self, entries):
        """The digest of a dictionary. Equal files in it have to be one object, as `read_log` has them."""
        nodes = {name: self.digest_of(it) if isinstance(it, dict) else it for name, it in entries.items()}
        key = "/".join(nodes), array("Q", map(id, nodes.values())).tobytes()
        if key not in self.known:
            blob = directory_message(nodes)
            below = [it for it in nodes.values() if isinstance(it, Digest)]
            self.known[key] = self.made.setdefault(digest := Digest.of(blob), (digest, blob, below))[0]
        return self.known[key]

    def put_into(self, blobs, digest):
        """Puts a Directory and all below it to the blobs."""
        if digest not in blobs:
            digest, blobs[digest], below = self.made[digest]
            for it in below:
                self.put_into(blobs, it)


def frame_spawns(spawns, directories, drop_timeouts):
    """Each spawn's command, input root, action and frame."""
    for spawn in spawns:
        if spawn.timeout and not drop_timeouts:
            spawn.refuse_in_plan(f"it has a timeout of {spawn.timeout} ms, which a plan can't say (see --drop-timeouts)")
        root = {}
        for path, entry in sorted(spawn.inputs.items()):
            if not put(root, path, entry):
                spawn.refuse_in_plan(f'its input "{path}" lies under another one, or above it')
        spawn.input = directories.digest_of(root)
        command = Digest.of(spawn.command_message())
        spawn.action, spawn.frame = (Digest.of(spawn.action_message(command, it)) for it in (spawn.input, None))
    directories.known.clear()


def settle_repeats(spawns):
    """The spawns without those that ran again: each action once, and of a test that ran again its last run."""
    runs, failed_tests = {}, set()
    for spawn in spawns:
        runs.setdefault(spawn.action, []).append(spawn)
    counting = sorted((counted_run(it, failed_tests) for it in runs.values()), key=lambda it: it.number)
    kept, makers = {it.number: it for it in counting}, {}
    for spawn in counting:
        for path in spawn.made:
            other = makers.get(path)
            if other and is_rerun(other, spawn, failed_tests):
                kept.pop(other.number, None)
            elif other:
                spawn.refuse_in_plan(f'it made the output "{path}", and so did {other.place()}', other)
            makers[path] = spawn
    return sorted(kept.values(), key=lambda it: it.number)


def counted_run(runs, failed_tests):
    """The run of an action that counts, whatever ran first: one that succeeded; of runs with one outcome one that ran here."""
    first = min(runs, key=run_rank) if len(runs) > 1 else runs[0]
    for earlier, later in zip(runs, runs[1:]):
        if earlier.exit_code != 0 and later.exit_code == 0 and later.mnemonic == "TestRunner":
            failed_tests.add(later.title)
        if earlier.exit_code == 0 and later.exit_code != 0:
            why = f"the same command with the same inputs failed, and at line {earlier.line} it didn't"
            later.refuse_in_plan(why, earlier, first)
    done = [it for it in runs if it.exit_code == 0]
    for earlier, later in zip(done, done[1:]):
        if earlier.made != later.made:
            why = f"the same command with the same inputs made other outputs than at line {earlier.line}"
            later.refuse_in_plan(why, earlier, first)
    return first


def run_rank(spawn):
    """What orders the runs of one action."""
    made = sorted((path, it.fields_behind_name()) for path, it in spawn.made.items())
    return spawn.exit_code != 0, spawn.exit_code, made, not spawn.is_run_here(), spawn.is_from_cache, spawn.mnemonic, spawn.title


def is_rerun(spawn, later, failed_tests):
    """Whether two spawns wrote down the outcome of one test, which failed first and then ran again."""
    same = spawn.title == later.title and spawn.listed == later.listed and spawn.made.keys() == later.made.keys()
    return same and spawn.mnemonic == later.mnemonic == "TestRunner" and spawn.title in failed_tests


class Origins:
    """Where each path that is read comes from: the spawn that made it, or none, which is the source tree."""

    def __init__(self, spawns):
        self.known = {}
        self.listing = {}
        # by the path of a link that Bazel made that of the output of which it is a copy
        self.linked = {}
        for spawn in spawns:
            self.listing.update((path, spawn) for path in spawn.listed)
            self.known.update((path, spawn) for path in spawn.made)
        for spawn in spawns:
            for path in spawn.made:
                above = next((it for it in folders_of(path) if it in self.known), None)
                if above:
                    other = self.known[above]
                    refuse = spawn.refuse if other is spawn else spawn.refuse_in_plan
                    refuse(f'it made "{path}", and {other.place()} made "{above}"', *({other} - {spawn}))

    def of(self, path, reader):
        if path not in self.known:
            listed = next((it for it in (path, *folders_of(path)) if it in self.listing), None)
            if listed:
                lister = self.listing[listed]
                reader.refuse(f'it reads "{path}", which {lister.place()} lists and, by the log, didn\'t make')
            library = library_of(path)
            self.known[path] = self.known.get(library)
            if self.known[path]:
                self.linked[path] = library
        return self.known[path]

    def made_at(self, path):
        """The path of the output that is at this path: another one, where Bazel made a link to it."""
        return self.linked.get(path, path)


def in_order(spawns, origins):
    """The spawns in an order in which each comes after those whose outputs it reads, and that is the same in whichever order
    they ran: of those that may come next the one whose first output has the least path."""
    makers = {it.number: {origins.of(path, it) for path in it.inputs} - {None} for it in spawns}
    readers = {}
    for spawn in spawns:
        for maker in makers[spawn.number]:
            readers.setdefault(maker, []).append(spawn)
    waiting = {it.number: len(makers[it.number]) for it in spawns}
    ready = [(*it.rank(), it) for it in spawns if not waiting[it.number]]
    heapq.heapify(ready)
    ordered = []
    while ready:
        ordered.append(heapq.heappop(ready)[-1])
        for reader in readers.get(ordered[-1], []):
            waiting[reader.number] -= 1
            if not waiting[reader.number]:
                heapq.heappush(ready, (*reader.rank(), reader))
    if len(ordered) < len(spawns):
        stuck = min((it for it in spawns if waiting[it.number]), key=lambda it: it.line)
        stuck.refuse("it reads what it makes itself, or what is made of that")
    for number, spawn in enumerate(ordered):
        spawn.number = number
    return ordered


def name_steps(spawns):
    """Names the steps: the mnemonic and the end of the first output's path, with a number where that comes again."""
    taken, numbers = set(), {}
    for spawn in spawns:
        words = re.sub(r"^bazel-out/[^/]*/(bin|genfiles|testlogs)/", "", spawn.first_output())
        kind, rest = (re.sub("[^a-z0-9_]+", "-", it.lower()).strip("-") for it in (spawn.mnemonic, words))
        kind = kind[:24] or "spawn"
        full = f"{kind}-{rest[-(LONGEST_STEP - len(kind) - 8):].strip('-')}" if rest else kind
        number = numbers.get(full, 1)
        while (name := full if number == 1 else f"{full}-{number}") in taken:
            number += 1
        numbers[full] = number
        taken.add(name)
        spawn.name = name


def outputs_of(spawn):
    """What a spawn made, by output: a file or link, or a directory that it listed, as a dictionary. No path that was
    made lies under another (Origins)."""
    outputs, listed = {}, set(spawn.listed)
    for path, entry in spawn.made.items():
        folder = next((it for it in folders_of(path) if it in listed), None)
        if folder is None:
            outputs[path] = entry
        else:
            put(outputs.setdefault(folder, {}), path[len(folder) + 1:], entry)
    return outputs


def outputs_by_path(spawns):
    """What was made: by the output's path its spawn and its entry."""
    outputs = {}
    for spawn in spawns:
        for path, entry in spawn.outputs.items():
            if path in outputs:
                other = outputs[path][0]
                spawn.refuse_in_plan(f'it made files in the output "{path}", and so did {other.place()}', other)
            outputs[path] = spawn, entry
    return outputs


def that_are_read(spawns, origins, chosen):
    """The spawns that made something of the artifact, and those that made what these read, directly or not."""
    needed = {it.number: it for _, it, _ in chosen.outputs.values()}
    waiting = list(needed.values())
    while waiting:
        reader = waiting.pop()
        for path in reader.inputs:
            maker = origins.of(path, reader)
            if maker and maker.number not in needed:
                needed[maker.number] = maker
                waiting.append(maker)
    return [it for it in spawns if it.number in needed]


@dataclass
class Asked:
    """What is asked of a log: `outputs` are the patterns of what the artifact has, `below` the folder that is its top, or
    nothing, and `artifact` a tree of files that is claimed, or none. `taken` are patterns of what is believed below bazel-out,
    and `pass_over` fields of spawns that say nothing."""

    outputs: list
    below: str = ""
    artifact: dict = None
    taken: tuple = ()
    drop_timeouts: bool = False
    latin1_names: bool = False
    pass_over: tuple = ()
    keep_all: bool = False

    @classmethod
    def by(cls, options):
        """What the options of a command line ask."""
        below = (options.below or "").removesuffix("/")
        if options.below and not is_path(below):
            raise Refused(f"{options.below!r} is no path below the execution root")
        artifact = None if options.artifact is None else read_artifact(options.artifact)
        rules = {it: getattr(options, it) for it in ("taken", "drop_timeouts", "latin1_names", "pass_over")}
        return cls(options.outputs, below, artifact, keep_all=options.all, **rules)

    def leaves_out(self):
        """Whether the plan is without what nothing of the artifact reads."""
        return (self.outputs or self.artifact is not None) and not self.keep_all


@dataclass
class Steps:
    """The steps in order, what they are given, what the artifact has, and what the store is told of them; and by their names
    the numbers that are printed."""

    store: Store
    spawns: list
    given: Given
    chosen: Chosen
    artifact: dict
    sources: dict
    taken: list
    counts: dict

    def keep(self, entries):
        """The digest of a dictionary, of which the store is told."""
        return self.store.keep(directory_message(entries, self.store.keep))

    def claimed(self):
        """The tree of the artifact."""
        if self.artifact is not None:
            return self.artifact
        root = {}
        for target, (_, _, entry) in self.chosen.outputs.items():
            put(root, target, entry)
        return root

    def claim(self):
        """The digest of the artifact."""
        return Digest.of(directory_message(self.claimed()))


def spawns_of(log, asked, directories=None):
    """The spawns of a log, each action once."""
    spawns = read_log(log, asked.latin1_names, asked.pass_over)
    frame_spawns(spawns, directories or Directories(), asked.drop_timeouts)
    return settle_repeats(spawns)


def steps_of(log, asked):
    """The steps of a log. Where it is said what the artifact has, what nothing of it reads is left out."""
    directories = Directories()
    spawns = spawns_of(log, asked, directories)
    origins = Origins(spawns)
    for spawn in spawns:
        spawn.outputs = outputs_of(spawn)
    outputs = outputs_by_path(spawns)
    if not asked.leaves_out():
        check_all(spawns)
    chosen = Chosen.of(outputs, origins.listing, asked)
    kept = that_are_read(spawns, origins, chosen) if asked.leaves_out() else spawns
    check_all(kept)
    ordered = in_order(kept, origins)
    name_steps(ordered)
    sources, tree, taken = sources_of(ordered, origins, asked.taken)
    not_shipped = lacking(outputs, chosen.outputs, asked.below) if asked.artifact is not None and not asked.outputs else 0
    from_cache = sum(it.is_from_cache for it in ordered)
    elsewhere = sum(bool(it.runner) and not it.is_run_here() and not it.is_from_cache for it in ordered)
    left_out = len(spawns) - len(ordered)
    counts = {"left-out": left_out, "not-shipped": not_shipped, "from-cache": from_cache, "elsewhere": elsewhere}
    given = Given(ordered, origins, sources)
    return Steps(told(ordered, directories), ordered, given, chosen, asked.artifact, tree, taken, counts)


def check_all(spawns):
    for it in spawns:
        it.check()


def told(spawns, directories):
    """What a store is told of these spawns: the blobs of their actions and of their inputs, and their results."""
    store = Store()
    for spawn in spawns:
        store.keep(spawn.action_message(store.keep(spawn.command_message()), spawn.input))
        directories.put_into(store.blobs, spawn.input)
        store.results[spawn.action] = result_message(spawn.outputs, spawn.exit_code, store.keep)
    return store


def sources_of(spawns, origins, wanted):
    """The files and links of the source tree by path, which has what no spawn made as the first that reads it has it; the tree
    as a dictionary, and what of it is below bazel-out, as far as `wanted` or a rule lets it be taken."""
    files, tree, reads = {}, {}, []
    for spawn in spawns:
        for path, entry in sorted(spawn.inputs.items()):
            is_of_outputs_here = is_of_outputs(path)
            if (path in files and not is_of_outputs_here) or origins.of(path, spawn):
                continue
            if is_of_outputs_here:
                reads.append((spawn, path))
            if not put(tree, path, files.setdefault(path, entry)):
                spawn.refuse(f'its input "{path}" lies under or above one that an earlier spawn reads')
    return files, tree, sorted(check_taken(reads, wanted))
