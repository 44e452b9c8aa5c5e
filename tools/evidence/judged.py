"""What judge.py tells of a verdict: the program that gave it, the evidence on which it is, and what that says of it."""

import argparse
import contextlib
import datetime
import functools
import itertools
import os
import re
import shutil
import subprocess
from dataclasses import dataclass, replace

import archives
import sha256sum_lists
import verify_stages
from bazel_artifact import read_artifact
from judgements import Verdict, makers_of
from plans import is_path, unescaped
from read_plans import Plans
from roots import Root, files_of, hash_of_file
from shared import command_line, stores
from shared.command_line import NotAnswered, Refused
from shared.crates import BUILT
from shared.messages import Digest, File, directory_message
from shared.previews import LAUNCHER, is_same

# The files of the evidence at which no verdict looks.
LISTS = ("artifact.sums", "taken", "from-cache")
# How many files --json names that differ.
MOST_DIFFERING = 100
# How inputAttestations call the hash of all that is asked, results too.
WHOLE = "verify_stages.py --digest"


@dataclass
class Program:
    """The program that judges: its version, and the hash of its file."""

    path: str
    version: str
    sha256: str

    @classmethod
    def at(cls, path):
        ran = subprocess.run([path, "--version"], stdin=subprocess.DEVNULL, capture_output=True, text=True, check=False)
        found = re.fullmatch(r"buildcache ([0-9A-Za-z.+-]+)\n", ran.stdout)
        if ran.returncode != 0 or not found:
            raise NotAnswered(f'"{path}" --version ends with status {ran.returncode} and tells no version: it is no buildcache')
        return cls(path, found[1], cls.hash_of(path))

    @staticmethod
    def hash_of(path):
        """The hash of its file; of ./buildcache that of the program which this runs."""
        place = shutil.which(path) or path
        return hash_of_file(BUILT if is_same(place, LAUNCHER) and os.path.exists(BUILT) else place)

    def is_changed(self):
        return self.hash_of(self.path) != self.sha256


class Evidence:
    """Evidence in a folder, into which an archive is unpacked, and the claim on which the verdict is."""

    def __init__(self, options, folder):
        self.options, self.folder = options, folder
        self.archive = archives.Archive(options.folder) if os.path.isfile(options.folder) else None
        self.store = stores.store_of(argparse.Namespace(**{**vars(options), "folder": folder, "store": None}))
        self.artifact = None if options.artifact is None else read_artifact(options.artifact)
        self.stages = verify_stages.read_stages(folder)
        if self.artifact is not None:
            claim = Digest.of(directory_message(self.artifact)).text()
            self.stages = [*self.stages[:-1], replace(self.stages[-1], claim=claim)]
        self.lists = self.read_lists()

    def close(self):
        self.store.close()

    def are_stages(self):
        return bool(self.stages[0].name)

    def read_lists(self):
        """By the names of the lists that the evidence has their bytes."""
        found = {}
        for name in LISTS:
            with contextlib.suppress(FileNotFoundError):
                content = self.archive.read(name) if self.archive else stores.read_file(os.path.join(self.folder, name))
                found.update({} if content is None else {name: content})
        return found

    def sums(self, lists):
        """By their names the hashes of all that is judged: of the archive, or of each file; and of all that is asked."""
        whole = {WHOLE: verify_stages.evidence_of(self.folder, self.stages, self.store)}
        if self.archive:
            return {os.path.basename(self.options.folder): hash_of_file(self.options.folder), **whole}
        names = ["stages"] * self.are_stages() + list(verify_stages.ASKED)
        names += [os.path.join(stage.name, it) for stage in self.stages for it in verify_stages.PLANNED]
        found = {it: hash_of_file(os.path.join(self.folder, it)) for it in dict.fromkeys(names)}
        return {**found, **{name: verify_stages.hash_of(it) for name, it in lists.items()}, **whole}

    def verdict(self, program):
        """The verdict: of one plan by the program alone, of stages by that stage by stage."""
        status, line = self.verdict_of_stages(program) if self.are_stages() else self.verdict_of_plan(program)
        verdict = Verdict.of(line, status)
        if verdict.is_yes and not line.startswith(f"yes {self.stages[-1].claim} "):
            raise NotAnswered(f"the program's yes, {line!r}, isn't of the claim {self.stages[-1].claim}")
        return verdict

    def verdict_of_stages(self, program):
        results = ["--results", os.path.join(self.folder, "store")] if self.options.server else []
        status, told = verify_stages.judge(self.stages, program, [*self.store.words(), *results], self.options.jobs)
        return status, told if status else verify_stages.yes_line(self.stages, told)

    def verdict_of_plan(self, program):
        words = [program, "verify", self.options.folder, *(self.store.words() if self.options.server else [])]
        words += [] if self.artifact is None else ["--claim", self.stages[-1].claim]
        ran = subprocess.run(words, stdin=subprocess.DEVNULL, capture_output=True, text=True, errors="replace", check=False)
        told = ran.stderr.rstrip("\n")
        if ran.returncode not in (0, 1):
            why = told.removeprefix("error: ") or f"the program ends with status {ran.returncode}"
            raise (Refused if ran.returncode == 2 else NotAnswered)(why)
        command_line.complain(told)
        return ran.returncode, ran.stdout.removesuffix("\n")


class Judged:
    """A verdict, with what the evidence says of it."""

    def __init__(self, verdict, evidence, program, sums):
        self.verdict, self.evidence, self.program, self.sums = verdict, evidence, program, sums
        self.stages, self.plans = evidence.stages, Plans(evidence.stages)
        self.last = len(self.stages) - 1
        self.stage = next(it for it, stage in enumerate(self.stages) if stage.name == (verdict.stage or self.stages[-1].name))
        self.claim, self.sources, self.steps = self.stages[-1].claim, self.stages[0].sources, self.plans.count()
        self.time = datetime.datetime.now(datetime.timezone.utc).strftime("%Y-%m-%dT%H:%M:%SZ")
        self.taken = self.lines_of("taken", lambda it: is_path(unescaped(it)), "no path as plans escape it")
        self.from_cache = self.lines_of("from-cache", self.plans.has_step, "no step of the plan")

    def name_of_stage(self, node):
        """The name of a node's stage; of the sources, and without stages, none."""
        return self.stages[node.stage].name if node.stage >= 0 and self.are_stages() else None

    def is_about_root(self):
        """Whether the build ends in something else than is claimed."""
        return self.verdict.cause == "root-differs" and self.stage == self.last

    def are_stages(self):
        return self.evidence.are_stages()

    def lines_of(self, name, is_right, why_not):
        """The lines of a list of the evidence, or nothing, where it has none. No verdict looks at it, so each line is checked."""
        if name not in self.evidence.lists:
            return None
        lines = self.evidence.lists[name].decode(errors="replace").splitlines()
        wrong = next((it for it in lines if not is_right(it)), None)
        if wrong is not None:
            raise Refused(f'"{os.path.join(self.evidence.options.folder, name)}": {wrong!r} is {why_not}: remove that list')
        return lines

    @functools.cached_property
    def root(self):
        """The files in which the build ends by the evidence, with the digest that the program says; or nothing, and why."""
        blobs = self.evidence.archive if self.evidence.archive and not self.evidence.options.server else self.evidence.store
        try:
            root = Root(self.stages, self.plans, blobs)
            if root.digest() != (self.verdict.named("digest") or self.claim):
                raise Refused("what the store has of it has another digest")
            return files_of(root.tree), None
        except (Refused, NotAnswered) as fault:
            return None, f"what the build ends in can't be told: {fault}"

    @functools.cached_property
    def shipped(self):
        """By the paths of the files on which the verdict is their hashes; or nothing, and why. They are those of the folder that
        is shipped, or those that the evidence lists. Of a yes these have to be the files in which the build ends."""
        evidence = self.evidence
        if evidence.artifact is not None:
            return hashes_of(files_of(evidence.artifact)), None
        place = f'"{os.path.join(evidence.options.folder, "artifact.sums")}"'
        if "artifact.sums" not in evidence.lists:
            return None, f"{place} isn't there"
        try:
            listed = sha256sum_lists.read_sums(evidence.lists["artifact.sums"])
        except Refused as fault:
            raise Refused(f"{place}: {fault}") from None
        shipped = {path: it.hash for path, it in listed.items() if it.hash}
        if self.verdict.is_yes:
            root, why = self.root
            if root is None or shipped != hashes_of(root):
                return None, why or f"{place} has other files than those in which the build ends"
        return shipped, None

    @functools.cached_property
    def differing(self):
        """By the paths at which the claim and what the build ends in differ who made what stands there; or nothing, where the
        verdict isn't about that, or it can't be told."""
        if not self.is_about_root() or self.root[0] is None or self.shipped[0] is None:
            return None
        artifact, made = self.evidence.artifact, self.root[0]
        claimed, made = (self.shipped[0], hashes_of(made)) if artifact is None else (files_of(artifact), made)
        paths = sorted(it for it in made.keys() | claimed.keys() if made.get(it) != claimed.get(it))
        return {it: self.plans.origins_at(self.last, None, it) if it in made else [] for it in paths}

    @functools.cached_property
    def made(self):
        """Who made what the verdict is about: what stands at its path, the files that differ, or else all of the root."""
        if self.verdict.path() is not None:
            return makers_of(self.verdict, self.plans, self.stage)
        if self.verdict.is_yes or self.verdict.cause == "root-differs":
            return [it for made in (self.differing or {}).values() for it in made] or self.plans.all_of(self.stage, None)
        return []

    def facts(self):
        """What --json prints."""
        verdict, code = self.verdict, self.verdict.named("code")
        return {
            "verdict": "yes" if verdict.is_yes else "no", "line": verdict.line,
            "stage": verdict.stage and int(verdict.stage), "place": verdict.place(), "step": verdict.step,
            "cause": verdict.cause, "number": verdict.number(), "path": verdict.path(), "digest": verdict.named("digest"),
            "exit_code": code and int(code),
            "made_by": None if verdict.path() is None else self.facts_of(self.made), "differs": self.facts_of_files(),
            "claim": self.claim, "sources": self.sources, "steps": self.steps,
            "stages": len(self.stages) if self.are_stages() else None,
            "taken": None if self.taken is None else [unescaped(it) for it in self.taken],
            "from_cache": self.from_cache, "version": self.program.version,
        }

    def facts_of(self, made):
        """Who made something: steps of stages, or the sources."""
        names = [self.name_of_stage(it.maker) for it in made]
        return [{"stage": name and int(name), "step": it.maker.step or None, "path": it.path} for name, it in zip(names, made)]

    def facts_of_files(self):
        """The first files that differ, and who made what the build ends in there."""
        if self.differing is None:
            return None
        first = itertools.islice(self.differing.items(), MOST_DIFFERING)
        return [{"path": path, "made_by": self.facts_of(made)} for path, made in first]


def hashes_of(files):
    """By their paths the hashes of files. A link has none."""
    return {path: it.digest.hash for path, it in files.items() if isinstance(it, File)}
