#!/usr/bin/env python3
"""Verifies what bazel_plan.py wrote, one plan or a build in stages, by `buildcache verify`.

    verify_stages.py evidence
    verify_stages.py evidence --artifact shipped
    verify_stages.py evidence --jobs 4

FOLDER is evidence as docs/FORMATS.md has it, or a tar archive of it, which the program is handed as it is: `buildcache verify
FOLDER` judges one plan and a build in stages, and its line and status are this tool's. --artifact claims the tree of a folder.

With --jobs stages are judged side by side, each by a process of the program, with the sources and the claim that its folder has:
the sources of the first have to be those in FOLDER, those of each later one the claim of the stage before, and the last claim the
one in FOLDER. So the verdicts compose. The line is the one that the program would print: `yes CLAIM stages N steps M` (of one
plan `yes CLAIM steps M`), or the no of the first stage that has one, as `no stage K step NAME cause ..`. For that an archive is
unpacked into a temporary folder. So it is with --store, which names another store than FOLDER/store. The status is that of
`verify`: 0 yes, 1 no, 2 a file is at fault, 3 no verdict.

Many machines share the stages. Who wrote FOLDER says which it is, each job verifies its share of exactly that, and the last step
has the line of each job in a file:

    verify_stages.py evidence --digest                                  prints HASH
    verify_stages.py evidence --evidence HASH --shard 2/3 >shard-2      prints `shard 2/3 of HASH verified 2 5 steps 41`
    verify_stages.py evidence --evidence HASH --all-of shard-1 shard-2 shard-3

The program is the one that --program or the variable BUILDCACHE names, else ./buildcache of this repository. One of which nothing
is proved, as tools/preview.sh compiles it, is refused (tools/evidence/unproved.py).
"""

import argparse
import concurrent.futures
import hashlib
import os
import re
import subprocess
import sys
from dataclasses import dataclass, replace

import archives
from bazel_artifact import read_artifact
from shared import command_line, stores
from shared.command_line import NotAnswered, Refused
from shared.crates import TOP
from shared.messages import Digest, directory_message
from shared.previews import why_not

ASKED = ("sources", "claim")
PLANNED = ("plan", "record", *ASKED)
DIGEST = "[0-9a-f]{64}/[0-9]{1,19}"
# Stages, jobs and steps: decimal, from 1 on.
NUMBER = "[1-9][0-9]{0,8}"
SHARD_LINE = f"shard ({NUMBER}/{NUMBER}) of ([0-9a-f]{{64}}) verified ((?:{NUMBER} )*)steps ([0-9]{{1,9}})"


@dataclass
class Stage:
    """One plan. That of a build without stages has no name."""

    name: str
    folder: str
    sources: str
    claim: str

    def shown(self):
        return f"stage {self.name}" if self.name else "the plan"


# What is asked.


def read_lines(folder, name):
    with open(os.path.join(folder, name), encoding="utf-8", errors="replace") as it:
        return it.read().splitlines()


def read_digests(folder):
    """The sources and the claim that a folder asks about."""
    digests = [read_lines(folder, it) for it in ASKED]
    if not all(len(it) == 1 and re.fullmatch(DIGEST, it[0]) for it in digests):
        raise Refused(f'"{folder}": the files sources and claim have a digest each')
    return [it[0] for it in digests]


def read_names(folder):
    """The names of the stages, none twice; of a build without stages the one name of nothing."""
    has_stages, has_plan = (os.path.lexists(os.path.join(folder, it)) for it in ("stages", "plan"))
    if has_plan and not has_stages:
        return [""]
    names = read_lines(folder, "stages")
    if has_plan:
        raise Refused(f'"{folder}": it has stages, and a plan beside them')
    if not names:
        raise Refused(f'"{folder}": there are no stages')
    wrong = next((it for it in names if not re.fullmatch(NUMBER, it)), None)
    if wrong is not None:
        raise Refused(f'"{folder}": {wrong!r} is no folder of a stage')
    return names


def read_stages(folder):
    """The stages, of which each goes on from what the one before ends in, from the build's sources to its claim."""
    names = read_names(folder)
    places = [os.path.join(folder, it) for it in names]
    stages = [Stage(name, place, *read_digests(place)) for name, place in zip(names, places)]
    at, claim = read_digests(folder)
    whose = "the build's"
    for stage in stages:
        if stage.sources != at:
            raise Refused(f"{stage.shown()}: its sources {stage.sources} aren't {whose}")
        at, whose = stage.claim, f"the claim of {stage.shown()}"
    if at != claim:
        raise Refused(f"{whose}, {at}, isn't the build's, {claim}")
    return stages


def results_of(stages):
    """The hashes of the actions that the stages' records name."""
    records = (stores.read_file(os.path.join(it.folder, "record")) for it in stages)
    return sorted({it.decode() for record in records for it in re.findall(rb"^step \S+ ([0-9a-f]{64})/", record, re.M)})


def evidence_of(folder, stages, store):
    """The hash of all that is asked: of the list of stages, each plan, record, sources and claim, and each recorded result."""
    names = ["stages"] * bool(stages[0].name) + list(ASKED)
    names += [os.path.join(stage.name, it) for stage in stages for it in PLANNED]
    hashing = hashlib.sha256()
    for name in dict.fromkeys(names):
        hashing.update(f"{hash_of(stores.read_file(os.path.join(folder, name)))}  {name}\n".encode())
    for name in results_of(stages):
        result = store.get("ac", name)
        hashing.update(f"{'missing' if result is None else hash_of(result)}  ac/{name}\n".encode())
    return hashing.hexdigest()


def hash_of(content):
    return hashlib.sha256(content).hexdigest()


def asked(folder, store):
    """The stages, and the hash of the evidence."""
    stages = read_stages(folder)
    return stages, evidence_of(folder, stages, store)


# Verdicts.


def run_verify(program, *words):
    """What `verify` prints, what it prints as an error, and its status."""
    words = [program, "verify", *words]
    ran = subprocess.run(words, stdin=subprocess.DEVNULL, capture_output=True, text=True, errors="replace", check=False)
    return ran.stdout.rstrip("\n"), ran.stderr.rstrip("\n"), ran.returncode


def verify(stage, program, place):
    """The same on a stage."""
    files = [os.path.join(stage.folder, it) for it in ("plan", "record")]
    digests = ["--sources", stage.sources, "--claim", stage.claim]
    return run_verify(program, *place, *digests, "--plan", files[0], "--record", files[1])


def raise_fault(shown, line, told, status):
    """Raises why there is no verdict."""
    why = told.removeprefix("error: ") or line or f"the program ends with status {status}"
    raise (Refused if status == 2 else NotAnswered)(f"{shown}{why}")


def hand_on(options):
    """The status and the line of the program on evidence as it is, whose note is told."""
    os.stat(options.folder)  # (before a program is built for it)
    server = stores.store_of(options).words() if options.server else []
    claim = claim_of(options.artifact) if options.artifact else None
    line, told, status = run_verify(program_of(options.program), options.folder, *server, *(["--claim", claim] if claim else []))
    is_yes = re.fullmatch(f"yes {claim or '[0-9a-f]{64}/[0-9]+'}( stages [0-9]+)? steps [0-9]+", line)
    if not (is_yes if status == 0 else status == 1 and line.startswith("no ")):
        raise_fault("", line, told, status)
    command_line.complain(told)
    return status, line


def judge(stages, program, place, jobs):
    """The status and the number of steps, where each is a yes; else 1 and the first stage's no, whose note is told."""
    steps, is_shown = 0, sys.stderr and sys.stderr.isatty()
    with concurrent.futures.ThreadPoolExecutor(jobs) as pool:
        verdicts = [pool.submit(verify, it, program, place) for it in stages]
        try:
            for count, (stage, verdict) in enumerate(zip(stages, verdicts), 1):
                line, told, status = verdict.result()
                if status == 1 and line.startswith("no "):
                    command_line.complain(told)
                    return 1, f"no stage {stage.name} {line.removeprefix('no ')}" if stage.name else line
                found = re.fullmatch(f"yes {stage.claim} steps ([0-9]+)", line)
                if status != 0 or not found:
                    raise_fault(f"{stage.shown()}: ", line, told, status)
                steps += int(found[1])
                if is_shown:
                    print(f"\r{count} of {len(stages)} stages, {steps} steps", end="", file=sys.stderr, flush=True)
        finally:
            for it in verdicts:
                it.cancel()
            if is_shown:
                print(file=sys.stderr)
    return 0, steps


def yes_line(stages, steps):
    return f"yes {stages[-1].claim}{f' stages {len(stages)}' if stages[0].name else ''} steps {steps}"


def program_of(named):
    """The program that was named, or that BUILDCACHE names; else this repository's script, which builds it where it isn't
    current. That is run once before the stages are. A program of which nothing is proved is refused."""
    program = named or os.environ.get("BUILDCACHE")
    if not program:
        program = os.path.join(TOP, "buildcache")
        ran = subprocess.run([program, "--version"], stdin=subprocess.DEVNULL, stdout=subprocess.DEVNULL, check=False)
        if ran.returncode != 0:
            raise NotAnswered(f'"{program}" ends with status {ran.returncode}')
    why = why_not(program)
    if why:
        raise NotAnswered(why)
    return program


# Shards.


@dataclass
class Shard:
    """The share of a job: of `count` jobs the one with this number, from 1 on, has every `count`-th stage."""

    number: int
    count: int

    def text(self):
        return f"{self.number}/{self.count}"

    def share_of(self, stages):
        return stages[self.number - 1 :: self.count]


def shard_of(text):
    """Reads J/N."""
    found = re.fullmatch(f"({NUMBER})/({NUMBER})", text)
    shard = found and Shard(int(found[1]), int(found[2]))
    if not shard or shard.number > shard.count:
        raise argparse.ArgumentTypeError(f"{text!r} is no shard J/N, decimal and without leading zeros, with J from 1 to N")
    return shard


def shard_line(shard, evidence, stages, steps):
    return f"shard {shard.text()} of {evidence} verified {''.join(f'{it.name} ' for it in stages)}steps {steps}"


def read_shard(path, evidence):
    """The shard, the names of the stages and the number of steps that a job's line in a file says, or the no in its place."""
    lines = read_lines("", path)
    if len(lines) == 1 and re.fullmatch(f"no stage {NUMBER} .+", lines[0]):
        return lines[0]
    found = len(lines) == 1 and re.fullmatch(SHARD_LINE, lines[0])
    if not found:
        raise Refused(f'"{path}" has no job\'s line, as --shard prints it')
    if found[2] != evidence:
        raise Refused(f'"{path}" is of other evidence, {found[2]}')
    return shard_of(found[1]), found[3].split(), int(found[4])


def put_together(stages, paths, evidence):
    """The verdict of all jobs, each of which has its line in a file; each stage has to be verified."""
    told = [read_shard(it, evidence) for it in paths]
    refused = [it for it in told if isinstance(it, str)]
    if refused:
        return 1, min(refused, key=lambda it: int(it.split()[2]))
    numbers = [shard.number for shard, _, _ in told]
    counts = {shard.count for shard, _, _ in told}
    if len(counts) != 1 or sorted(numbers) != list(range(1, counts.pop() + 1)):
        raise Refused(f"these are the shards {', '.join(shard.text() for shard, _, _ in told)}, and not each of N once")
    for (shard, names, _), path in zip(told, paths):
        if names != [it.name for it in shard.share_of(stages)]:
            raise Refused(f'"{path}" has other stages than those of shard {shard.text()}')
    verified = {name for _, names, _ in told for name in names}
    left = next((it for it in stages if it.name not in verified), None)
    if left:
        raise Refused(f"stage {left.name} was verified by no job")
    return 0, yes_line(stages, sum(steps for _, _, steps in told))


# The command line.


def evidence_hash(text):
    if not re.fullmatch("[0-9a-f]{64}", text):
        raise argparse.ArgumentTypeError(f"{text!r} is no hash, as --digest prints it")
    return text


def add_shares(parser):
    """The options by which many machines share the stages."""
    parser.add_argument(
        "--evidence", metavar="HASH", type=evidence_hash, action=command_line.Once,
        help="what --digest printed where FOLDER was written; another FOLDER is refused",
    )
    which = parser.add_mutually_exclusive_group()
    which.add_argument("--digest", action="store_true", help="print the hash of all that is asked, and verify nothing")
    which.add_argument(
        "--shard", metavar="J/N", type=shard_of, action=command_line.Once,
        help="verify every N-th stage from the J-th on, with J from 1 to N; --evidence says of what",
    )
    which.add_argument(
        "--all-of", metavar="FILE", nargs="+", action=command_line.Once, type=command_line.place_of,
        help="the verdict of all shards, of which each FILE has the line that one printed; a stage that none verified is refused",
    )


def parse(words):
    parser = command_line.Parser("verify_stages.py", __doc__)
    stores.add_options(parser, "the folder or the archive that bazel_plan.py wrote")
    parser.add_argument(
        "--artifact", metavar="SHIPPED", action=command_line.Once, type=command_line.place_of,
        help="claim the tree of this folder on disk, in place of the claim in FOLDER",
    )
    parser.add_argument(
        "--program", metavar="PROGRAM", action=command_line.Once, type=command_line.place_of,
        help="the program buildcache; by default the one that BUILDCACHE names, else this repository's ./buildcache",
    )
    parser.add_argument(
        "--jobs", metavar="J", type=command_line.number_to(64), action=command_line.Once,
        help="stages verified at once, each by a process of its own, 1 to 64; by default one process judges all",
    )
    add_shares(parser)
    options = parser.parse_args(words)
    if (options.shard or options.all_of) and not options.evidence:
        parser.error("--shard and --all-of need --evidence, as --digest printed it where FOLDER was written")
    if options.artifact and (options.shard or options.all_of or options.digest):
        parser.error("--artifact is for the verdict of one machine")
    return options


def verdict_of(options, stages, store):
    """The status and the line."""
    if options.all_of:
        return put_together(stages, options.all_of, options.evidence)
    if options.artifact:
        stages = [*stages[:-1], replace(stages[-1], claim=claim_of(options.artifact))]
    share = options.shard.share_of(stages) if options.shard else stages
    # (a server has blobs alone: nothing tells that another result was put in a result's place)
    place = [*store.words(), *(["--results", os.path.join(options.folder, "store")] if options.server else [])]
    status, told = judge(share, program_of(options.program), place, options.jobs or 1)
    if status != 0:
        return status, told
    return 0, shard_line(options.shard, options.evidence, share, told) if options.shard else yes_line(stages, told)


def claim_of(folder):
    """The digest of the tree of a folder, as bazel_plan.py --artifact claims it."""
    return Digest.of(directory_message(read_artifact(folder))).text()


def lines_of(options):
    """The status and the line, of a folder or an archive."""
    if options.jobs is None and not (options.store or options.evidence or options.digest):
        return hand_on(options)
    has_blobs = not (options.server or options.digest or options.all_of)
    with archives.as_folder(options.folder, has_blobs) as folder, archives.as_folder(options.store, has_blobs) as store:
        if store != options.store:
            store = os.path.join(store, "store")
        return lines_of_folder(argparse.Namespace(**{**vars(options), "folder": folder, "store": store}))


def lines_of_folder(options):
    """The status and the line. Named evidence has to be the same before and after."""
    store = stores.store_of(options)
    if not options.evidence and not options.digest:
        return verdict_of(options, read_stages(options.folder), store)
    stages, evidence = asked(options.folder, store)
    if options.digest:
        return 0, evidence
    if options.evidence != evidence:
        raise Refused(f'"{options.folder}" is other evidence, {evidence}')
    if (options.shard or options.all_of) and not stages[0].name:
        raise Refused(f'"{options.folder}" has one plan, and no stages that many machines share')
    verdict = verdict_of(options, stages, store)
    if asked(options.folder, store) != (stages, evidence):
        raise Refused(f'"{options.folder}" was changed while it was verified')
    return verdict


def main(words):
    options = parse(words)
    return command_line.status_of(lambda: lines_of(options))


if __name__ == "__main__":
    sys.exit(main(sys.argv[1:]))
