#!/usr/bin/env python3
"""Turns Bazel's execution log into what `buildcache verify` asks for.

    bazel clean
    bazel build --remote_cache= --disk_cache= --remote_executor= --execution_log_json_file=build.json //pages:release
    bazel_plan.py build.json asked --refuse-cached

LOG is the file of Bazel's `--execution_log_json_file`: JSON objects one after another, one for each spawn (a command
that Bazel ran). FOLDER gets these files:

    plan, record      the build as docs/FORMATS.md has it
    sources, claim    the digest of the source tree, and that of the tree that is claimed
    taken             the sources below bazel-out, which no spawn of the log made; one escaped path a line
    from-cache        the steps that came from a cache by the log; one name a line
    sources.sums      the sources in the form of sha256sum, for tools/evidence/sources_digest.py; artifact.sums: what is claimed
    store/            cas/HASH and ac/HASH: commands, actions, directories, trees and results, not the contents of files;
                      with --store in another folder; with --server the blobs are in a cache over HTTP

With --archive FILE all that would be in FOLDER is in one tar archive, stage by stage (docs/FORMATS.md, Archives). Where --store
names such an archive, of earlier evidence, it has to have no other result of an action, and nothing is put into it.

With --stages, or where one plan doesn't hold all steps, each stage has a folder 1, 2, .. in FOLDER with a plan, a record,
sources and a claim of its own, and the file `stages` names these folders; tools/evidence/verify_stages.py verifies them.

The rules are those of tools/evidence/README.md. What a plan can't say is refused with status 2 and one line, which names
the file, the line of the log at which the spawn begins, and the spawn; then none of the files is written, and FOLDER has
no claim of a run before, or FILE isn't there.
"""

import contextlib
import gc
import io
import os
import sys
from dataclasses import dataclass

import archives
from bazel_against import Against
from bazel_disk import Disk
from bazel_stages import builds_of, groups_of, length
from bazel_steps import Asked, Steps, spawns_of, steps_of
from bazel_taken import is_of_outputs
from plans import MOST_STEPS, check_sizes, escaped, files_at
from sha256sum_lists import sums_of
from shared import command_line, stores
from shared.command_line import Refused
from shared.messages import Digest

# The first bytes of zstd's frames (RFC 8878, section 3.1.1), which Bazel's compact log is written in.
COMPACT = b"\x28\xb5\x2f\xfd"
MOST_NOTES = 100


def check_store(steps, store):
    """Refuses a store that has another result of an action: the same action came to two outcomes."""
    for spawn in steps.spawns:
        held = store.get("ac", spawn.action.hash)
        if held is not None and held != steps.store.results[spawn.action]:
            spawn.refuse(f'the store has another result of its action, "{store.place("ac", spawn.action.hash)}"')


def check_ran(steps):
    """Refuses steps of which the log doesn't say that they ran on the machine of the build: the record would say what a cache or
    another machine gave, not what they came to."""
    others = [it for it in steps.spawns if not it.is_run_here()]
    if others:
        count = f"{len(others)} of {len(steps.spawns)} steps" if len(others) > 1 else "this step"
        first = min(others, key=lambda it: it.line)
        how = "it came from a cache" if first.is_from_cache else f"its runner is {first.runner!r}, which isn't known to run here"
        first.refuse(f"{how} ({count}): build with --remote_cache=, --disk_cache= and --remote_executor= after `bazel clean`")


# What is written into FOLDER, and all but the first four not into that of a stage.
WRITTEN = ("claim", "plan", "record", "sources", "stages", "taken", "from-cache", "sources.sums", "artifact.sums")


def forget_run(options):
    """Removes what an earlier run wrote into FOLDER, but for the store, or as FILE, so that nothing of it is verified if this run
    fails."""
    if lies_in_artifact(options, options.archive or options.folder):
        return
    if options.archive is not None:
        archives.forget(options.archive)
        return
    for name in WRITTEN:
        stores.forget(os.path.join(options.folder, name))
    with contextlib.suppress(FileNotFoundError):
        for stage in (it.path for it in os.scandir(options.folder) if it.name.isdecimal() and it.is_dir(follow_symlinks=False)):
            for name in WRITTEN[:4]:
                stores.forget(os.path.join(stage, name))
            # (another's file is left where it is)
            with contextlib.suppress(OSError):
                os.rmdir(stage)


def is_of_checkout(path):
    """Whether a source is a file of the workspace, and neither of another repository nor written by Bazel."""
    return not path.startswith("external/") and not is_of_outputs(path)


def write(made, folder, store):
    """Writes all: the blobs before the results that refer to them, then the files of FOLDER, and the claim last."""
    made.steps.store.put_into(store)
    for name, texts in zip(made.names(), made.plans()):
        stores.write_texts(os.path.join(folder, name), texts)
    stores.write_texts(folder, {**made.lists(), **made.asked()})


def write_archive(made, out, store):
    """Writes all into an archive: what is asked; then of each plan its files, and what of the store it is the first to look at, the
    blobs before the results; then the lists."""
    out.add_texts(made.asked())
    for name, texts, group in zip(made.names(), made.plans(), groups_of(made.steps.store, made.builds)):
        out.add_texts(texts, name)
        for it in sorted(group, key=lambda it: (it[0] != "cas", it)):
            store.put(*it, group[it])
    out.add_texts(made.lists())


def parse(words):
    parser = command_line.Parser("bazel_plan.py", __doc__)
    parser.add_argument(
        "log", metavar="LOG", type=command_line.place_of,
        help="the log of a build that ran all its spawns, as the first one after `bazel clean`",
    )
    archives.add_option(parser, stores.add_options(parser))
    parser.add_argument(
        "--outputs", metavar="PATTERN", nargs="+", action="extend", default=[],
        help="what the artifact has: each output whose path has a PATTERN, in which *, ? and [..] are as in a shell, and * "
        "matches / too. Without it: with --artifact the files of that, else every output (below PATH)",
    )
    parser.add_argument(
        "--below", metavar="PATH", action=command_line.Once, type=command_line.place_of,
        help="the folder of the execution root, as bazel-out/k8-fastbuild/bin, that is the top of the artifact",
    )
    parser.add_argument(
        "--artifact", metavar="SHIPPED", action=command_line.Once, type=command_line.place_of,
        help="claim the tree of this folder on disk, in place of what the log has. Without --outputs the artifact has what "
        "that folder has, so nothing refuses a file that it lacks; with --below PATH the last line counts such files",
    )
    parser.add_argument(
        "--outputs-on-disk", metavar="DISK", action=command_line.Once, type=command_line.place_of,
        help="refuse outputs that aren't in the folder DISK/bazel-out as the log has them, and what is there alone and has a "
        "PATTERN of --outputs: DISK is the recorded build's workspace or execution root",
    )
    parser.add_argument(
        "--taken", metavar="PATTERN", nargs="+", action="extend", default=[],
        help="believe the files below bazel-out that have a PATTERN, that a step reads, and that no spawn of the log made; by "
        "default only some that Bazel writes itself are taken, and each other one is refused",
    )
    parser.add_argument(
        "--latin1-names", action="store_true",
        help="take each character of a text beyond ASCII for a byte, as Bazel 4 logs them; by default such texts are refused",
    )
    parser.add_argument(
        "--against", metavar="OTHER_LOG", action=command_line.Once, type=command_line.place_of,
        help="the log of another build of the same sources, as the one that was shipped: notes say which actions came to other "
        "results there (differ N), which only read what those made (follow N), and which aren't the same (unlike N)",
    )
    parser.add_argument(
        "--pass-over", metavar="FIELD", nargs="+", action="extend", default=[],
        help="pass over a field of a spawn of which this program knows nothing; by default the spawn is refused",
    )
    parser.add_argument(
        "--drop-timeouts", action="store_true",
        help="take spawns with a timeout, as tests have, as steps without one; by default they are refused",
    )
    parser.add_argument(
        "--refuse-cached", action="store_true",
        help="refuse the log if a step of the plan came from a cache or ran on another machine; by default those that came from a "
        "cache are counted (from-cache N)",
    )
    parser.add_argument(
        "--all", action="store_true",
        help="keep the spawns from which nothing of the artifact is made; with --outputs or --artifact they are left out by default",
    )
    parser.add_argument(
        "--stages", metavar="STEPS", nargs="?", type=command_line.number_to(MOST_STEPS), const=MOST_STEPS, action=command_line.Once,
        help=f"write stages, each a plan of at most STEPS steps (1 to {MOST_STEPS}, which is the default); a build too large for "
        "one plan is written in stages without this option, too",
    )
    options = parser.parse_args(words)
    if options.archive and options.store and os.path.realpath(options.archive) == os.path.realpath(options.store):
        parser.error("--archive and --store are one file")
    return options


@dataclass
class Made:
    """What is written: the steps, and one plan of them, or one a stage."""

    steps: Steps
    builds: list
    are_stages: bool
    sources: Digest
    claim: Digest

    def names(self):
        """The folders of the plans."""
        return [str(number) for number in range(1, len(self.builds) + 1)] if self.are_stages else [""]

    def asked(self):
        """The files of the whole, the claim last."""
        stages = {"stages": self.names()} if self.are_stages else {}
        return {**stages, "sources": [self.sources.text()], "claim": [self.claim.text()]}

    def plans(self):
        """The files of each plan."""
        for it in self.builds:
            texts = {"plan": it.plan, "record": it.record}
            asked = {"sources": [it.sources.text()], "claim": [it.claim.text()]} if self.are_stages else {}
            yield dict(sorted({**texts, **asked}.items()))

    def lists(self):
        """The files at which no verdict looks."""
        steps = self.steps
        claimed = dict(it for name, entry in steps.claimed().items() for it in files_at(name, entry))
        sources = sums_of(steps.given.sources, is_of_checkout)
        from_cache = [it.name for it in steps.spawns if it.is_from_cache]
        taken = map(escaped, steps.taken)
        return {"artifact.sums": sums_of(claimed), "from-cache": from_cache, "sources.sums": sources, "taken": taken}


def lies_in_artifact(options, place):
    """Whether a place is in the folder that is shipped."""
    if options.artifact is None:
        return False
    shipped = os.path.realpath(options.artifact)
    return os.path.commonpath([shipped, os.path.realpath(place)]) == shipped


def check_places(options):
    """Refuses to write into the artifact, which would have other files than are claimed then."""
    whole = options.archive or options.folder
    for place in (whole, options.store or whole):
        if lies_in_artifact(options, place):
            raise Refused(f'"{place}" lies in the artifact, and nothing may be written there')


def read_as_log(name, read):
    """What `read` makes of the text of a log."""
    with open(name, "rb") as it:
        if it.peek(len(COMPACT)).startswith(COMPACT):
            raise Refused("this is a compact log: give the file of --execution_log_json_file")
        try:
            with io.TextIOWrapper(it, encoding="utf-8") as text:
                return read(text)
        except UnicodeDecodeError:
            raise Refused("this is no text: give the file of --execution_log_json_file, not of a binary log") from None


@contextlib.contextmanager
def named(log):
    """Names the log that is refused."""
    try:
        yield
    except Refused as fault:
        raise Refused(f'"{log}": {fault}') from None


def tell(notes):
    """Tells what is worth knowing and no reason to refuse."""
    for it in notes[:MOST_NOTES]:
        command_line.complain(f"note: {command_line.on_one_line(it)}")
    if len(notes) > MOST_NOTES:
        command_line.complain(f"note: there are {len(notes) - MOST_NOTES} more differences")


def make(options, held):
    """Makes the plans of the log, where nothing of it is refused, and no store that is held has other results."""
    asked = Asked.by(options)
    with named(options.log):
        steps = read_as_log(options.log, lambda text: steps_of(text, asked))
        uncached = [it for it in steps.spawns if not it.is_cacheable]
        notes = [f"{it.place()} isn't to be cached, as by the tag no-cache or local: that is a no" for it in uncached]
        if asked.artifact is not None:
            notes += steps.chosen.differences(asked.artifact)
        if options.refuse_cached:
            check_ran(steps)
        if options.outputs_on_disk is not None:
            Disk(options.outputs_on_disk).check(steps, asked)
        builds, are_stages = builds_of(steps, options.stages)
        check_sizes(steps.store, {"plan": max((it.plan for it in builds), key=length)})
        for it in held:
            check_store(steps, it)
    if options.against is not None:
        with named(options.against):
            others = read_as_log(options.against, lambda text: spawns_of(text, asked))
        against = Against(steps.spawns, others, options.against)
        notes += against.notes()
        steps.counts.update(against.counts)
    tell(notes)
    return Made(steps, builds, are_stages, builds[0].sources, builds[-1].claim)


def lines_of(options):
    """Does all, and the status and what is printed then."""
    forget_run(options)
    earlier = archives.take_store(options)
    check_places(options)
    with archives.written(options.archive) as out, contextlib.closing(stores.store_of(options, out)) as store:
        made = make(options, [store, *earlier])
        if out:
            write_archive(made, out, store)
        else:
            write(made, options.folder, store)
    counts = {"stages": len(made.builds) if made.are_stages else 0, **made.steps.counts}
    more = "".join(f" {name} {count}" for name, count in counts.items() if count)
    steps = f"steps {len(made.steps.spawns)} taken {len(made.steps.taken)}{more}"
    return 0, f"sources {made.sources.text()}", f"claim {made.claim.text()}", steps


def main(words):
    options = parse(words)
    # (a log makes millions of objects that last to the end, and none of them is in a circle)
    gc.disable()
    status = command_line.status_of(lambda: lines_of(options))
    if status != 0:
        # (as where only its lines couldn't be printed)
        with contextlib.suppress(OSError, Refused):
            forget_run(options)
    return status


if __name__ == "__main__":
    sys.exit(main(sys.argv[1:]))
