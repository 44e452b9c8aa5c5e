#!/usr/bin/env python3
"""Judges evidence by `buildcache verify`, and writes the verdict as other programs read it.

    judge.py evidence --artifact shipped --summary verdict.md --attest verdict.intoto.json --cone no.svg

EVIDENCE is a folder or an archive as bazel_plan.py writes it, also in stages. The program's line, note and status are passed on:
0 yes, 1 no, 2 a file is at fault, 3 no verdict. With 2 and 3 none of the files is written, and what an earlier run wrote there
is removed first. A file is put whole into its place.

--json prints one object in place of the line, with these names; what isn't known, or isn't of this verdict, is null:

    verdict line stage place step cause number path digest exit_code
    made_by        who made what stands at the path, by the plan: each a step, without one the sources, and the path there
    differs        of root-differs the first 100 files that aren't what the build ends in: path and made_by, each as above
    claim sources steps stages
    taken          the paths that no step made and that are believed; from_cache: the steps that came from a cache
    version        of the program

--attest writes an in-toto Statement v1 with SLSA's verification summary v1, which isn't signed. Its subjects are the files of
--artifact, or those that artifact.sums in the evidence lists: of a yes these have to be the files of the claim. A link is no
subject.

The program is the one that --program or the variable BUILDCACHE names, else ./buildcache of this repository. One of which nothing
is proved, as tools/preview.sh compiles it, is refused (tools/evidence/unproved.py).
"""

import argparse
import contextlib
import json
import os
import sys

import archives
import attestations
import cones
import summaries
from judged import WHOLE, Evidence, Judged, Program
from shared import command_line, stores
from shared.command_line import NotAnswered, Refused
from verify_stages import evidence_hash, program_of

FILES = ("attest", "summary", "cone")


# What is written.


def wanted(options):
    """The files that are asked for, each with what it is to have."""
    return [(getattr(options, it), it) for it in FILES if getattr(options, it) is not None]


def text_of(judged, path, what):
    """The text of a file that is asked for; nothing, where there is none."""
    if what == "attest":
        return attestations.text_of(judged)
    if what == "summary":
        return summaries.text_of(judged)
    return None if judged.verdict.is_yes else cones.text_of(judged, path)


def check_places(options):
    """Refuses to write over what is judged, over what is no file, and two texts into one place."""
    judged = [os.path.realpath(it) for it in (options.folder, options.artifact) if it is not None]
    places = []
    for path, what in wanted(options):
        place = os.path.realpath(path)
        if place in places:
            raise Refused(f'"{path}" is named twice: each of --attest, --summary and --cone has a file of its own')
        if any(os.path.commonpath([place, it]) == it for it in judged):
            raise Refused(f'"{path}" lies in what is judged: name a file elsewhere')
        if os.path.islink(path) or (os.path.lexists(path) and not os.path.isfile(path)):
            raise Refused(f'"{path}" is there, and no file: name a new one')
        if not os.path.isdir(os.path.dirname(place)):
            raise NotAnswered(f'"{path}" can\'t be written: its folder isn\'t there')
        if what == "cone":
            cones.check_format(path)
        places.append(place)


def write_all(texts):
    """Writes each file beside its place, and then puts all into their places."""
    made = {path: f"{path}.new{os.getpid()}" for path in texts}
    try:
        for path, new in made.items():
            stores.write_file(new, texts[path].encode())
        for path, new in made.items():
            os.replace(new, path)
    finally:
        for new in made.values():
            stores.forget(new)


# The command line.


def picture_of(text):
    if os.path.splitext(text)[1] not in (".dot", ".svg"):
        raise argparse.ArgumentTypeError(f"{text!r} ends neither in .dot nor in .svg")
    return text


def parse(words):
    parser = command_line.Parser("judge.py", __doc__)
    parser.add_argument(
        "folder", metavar="EVIDENCE", type=command_line.place_of, help="the folder or the archive that bazel_plan.py wrote"
    )
    stores.add_server(parser, "a cache over HTTP for blobs, at /cas/HASH; results are those of EVIDENCE")
    add_claim(parser)
    parser.add_argument("--json", action="store_true", help="print the verdict as one object of JSON, on one line")
    parser.add_argument(
        "--attest", metavar="FILE", action=command_line.Once, type=command_line.place_of,
        help="write an in-toto Statement of the verdict (SLSA's verification summary), unsigned",
    )
    parser.add_argument(
        "--summary", metavar="FILE", action=command_line.Once, type=command_line.place_of,
        help="write ten lines of Markdown: the verdict, the files, who made them, what was taken, what to do now",
    )
    parser.add_argument(
        "--cone", metavar="FILE", action=command_line.Once, type=picture_of,
        help="write which step fails, what made that which differs, and what follows: FILE.dot as text for graphviz, or "
        "FILE.svg as graphviz draws it; of a yes there is none",
    )
    return parser.parse_args(words)


def add_claim(parser):
    """The options that say what is claimed, and who judges it."""
    parser.add_argument(
        "--artifact", metavar="SHIPPED", action=command_line.Once, type=command_line.place_of,
        help="claim the tree of this folder on disk, in place of the claim in EVIDENCE",
    )
    parser.add_argument(
        "--evidence", metavar="HASH", type=evidence_hash, action=command_line.Once,
        help="what `verify_stages.py --digest` printed where EVIDENCE was written; other evidence is refused",
    )
    parser.add_argument(
        "--program", metavar="PROGRAM", action=command_line.Once, type=command_line.place_of,
        help="the program buildcache; by default the one that BUILDCACHE names, else this repository's ./buildcache",
    )
    parser.add_argument(
        "--jobs", metavar="J", type=command_line.number_to(64), default=1, action=command_line.Once,
        help="stages verified at once, 1 to 64 (default 1)",
    )


def judged_of(options, evidence):
    """The status, the line that is printed, and by each file that is asked for its text."""
    program = Program.at(program_of(options.program))
    sums = evidence.sums(evidence.lists)
    if options.evidence not in (None, sums[WHOLE]):
        raise Refused(f'"{options.folder}" is other evidence, {sums[WHOLE]}')
    verdict = evidence.verdict(program.path)
    told, texts = verdict.line, {}
    if options.json or wanted(options):
        judged = Judged(verdict, evidence, program, sums)
        told = json.dumps(judged.facts(), separators=(",", ":")) if options.json else told
        texts = {path: text_of(judged, path, what) for path, what in wanted(options)}
    if evidence.sums(evidence.read_lists()) != sums or program.is_changed():
        raise Refused(f'"{options.folder}" or the program was changed while it was judged: call this again')
    return verdict.status(), told, {path: text for path, text in texts.items() if text is not None}


def lines_of(options, places):
    """The status and the line. The files are there before it is printed; `places` is told which may be removed."""
    check_places(options)
    places += (path for path, _ in wanted(options))
    forget(places)
    has_blobs = archives.are_stages(options.folder) and options.server is None
    with archives.as_folder(options.folder, has_blobs) as folder, contextlib.closing(Evidence(options, folder)) as evidence:
        status, told, texts = judged_of(options, evidence)
    write_all(texts)
    return status, told


def forget(places):
    for it in places:
        stores.forget(it)


def main(words):
    options, places = parse(words), []
    status = command_line.status_of(lambda: lines_of(options, places))
    if status > 1:
        # (as where only its line couldn't be printed)
        with contextlib.suppress(OSError):
            forget(places)
    return status


if __name__ == "__main__":
    sys.exit(main(sys.argv[1:]))
