#!/usr/bin/env python3
"""Computes the digest of a build's sources from a checkout that you trust.

    sources_digest.py checkout --expect evidence/sources < evidence/sources.sums

Standard input is the file `sources.sums` that bazel_plan.py writes: the paths of the sources. CHECKOUT is the workspace's folder
in a fresh checkout. Each file is read there and hashed; what the list says of it is only compared. Files of the list that no
checkout has are those of other repositories, below `external/`, which --external reads, and those that Bazel writes below
`bazel-out`. Each has to be read or to have a PATTERN of --as-listed, by which its digest in the list is believed.

The first line is `sources DIGEST`, the second counts the files. The status is 0; 1 where a file isn't as the list has it or the
digest isn't the expected one, and standard error names it; 2 where the command line or the list is at fault; 3 where a file can't
be read.
"""

import os
import re
import sys

import sha256sum_lists
from bazel_artifact import digest_of_file
from bazel_patterns import Patterns
from bazel_stages import SOURCES
from plans import as_utf8, put
from shared import command_line, stores
from shared.command_line import Refused
from shared.messages import Digest, File, directory_message

DIGEST = re.compile("[0-9a-f]{64}/(0|[1-9][0-9]{0,18})")
EXTERNAL = "external/"


def parse(words):
    parser = command_line.Parser("sources_digest.py", __doc__)
    parser.add_argument("checkout", metavar="CHECKOUT", type=command_line.place_of, help="the workspace's folder in a checkout")
    parser.add_argument(
        "--external", metavar="FOLDER", action=command_line.Once, type=command_line.place_of,
        help="the folder with the other repositories, as $(bazel info output_base)/external of a machine that you trust",
    )
    parser.add_argument(
        "--as-listed", metavar="PATTERN", nargs="+", action="extend", default=[],
        help="believe the list for the files that aren't of the checkout and have a PATTERN",
    )
    parser.add_argument(
        "--expect", metavar="DIGEST|FILE", action=command_line.Once, type=command_line.place_of,
        help="the digest that it has to be, or a file with it, as evidence/sources",
    )
    return parser.parse_args(words)


def expected(text):
    """The digest that is expected, by itself or in a file."""
    if DIGEST.fullmatch(text):
        return text
    told = stores.read_file(text).decode(errors="replace").removesuffix("\n")
    if not DIGEST.fullmatch(told):
        raise Refused(f'"{text}" is no digest, HASH/SIZE, and no file that has one')
    return told


def place_of(it, options):
    """Where a file of the list is on this disk, or nothing."""
    path = os.fsencode(it.path)
    if it.digest is None:
        return os.path.join(os.fsencode(options.checkout), path)
    if options.external is not None and it.path.startswith(EXTERNAL):
        return os.path.join(os.fsencode(options.external), path[len(EXTERNAL):])
    return None


class Sources:
    """The tree of the sources, as far as its files were read or believed."""

    def __init__(self, listed, options):
        self.options, self.tree, self.notes = options, {}, []
        self.read, self.believed = 0, 0
        others = {it.path for it in listed.values() if it.digest or it.link}
        self.patterns = Patterns(options.as_listed, others)
        unused = self.patterns.unused(others)
        if unused is not None:
            raise Refused(f'no file of the list that isn\'t of the checkout has the pattern "{unused}"')
        for it in listed.values():
            if not put(self.tree, it.path, self.entry(it)):
                raise Refused(f'"{it.path}" of the list lies under or above another file')

    def entry(self, it):
        """The file or link of a line."""
        if (it.digest or it.link) and self.patterns.match(it.path):
            self.believed += 1
            return it.link or File(it.digest)
        place = place_of(it, self.options)
        if it.link:
            return self.entry_of_link(it)
        if place is None:
            way = "--external names the folder of other repositories" if it.path.startswith(EXTERNAL) else "no checkout has it"
            raise Refused(f'"{it.path}" is none of the checkout: {way}; --as-listed believes the list')
        if not os.path.isfile(place):
            raise Refused(f'"{it.path}" isn\'t there as a file, "{as_utf8(place)}"')
        self.read += 1
        digest = digest_of_file(place)
        told = it.hash or it.digest.hash
        if digest.hash != told:
            self.notes.append(f'"{it.path}" has the hash {digest.hash} here, and {told} in the list')
        return File(digest)

    def entry_of_link(self, it):
        """A link, which has to be in the checkout with the same target."""
        place = os.path.join(os.fsencode(self.options.checkout), os.fsencode(it.path))
        if not os.path.islink(place) or as_utf8(os.readlink(place)) != it.link.target:
            raise Refused(f'"{it.path}" is no link to "{it.link.target}" in the checkout; --as-listed believes the list')
        self.read += 1
        return it.link


def lines_of(options):
    """The status and what is printed."""
    wanted = expected(options.expect) if options.expect is not None else None
    if not os.path.isdir(options.checkout):
        raise Refused(f'"{options.checkout}" is no folder')
    try:
        listed = sha256sum_lists.read_sums(sys.stdin.buffer.read())
        sources = Sources(listed, options)
    except Refused as fault:
        raise Refused(f"the list: {fault}") from None
    digest = Digest.of(directory_message(sources.tree))
    # (a build in stages has these sources in a folder of its own)
    staged = Digest.of(directory_message({SOURCES: digest}))
    if wanted not in (None, digest.text(), staged.text()):
        sources.notes.append(f"the sources are {digest.text()}, and {wanted} is expected")
    for it in sources.notes:
        command_line.complain(f"note: {command_line.on_one_line(it)}")
    return int(bool(sources.notes)), f"sources {digest.text()}", f"read {sources.read} as-listed {sources.believed}"


def main(words):
    options = parse(words)
    return command_line.status_of(lambda: lines_of(options))


if __name__ == "__main__":
    sys.exit(main(sys.argv[1:]))
