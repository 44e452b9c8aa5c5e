"""Lists of files and their hashes, in the form of `sha256sum`. What `sha256sum -c` can't look up in a checkout stands in lines of
comment, which it passes over:

    # file HASH/SIZE PATH        a file that isn't of the checkout
    # link TARGET PATH           a link

Here TARGET and PATH are escaped as in a plan."""

import re
from typing import NamedTuple

from plans import escaped, is_path, is_target, unescaped
from shared.command_line import Refused
from shared.messages import Digest, Link

ESCAPES = {"\\": "\\\\", "\n": "\\n", "\r": "\\r"}
MEANT = {escape[1]: it for it, escape in ESCAPES.items()}


class Sum(NamedTuple):
    """A line: a path with a hash; in a comment with a digest or a link."""

    path: str
    hash: str = None
    digest: Digest = None
    link: Link = None

    def line(self):
        if self.link:
            return f"# link {escaped(self.link.target)} {escaped(self.path)}"
        if self.digest:
            return f"# file {self.digest.text()} {escaped(self.path)}"
        # (`-` alone is standard input for sha256sum)
        name = "./-" if self.path == "-" else self.path
        shown = re.sub(r"[\\\n\r]", lambda it: ESCAPES[it[0]], name)
        return f"{'' if shown == name else chr(92)}{self.hash}  {shown}"


def sums_of(files, is_of_checkout=lambda path: True):
    """The lines of files and links by their paths."""
    for path, entry in sorted(files.items()):
        if isinstance(entry, Link):
            yield Sum(path, link=entry).line()
        elif is_of_checkout(path):
            yield Sum(path, hash=entry.digest.hash).line()
        else:
            yield Sum(path, digest=entry.digest).line()


def read_sum(line):
    """The line of a file, or nothing, where it is none."""
    if found := re.fullmatch("# file ([0-9a-f]{64})/(0|[1-9][0-9]{0,18}) ([^ ]+)", line):
        return Sum(unescaped(found[3]), digest=Digest(found[1], int(found[2])))
    if found := re.fullmatch("# link ([^ ]+) ([^ ]+)", line):
        return Sum(unescaped(found[2]), link=Link(unescaped(found[1])))
    if found := re.fullmatch(r"(\\?)([0-9a-f]{64}) [ *](.+)", line, re.DOTALL):
        name = found[3]
        if found[1] and re.fullmatch(r"(?:[^\\]|\\[\\nr])*", name, re.DOTALL):
            name = re.sub(r"\\(.)", lambda it: MEANT[it[1]], name)
        elif found[1]:
            return None
        return Sum(name.removeprefix("./"), hash=found[2])
    return None


def read_sums(content):
    """The lines of a list, by their paths."""
    sums = {}
    try:
        lines = content.decode().split("\n")
    except UnicodeDecodeError:
        raise Refused("it is no UTF-8") from None
    if lines.pop():
        raise Refused("its last line is cut off")
    for number, line in enumerate(lines, 1):
        it = read_sum(line)
        if it is None or not is_path(it.path) or (it.link and not is_target(it.link.target)):
            raise Refused(f"line {number} is no line of sha256sum, and no comment that bazel_plan.py writes")
        if sums.setdefault(it.path, it) != it:
            raise Refused(f'line {number}: "{it.path}" stands there twice, and not the same')
    return sums
