"""A verdict by its parts (docs/FORMATS.md, The verdict's line), and what the plans say of it."""

import re
from dataclasses import dataclass

from plans import unescaped
from shared.command_line import NotAnswered

# The causes by their numbers, and what each names.
CAUSES = {
    "blob-missing": (1, "digest"), "blob-wrong": (2, "digest"), "blob-malformed": (3, "digest"), "do-not-cache": (4, None),
    "origin-missing": (5, "path"), "frame-differs": (6, None), "input-unexplained": (7, "path"), "input-absent": (8, "path"),
    "input-differs": (9, "path"), "result-missing": (10, None), "result-malformed": (11, None), "exit-code": (12, "code"),
    "output-unlisted": (13, "path"), "root-differs": (14, "digest"), "input-conflict": (15, "path"),
}
DIGEST = "[0-9a-f]{64}/(?:0|[1-9][0-9]{0,18})"
YES = re.compile(f"yes ({DIGEST})(?: stages ([1-9][0-9]*))? steps ([0-9]+)")
NO = re.compile("no (?:stage ([1-9][0-9]*) )?(?:root|step ([a-z0-9_-]{1,64})) cause ([a-z-]+)(?: ([^ ]+))?")
NAMES = {"digest": DIGEST, "path": r"[A-Za-z0-9._~/%-]+", "code": "-?[0-9]{1,10}"}


def is_cause(cause, told):
    """Whether a cause is one of these, and what it names is of its kind."""
    if cause not in CAUSES:
        return False
    what = CAUSES[cause][1]
    return told is None if what is None else told is not None and re.fullmatch(NAMES[what], told) is not None


@dataclass
class Verdict:
    """A verdict's line and its parts. Of a yes there is no cause; of one plan there is no name of a stage."""

    line: str
    is_yes: bool
    stage: str = None
    step: str = None
    cause: str = None
    told: str = None

    @classmethod
    def of(cls, line, status):
        """Reads a line, which has to be one that FORMATS has, and of this status."""
        if status == 0 and YES.fullmatch(line):
            return cls(line, True)
        found = NO.fullmatch(line) if status == 1 else None
        if not found or not is_cause(found[3], found[4]):
            raise NotAnswered(f"the program's line {line!r} with status {status} is no verdict of docs/FORMATS.md")
        return cls(line, False, *found.groups())

    def status(self):
        return 0 if self.is_yes else 1

    def number(self):
        """The cause's number."""
        return CAUSES[self.cause][0] if self.cause else None

    def named(self, what):
        """The digest, the path or the exit code that the cause names, or nothing."""
        return self.told if self.cause and CAUSES[self.cause][1] == what else None

    def place(self):
        return None if self.is_yes else "step" if self.step else "root"

    def path(self):
        return None if self.named("path") is None else unescaped(self.told)


def makers_of(verdict, plans, stage):
    """What the plans say of who made what stands at the path of a no, whose stage has this number from 0 on."""
    path = verdict.path()
    if path is None or verdict.cause == "input-unexplained":
        return []
    if verdict.cause == "origin-missing":
        return plans.of_origin(stage, verdict.step, path)
    if verdict.cause == "output-unlisted":
        return plans.made(stage, [(verdict.step, path)])
    return plans.origins_at(stage, verdict.step, path)
