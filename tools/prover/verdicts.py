"""The verdicts that are kept on a machine: of each mistake that the prover refused, under a checksum of all that this rests on.

That is the kit; the text of the crate and of each crate below it; what the mistake turns; and the tools that judge it. The whole
text of a crate below counts: the files of its library which a check opens differ where only the body of one of its private
functions does, so they don't part statements from what proves them.

What stands beside a mistake in its check doesn't count. A proof rests on the text of its own function, on the contracts of those
that it calls and on what stands outside all bodies, and a mistake that turns more than bodies, or a body in a cycle of calls
that another turns, isn't checked beside others (judging.py).
"""

import contextlib
import os
import re
import stat
import tempfile
import time

from text_checksums import sum_of, sum_of_files

TOOLS = os.path.dirname(os.path.realpath(__file__))
# The files by which a verdict comes.
JUDGES = ("judging.py", "mistakes.py", "prover.py", "../shared/crates.py", "text_checksums.py", "verdicts.py")
# So many seconds after it was last taken over, a kept verdict goes.
OLDEST = 90 * 24 * 3600


def home():
    """The folder of the kept verdicts, beside what else is kept for a user of this machine."""
    return os.path.join(os.environ.get("XDG_CACHE_HOME") or os.path.expanduser("~/.cache"), "buildcache-gate")


class Verdicts:
    """The mistakes that were refused on this machine. Where it may not be kept or read, each is judged."""

    def __init__(self, folder=None, anew=False):
        self.folder, self.anew, self.note = folder or home(), anew, None
        try:
            os.makedirs(self.folder, mode=0o700, exist_ok=True)
            seen = os.stat(self.folder)
            if seen.st_uid != os.geteuid() or seen.st_mode & (stat.S_IWGRP | stat.S_IWOTH):
                self.note = f"{self.folder} isn't this user's alone"
        except OSError as fault:
            self.note = f"{self.folder}: {fault.strerror}"

    def key(self, text, mistake):
        """The checksum of all that the verdict on a mistake rests on, where `text` is the sum of what its check reads."""
        turned = sum_of(*(part for pair in mistake.pairs for part in pair))
        return sum_of(text, sum_of_files(TOOLS, JUDGES), turned, *mistake.refused_in)

    def line(self, key, mistake):
        return f"{key} {mistake} is refused\n"

    def has(self, key, mistake):
        """Whether this mistake is kept as refused; a file that says anything else is as none."""
        if self.note or self.anew:
            return False
        try:
            with open(f"{self.folder}/{key}", encoding="utf-8", errors="replace") as it:
                is_kept = it.read(1000) == self.line(key, mistake)
            if is_kept:
                os.utime(f"{self.folder}/{key}")
            return is_kept
        except OSError:
            return False

    def keep(self, key, mistake):
        """Keeps that a mistake was refused: all of the file stands there, or nothing of it."""
        if self.note:
            return
        try:
            with tempfile.NamedTemporaryFile("w", dir=self.folder, prefix=".", delete=False, encoding="utf-8") as it:
                it.write(self.line(key, mistake))
            os.replace(it.name, f"{self.folder}/{key}")
        except OSError as fault:
            self.note = f"{self.folder}: {fault.strerror}"

    def drop_oldest(self):
        """Drops what no run took over for long, and what a run left that was broken off."""
        if self.note:
            return
        for it in os.scandir(self.folder):
            # (another run may drop it as well)
            with contextlib.suppress(OSError):
                if re.fullmatch(r"[0-9a-f]{64}|\..*", it.name) and it.stat().st_mtime < time.time() - OLDEST:
                    os.remove(it.path)
