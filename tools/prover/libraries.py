#!/usr/bin/env python3
"""Tells of which text the libraries are built that `rt ci` leaves, for .ci/run: libraries.py forget, libraries.py mark SUM

The mistakes are judged over these libraries (try_edits.py), and only over those that are built of the text that stands here.
`rt ci` builds each anew, and then puts back what lay there before it: so `forget`, before it, removes the libraries unless all
are built of this text, and prints a checksum of the text. `mark`, after it, says beside each library that it was built of this
text, if the text still has that checksum; else no mistake is judged.
"""

import os
import shutil
import sys

from prover import Workspace
from shared.command_line import fail, words_of
from text_checksums import sum_of, sum_of_text


def forget(workspace, libraries):
    if not all(map(workspace.is_built, libraries)):
        for it in libraries:
            shutil.rmtree(os.path.dirname(workspace.rlib(it)), ignore_errors=True)


def mark(workspace, libraries):
    for it in libraries:
        workspace.set_mark(it)


def main(words):
    if len(words) != (2 if words[0] == "mark" else 1) or words[0] not in ("forget", "mark"):
        fail(2, "libraries.py takes the word forget, or mark and a checksum")
    workspace = Workspace()
    libraries = [it for it in workspace.uses if not os.path.isfile(f"{workspace.top}/crates/{it}/src/main.rt")]
    text = sum_of(*(sum_of_text(workspace, it) for it in workspace.uses))
    if words[0] == "forget":
        forget(workspace, libraries)
        print(text)
    elif words[1] == text:
        mark(workspace, libraries)
    else:
        fail(3, "the crates' text was changed during `rt ci`, so no mistake is judged over its libraries")
    return 0


if __name__ == "__main__":
    sys.exit(main(words_of(__doc__, 1, 2)))
