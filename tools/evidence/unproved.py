#!/usr/bin/env python3
"""Refuses a program of which nothing is proved, so that its yes is taken for none: unproved.py PROGRAM

Refused is what tools/preview.sh compiles, wherever a copy of it lies: it ends with a mark, and has the address sanitizer in it;
and a script that names it. For ./buildcache it is the program that this runs. Another script or program that runs it isn't known.
The status is 0 where PROGRAM isn't refused, else 3, with a line of an error. With BUILDCACHE_UNPROVED=rows, which rows and tests
set, nothing is refused: they try what the program answers, and nobody takes their verdict for one.
"""

from shared.command_line import fail, words_of
from shared.previews import why_not


def main():
    words = words_of(__doc__, 1, 1)
    why = why_not(words[0])
    if why:
        fail(3, why)


if __name__ == "__main__":
    main()
