"""What tells a program of which nothing is proved, as tools/preview.sh compiles it."""

import os
import shutil

from shared.crates import BUILT, TOP

# The variable that lets each program pass, and its value.
VARIABLE, ALLOWED = "BUILDCACHE_UNPROVED", "rows"
# What the preview ends with (tools/preview.sh writes it there), and what any program with an address sanitizer has.
MARKS = (b"buildcache preview: nothing is proved of this program", b"AddressSanitizer")
# What a script names that runs the preview.
NAMED = (b"preview.sh", b"out/preview")
LAUNCHER = os.path.join(TOP, "buildcache")


def is_same(path, other):
    return os.path.exists(path) and os.path.exists(other) and os.path.samefile(path, other)


def why_not(program):
    """Why the verdicts of a program are none, or nothing. Of one that isn't there others tell."""
    if os.environ.get(VARIABLE) == ALLOWED:
        return None
    path = shutil.which(program)
    for it in [path, BUILT] if path and is_same(path, LAUNCHER) else [path]:
        if it is None or not os.path.exists(it):
            continue
        try:
            with open(it, "rb") as file:
                content = file.read()
        except OSError as fault:
            return f'"{it}" can\'t be read ({fault.strerror}), so whether it is proved isn\'t known'
        if any(mark in content for mark in MARKS) or content.startswith(b"#!") and any(name in content for name in NAMED):
            return (f'"{it}" is the preview, or runs it: nothing is proved of that, so its yes is worth nothing; '
                    "name the program that tools/build.sh builds, or none")
    return None
