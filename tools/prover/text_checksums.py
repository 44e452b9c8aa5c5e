"""Checksums of what a check of a crate reads."""

import functools
import hashlib
import os

PARTS = ("src", "specs", "proofs")
# What tells one kit from another.
KIT_FILES = ("KIT-ID", "WHAT", "bin/rattle")


def sum_of(*parts):
    """The SHA-256 of some texts, and of where each ends."""
    sum = hashlib.sha256()
    for it in parts:
        it = it if isinstance(it, bytes) else it.encode()
        sum.update(b"%d " % len(it) + it)
    return sum.hexdigest()


def sum_of_files(folder, files):
    """A sum of files by their names in a folder; of one that isn't there, only of its name."""
    parts = []
    for file in files:
        parts.append(file)
        if os.path.isfile(f"{folder}/{file}"):
            with open(f"{folder}/{file}", "rb") as it:
                parts.append(it.read())
    return sum_of(*parts)


@functools.lru_cache(maxsize=None)
def sum_of_kit(kit):
    """A sum of what names the kit, and of its prover."""
    return sum_of_files(kit, KIT_FILES)


def sum_of_crate(top, crate, uses):
    """A sum of a crate's own text, and of the libraries that it uses."""
    files = []
    for part in PARTS:
        for place, _, names in os.walk(f"{top}/crates/{crate}/{part}"):
            files += [os.path.relpath(f"{place}/{it}", f"{top}/crates/{crate}") for it in names]
    return sum_of(crate, *uses, sum_of_files(f"{top}/crates/{crate}", sorted(files)))


def sum_of_text(workspace, crate):
    """A sum of all that a check of the crate reads: the kit, the crate's text, and that of each crate below it."""
    crates = [*workspace.below(crate), crate]
    return sum_of(sum_of_kit(workspace.kit), *(sum_of_crate(workspace.top, it, workspace.uses[it]) for it in crates))
