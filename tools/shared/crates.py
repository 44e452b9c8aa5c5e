"""Where the repository is, where its program is built, and its crates by crates.txt."""

import os

TOP = os.path.dirname(os.path.dirname(os.path.dirname(os.path.realpath(__file__))))
BUILT = os.path.join(TOP, "crates", "buildcache", "out", "buildcache")


def crates_of(top=TOP):
    """The repository's crates in the order of crates.txt, each with the libraries that its line names."""
    with open(f"{top}/crates.txt", encoding="utf-8") as it:
        lines = [line.partition("#")[0].partition(":") for line in it]
    return {head.split()[0]: names.split() for head, _, names in lines if head.split()}
