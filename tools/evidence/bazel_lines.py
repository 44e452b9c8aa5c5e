"""What the lines of a step give it: the files that it reads, and whole directories where it reads all that lies below them. The
rules are those of tools/evidence/README.md."""

from collections import Counter

from plans import MOST_LINES, folders_of


class Given:
    """What steps are given. `sources` has the files and links of the source tree by their paths."""

    def __init__(self, spawns, origins, sources):
        self.origins, self.sources = origins, sources
        # how many files and links lie below a directory, by the spawn that made it, or none, which is the source tree
        self.below = {None: counted(sources)}
        for spawn in spawns:
            folders = {path for path, entry in spawn.outputs.items() if isinstance(entry, dict)}
            if folders:
                self.below[spawn] = below = counted(spawn.made)
                for path in list(below):
                    if not any(it in folders for it in (path, *folders_of(path))):
                        del below[path]

    def lines_of(self, spawn):
        """The paths that lines give a step, in their order, each with the spawn that made what is there, or none, and with the
        path at which that made it."""
        lines, as_made = [], {}
        for path, entry in spawn.inputs.items():
            maker, made_at = self.origins.of(path, spawn), self.origins.made_at(path)
            if made_at == path and maker in self.below and entry == (maker.made if maker else self.sources)[path]:
                as_made.setdefault(maker, []).append(path)
            else:
                lines.append((path, maker, made_at))
        for maker, paths in as_made.items():
            lines += ((path, maker, path) for path in with_wholes(paths, self.below[maker]))
        if len(lines) > MOST_LINES:
            spawn.refuse(f"it has {len(lines)} lines of a plan, and a step has {MOST_LINES} at most")
        return sorted(lines, key=lambda it: (it[0], it[1].number if it[1] else -1))


def counted(paths):
    """How many of these lie below each folder."""
    counts = Counter(path.rpartition("/")[0] for path in paths)
    del counts[""]
    for folder, count in list(counts.items()):
        for above in folders_of(folder):
            counts[above] += count
    return counts


def with_wholes(paths, below):
    """These paths, but in place of those below a folder the folder, where they are all of it, and more than one; of two such
    folders, one above the other, the one above."""
    wholes = {folder for folder, count in counted(paths).items() if count == below.get(folder) and count > 1}
    if not wholes:
        return paths
    return {next((it for it in reversed([*folders_of(path)]) if it in wholes), path) for path in paths}
