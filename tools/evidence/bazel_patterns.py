"""Shell patterns over the paths of a log: *, ? and [..] as in a shell, and * matches / too. A pattern that is literally one of
the paths means that path alone."""

import fnmatch
import re


class Patterns:
    """Some patterns, and the paths of which each may be one."""

    def __init__(self, texts, paths):
        self.paths = {it for it in texts if it in paths}
        self.others = [(it, re.compile(fnmatch.translate(it)).match) for it in texts if it not in paths]

    def match(self, path):
        return path in self.paths or any(match(path) for _, match in self.others)

    def unused(self, paths):
        """The first pattern that none of these paths has, or none."""
        literal = sorted(self.paths - set(paths))
        return next((it for it, match in self.others if not any(map(match, paths))), literal[0] if literal else None)
