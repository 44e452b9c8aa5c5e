"""The outputs of the recorded build on disk, compared with what its log says of them. Bazel 4.2.3 logs an output directory only
up to a link to a folder in it, and not what rules write without a command. The rules are those of tools/evidence/README.md."""

import os
import re

from bazel_artifact import digest_of_file
from bazel_taken import why_unmade
from plans import as_utf8, files_at, folders_of
from shared.command_line import Refused
from shared.messages import Link

FILE, EMPTY_FOLDER, LOOP, NEITHER = "file", "empty folder", "link to a folder above it", "neither file nor folder"


class Disk:
    """A folder that has `bazel-out`: an execution root, or a workspace."""

    def __init__(self, folder):
        self.folder = os.fsencode(folder)

    def place(self, path):
        return self.folder + b"/" + path.encode(errors="surrogateescape")

    def files_below(self, path, above=()):
        """What ends the ways below a folder, through links too: each file or empty folder by its path, and which it is."""
        real = os.path.realpath(self.place(path))
        if real in above:
            yield path, LOOP
            return
        names = sorted(as_utf8(it) for it in os.listdir(self.place(path)))
        if not names:
            yield path, EMPTY_FOLDER
        for below in (f"{path}/{name}" for name in names):
            if os.path.isdir(self.place(below)):
                yield from self.files_below(below, (*above, real))
            else:
                yield below, FILE if os.path.isfile(self.place(below)) else NEITHER

    def link_to_folder(self, path):
        """The first link to a folder below a folder, or none."""
        for above, folders, _ in os.walk(self.place(path)):
            found = next((it for it in sorted(folders) if os.path.islink(os.path.join(above, it))), None)
            if found:
                return as_utf8(os.path.join(above, found)[len(self.folder) + 1:])
        return None

    def check(self, steps, asked):
        """Refuses outputs of steps that aren't on the disk as the log has them, and what has a pattern on the disk alone."""
        whole = {path for path, _, _ in steps.chosen.outputs.values()}
        for spawn in steps.spawns:
            for path, entry in spawn.outputs.items():
                if isinstance(entry, dict):
                    self.check_names(spawn, path, {it for it, _ in files_at(path, entry)}, path in whole)
                for it, file in files_at(path, entry):
                    self.check_file(spawn, it, file)
        if asked.outputs:
            self.check_patterns(steps.chosen, asked)

    def check_names(self, spawn, path, logged, is_shipped):
        """Refuses an output directory that has other files than the log."""
        if not os.path.isdir(self.place(path)):
            spawn.refuse(f'it made the folder "{path}", and on the disk there is none')
        for it, kind in self.files_below(path):
            if it not in logged and (kind != EMPTY_FOLDER or is_shipped):
                link = self.link_to_folder(path)
                logged_so = "and Bazel 4.2.3 logs only what comes before it: make it a folder"
                why = f': "{link}" is a link to a folder, {logged_so}' if link else ""
                spawn.refuse(f'on the disk its output has "{it}" ({kind}), which the log lacks{why}')

    def check_file(self, spawn, path, file):
        """Refuses a file or a link that the log has otherwise."""
        place = self.place(path)
        if isinstance(file, Link):
            if not os.path.islink(place) or as_utf8(os.readlink(place)) != file.target:
                spawn.refuse(f'it made "{path}", a link to "{file.target}", and on the disk there is no such link')
        elif not os.path.isfile(place):
            spawn.refuse(f'it made the file "{path}", and on the disk there is none')
        elif (found := digest_of_file(place)) != file.digest:
            spawn.refuse(f'it made "{path}" with the digest {file.digest.text()}, and on the disk it has {found.text()}')

    def check_patterns(self, chosen, asked):
        """Refuses a file on the disk that has a pattern, by itself or by a folder above it, and that no spawn made. Here too a
        pattern that is literally a path means that path."""
        def is_wanted(path):
            return path in asked.outputs or chosen.patterns.match(path)

        for root in sorted({root_of(it, asked.below) for it in asked.outputs if it not in chosen.patterns.paths}):
            found = self.files_below(root) if os.path.isdir(self.place(root)) else ()
            for path, kind in found:
                if path not in chosen.made and kind != EMPTY_FOLDER and any(map(is_wanted, (path, *folders_of(path)))):
                    why = why_unmade(path, chosen.made)
                    raise Refused(f'"{path}" on the disk has a pattern, and no spawn of the log made it: {why}')


def root_of(pattern, below):
    """The folder below which everything is that has a pattern."""
    root = re.split(r"[*?\[]", pattern)[0].rpartition("/")[0]
    return max(root, below, key=len) or "bazel-out"
