"""What the artifact of a build has: which outputs of the log, and the folder on disk that is shipped. The rules are those of
tools/evidence/README.md."""

import hashlib
import re
import stat
from dataclasses import dataclass

from bazel_patterns import Patterns
from bazel_taken import HINT, why_unmade
from plans import entries_of, files_at, folders_of, is_path, is_target, target_of
from shared.command_line import Refused
from shared.messages import Digest, File, Link


# Which outputs.


@dataclass
class Chosen:
    """What the artifact has: by its path there the output's path, its spawn and its entry. `made` are the paths of all outputs, and
    of the files in output directories."""

    outputs: dict
    patterns: Patterns
    made: set

    @classmethod
    def of(cls, outputs, listing, asked):
        """Chooses of the outputs, by their paths their spawns and entries; `listing` are those that spawns list."""
        everything = dict(outputs)
        for path, (spawn, entry) in outputs.items():
            if isinstance(entry, dict):
                everything.update((it, (spawn, file)) for it, file in files_at(path, entry))
        patterns = Patterns(asked.outputs, everything.keys() | listing.keys())
        refuse_unmade(outputs, listing, patterns)
        paths = chosen_paths(outputs, everything, patterns, asked)
        below = asked.below
        chosen = {path[len(below) + 1 if below else 0:]: (path, *everything[path]) for path in paths}
        for target in sorted(chosen):
            above = next((it for it in folders_of(target) if it in chosen), None)
            if above:
                raise Refused(f'"{target}" of the artifact lies under "{above}", another output')
        return cls(chosen, patterns, everything.keys())

    def files(self):
        """The files and links by their paths in the artifact, each with its spawn."""
        return {it: (file, spawn) for target, (_, spawn, entry) in self.outputs.items() for it, file in files_at(target, entry)}

    def differences(self, artifact):
        """How a folder differs from what was made, a line for each file or link of either: which, how, and what made it."""
        made = self.files()
        shipped = dict(it for name in artifact for it in files_at(name, artifact[name]))
        if made.keys().isdisjoint(shipped):
            raise Refused(
                f'no path of the artifact is one of the outputs: it has "{min(shipped)}", and of the outputs there would be '
                f'"{min(made)}"; --below names the folder that is the top of the artifact'
            )
        lines = []
        for path in sorted(made.keys() | shipped.keys()):
            (logged, spawn), found = made.get(path, (None, None)), shipped.get(path)
            how = difference(path, logged, found, made, shipped)
            if how:
                lines.append(f'"{path}" of the artifact {how}' + (f"; {spawn.place()} made it" if spawn else ""))
        return lines


def difference(path, logged, found, made, shipped):
    """How a file or link of the artifact differs from that of the log, or nothing; `made` and `shipped` have all of both."""
    if isinstance(found, Link) and found != logged:
        is_folder = any(it.startswith(f"{path}/") for it in made)
        has = "a folder" if is_folder else "a file" if isinstance(logged, File) else "another link" if logged else "nothing"
        return f'is a link to "{found.target}", and the log has {has} there: copy with `cp -rL` into an empty place'
    if logged is None:
        return "was added: the log has no such file"
    if found is None:
        above = next((it for it in folders_of(path) if it in shipped), None)
        return f'isn\'t there: "{above}" is in its place' if above else "is missing"
    if isinstance(logged, Link):
        return None if found == logged else f'is a file, and the log has a link to "{logged.target}"'
    if found.digest != logged.digest:
        return f"has the digest {found.digest.text()}, and the log {logged.digest.text()}"
    return None if found.is_executable else "may not be executed, as an output of Bazel may"


def chosen_paths(outputs, everything, patterns, asked):
    """The paths of the outputs, and of files in output directories, that the artifact has."""
    below, artifact = asked.below, asked.artifact
    if asked.outputs:
        paths = paths_of_patterns(outputs, everything, patterns)
    elif artifact is not None:
        paths = [path for name in artifact for path, _ in files_at(f"{below}/{name}" if below else name, artifact[name])]
        missing = next((path for path in paths if path not in everything), None)
        if missing:
            why = hint_of_links(missing, everything) or f": {why_unmade(missing, everything)}"
            raise Refused(f'the artifact has a file that is "{missing}" in the build, and no spawn of the log made it{why}')
    else:
        paths = [path for path in outputs if not below or path.startswith(f"{below}/")]
    if not paths:
        raise Refused(f"no output of the log is in the artifact; {why_none(outputs, below)}{hint_of_links(below, outputs)}")
    outside = next((path for path in paths if below and not path.startswith(f"{below}/")), None)
    if outside:
        raise Refused(f'the output "{outside}" doesn\'t lie below "{below}"{hint_of_links(below, outputs)}')
    return paths


def lacking(outputs, chosen, below):
    """How many files were made below the folder that is the artifact's top, and aren't chosen; 0 where no folder is named."""
    has = {path for path, _, _ in chosen.values()}
    files = [file for path, (_, entry) in outputs.items() for file, _ in files_at(path, entry)]
    return sum(bool(below) and it.startswith(f"{below}/") and it not in has for it in files)


def why_none(outputs, below):
    """What to look at where nothing is in the artifact."""
    if not outputs:
        return HINT
    folders = sorted({path.rpartition("/")[0] for path in outputs})
    return f'below "{below}" it has none, but below "{folders[0]}"' + f" and {len(folders) - 1} others" * (len(folders) > 1)


def refuse_unmade(outputs, listing, patterns):
    """Refuses an output with a pattern that was listed and not made: the artifact would be without it. Only a test may leave some
    of its outputs unmade."""
    for path, spawn in listing.items():
        if path not in outputs and spawn.mnemonic != "TestRunner" and patterns.match(path):
            spawn.refuse(f'it lists "{path}", which has a pattern and, by the log, wasn\'t made, or is an empty directory')


def paths_of_patterns(outputs, everything, patterns):
    """The outputs with a pattern, and the files with one in an output directory that has none itself."""
    unused = patterns.unused(everything)
    if unused is not None:
        raise Refused(f'no output of the log has the pattern "{unused}"{hint_of_links(unused, everything)}')
    covered = {path for path, (_, entry) in outputs.items() if isinstance(entry, dict) and patterns.match(path)}
    return [path for path in everything if patterns.match(path) and not any(it in covered for it in folders_of(path))]


def hint_of_links(pattern, paths):
    """How outputs are called that someone calls by a link of the workspace, or nothing."""
    found = re.fullmatch("bazel-(bin|genfiles|testlogs)(/.*)?", pattern)
    roots = sorted({it[0] for it in map(re.compile(f"bazel-out/[^/]+/{found[1]}/").match, paths) if it}) if found else []
    return f'; outputs have the paths of the execution root, as "{roots[-1]}{pattern.partition("/")[2]}"' if roots else ""


# The folder that is shipped.


def read_artifact(folder, shown=""):
    """A folder on disk as a dictionary: each file with its bit of the owner to run it, each link by its target."""
    entries = {}
    for name, it in entries_of(folder):
        path = f"{shown}{name}"
        if not is_path(path):
            raise Refused(f"the artifact has {path!r}, which is no UTF-8, or too long or too deep for a plan")
        if it.is_symlink():
            entries[name] = Link(target_of(it))
            if not is_target(entries[name].target):
                raise Refused(f'"{path}" of the artifact is a link whose target has no UTF-8, or over 4,096 bytes')
        elif it.is_dir():
            entries[name] = read_artifact(it.path, f"{path}/")
        elif it.is_file():
            mode = it.stat().st_mode
            if mode & (stat.S_ISUID | stat.S_ISGID):
                why = "is run as its owner or its group (setuid, setgid), which a plan can't say"
                raise Refused(f'"{path}" of the artifact {why}')
            entries[name] = File(digest_of_file(it.path), bool(mode & stat.S_IXUSR))
        else:
            raise Refused(f'"{path}" of the artifact is no file, folder or link')
    if not entries:
        raise Refused(f'the folder "{shown or folder}" of the artifact is empty, and the log has no empty directories')
    return entries


def digest_of_file(path):
    hashing, size = hashlib.sha256(), 0
    with open(path, "rb") as it:
        while piece := it.read(1 << 20):
            hashing.update(piece)
            size += len(piece)
    return Digest(hashing.hexdigest(), size)
