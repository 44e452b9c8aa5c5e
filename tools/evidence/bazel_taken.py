"""What a step reads of the folders in which Bazel puts what it makes, though no spawn of the log made it. It may be a false
result that an earlier build left, so it is refused, but for what Bazel writes itself and what --taken names. The rules are those
of tools/evidence/README.md."""

import re

from bazel_patterns import Patterns
from shared.command_line import Refused

HINT = "Bazel logs what it ran, so `bazel clean` comes before the build"
# The folder of the execution root in which all outputs are, and the links of the workspace that lead into it.
OUTPUT_TREES = {"bazel-out", "bazel-bin", "bazel-genfiles", "bazel-testlogs"}
# Where Bazel writes the status of the workspace. No target has an output right below bazel-out.
STATUS_FILES = {"bazel-out/stable-status.txt", "bazel-out/volatile-status.txt"}
# The folder of a configuration, and the path of an output in it.
OUTPUT = re.compile("(bazel-out/[^/]+)/(?:bin|genfiles)/(.+)")
PARAMETERS = re.compile(r"(bazel-out/.+)-[0-9]+\.params")
GENRULE_SCRIPT = re.compile(r"bazel-out/.+\.genrule_script\.sh")
SHELL_SCRIPT = re.compile(r"bazel-out/.+\.run_shell_[0-9]+\.sh")
# The link of a shared library for the program that is linked with it, with the library's path or folder in its name.
LIBRARY_LINK = re.compile("(bazel-out/[^/]+/bin/)_solib_[^/]+/(?:lib([^/]+)|_U[^/]*___U([^/]*)/([^/]+))")
LIBRARY_ESCAPES = {"_U": "_", "_S": "/", "_B": "\\", "_C": ":"}


def is_of_outputs(path):
    """Whether a path leads into the folders in which Bazel puts what it makes, of this workspace or of another."""
    return not OUTPUT_TREES.isdisjoint(path.split("/"))


def is_status(path, spawn):
    """The status of the workspace: what the command of --workspace_status_command printed."""
    return path in STATUS_FILES


def is_parameters(path, spawn):
    """Arguments of the spawn's command, in a file that has the name of its output and that another argument names."""
    found = PARAMETERS.fullmatch(path)
    return bool(found) and found[1] in spawn.listed and any(it.endswith(path) for it in spawn.arguments)


def is_script(path, spawn):
    """The spawn's command, which is too long for an argument: all that the shell is told, in the folder of the package."""
    words = spawn.arguments
    is_of_genrule = GENRULE_SCRIPT.fullmatch(path) and words[1:] == [path]
    is_of_rule = SHELL_SCRIPT.fullmatch(path) and words[1:3] == ["-c", path]
    places = [OUTPUT.fullmatch(it) for it in (path, *spawn.listed)]
    if not (is_of_genrule or is_of_rule) or not all(places):
        return False
    package = places[0][2].rpartition("/")[0]
    return all(it[1] == places[0][1] and it[2].startswith(f"{package}/" if package else "") for it in places)


WRITTEN_BY_BAZEL = (is_status, is_parameters, is_script)


def library_of(path):
    """The output of which the link of a shared library is a copy, or nothing, where this isn't such a link's path."""
    found = LIBRARY_LINK.fullmatch(path)
    if not found:
        return None
    root, whole, folder, name = found.groups()
    text = whole if name is None else folder
    if re.search("_(?![USBC])", text):
        return None
    meant = re.sub("_[USBC]", lambda it: LIBRARY_ESCAPES[it[0]], text)
    return root + (meant if name is None else f"{meant}/{name}" if meant else name)


def check_taken(reads, wanted):
    """Refuses what is read and neither Bazel's own nor named: `reads` are the paths that no spawn made, each with a spawn that
    reads it, and `wanted` the patterns of --taken. The paths that are taken."""
    paths = {path for _, path in reads}
    patterns = Patterns(wanted, paths)
    unused = patterns.unused(paths)
    if unused is not None:
        raise Refused(f'no file that a step reads, and that no spawn made, has the pattern "{unused}" of --taken')
    refused = [it for it in reads if not patterns.match(it[1]) and not any(is_own(it[1], it[0]) for is_own in WRITTEN_BY_BAZEL)]
    if refused:
        spawn, path = refused[0]
        others = len({it for _, it in refused}) - 1
        more = f", nor {others} others" if others else ""
        unmade = f"and no spawn of the log made it{more}"
        spawn.refuse(f'it reads "{path}" of the outputs, {unmade}; {HINT}; --taken names what is believed')
    return paths


def why_unmade(path, made):
    """What may have made an output that no spawn made; `made` are the paths that spawns made."""
    below = path.split("/")[2:]
    others = [it for it in made if it != path and it.split("/")[2:] == below] if path.startswith("bazel-out/") and below else []
    if others:
        return f'"{min(others)}" is of another configuration'
    return (
        f"either it was found built ({HINT}); or a rule writes it without a command (ctx.actions.write), and a release has such "
        "a file by a command that copies it, with --taken for what that reads"
    )
