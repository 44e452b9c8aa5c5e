"""The note of `verify --artifact` after a no of the root: the first path, in the order of names, at which the folder isn't what
every build makes. Releases that are changed in one thing, each in turn, and a model of the note in docs/FORMATS.md: that of the
example in examples/release, from a server, and one with links, executable bits and a directory of the sources, from an archive. `digest` of a large file too."""

import hashlib
import os
import shutil
import stat
import subprocess
import sys

from evidence_forms import archive_of, blob_at, result_at
from shared import harness, stores
from shared.crates import TOP
from shared.messages import Digest, File, Link, action_message, command_message, directory_message, result_message, tree_message

EXAMPLE = f"{TOP}/examples/release"
# The bytes of a large file, of which a slow program has its part, and the KiB in which it is hashed. (A slow one has more.)
LARGE, KIB_OF_DIGEST = 1 << 30, 20_000
CONTENTS = {name: f"{name}\n".encode() for name in ("run", "show", "a", "b", "c", "guide", "list")}
PLAIN, RUN = ({name: File(Digest.of(content), bit) for name, content in CONTENTS.items()} for bit in (False, True))
# What two steps have as `out`, and the sources.
GEN = {"bin": {"run": RUN["run"], "show": RUN["show"]}, "share": {"a": PLAIN["a"], "sub": {"b": PLAIN["b"]}}, "current": Link("share/a")}
ADD = {"share": {"c": PLAIN["c"], "sub": {"again": PLAIN["b"]}}, "notes": Link("share/c")}
SOURCES = {"guide": {"guide": PLAIN["guide"]}, "list": PLAIN["list"]}
RELEASE = {
    "bin": GEN["bin"], "current": GEN["current"], "notes": ADD["notes"], "list": PLAIN["list"], "guide": SOURCES["guide"],
    "share": {"a": PLAIN["a"], "c": PLAIN["c"], "sub": {"b": PLAIN["b"], "again": PLAIN["b"]}},
}


def evidence_of_two():
    """The evidence of steps that merge; it has no Directory of `guide`, at which no check looks."""
    files, plan, record = {}, ["buildplan 2"], ["buildrecord 1"]

    def keep(blob):
        files[blob_at(blob)] = blob
        return Digest.of(blob)

    root = keep(directory_message(SOURCES))
    for name, made in (("gen", GEN), ("add", ADD)):
        command = keep(command_message(["/bin/true", name], ["out"]))
        action = action_message(command, keep(b""))
        plan.append(f"step {name} {Digest.of(action_message(command)).text()}")
        record.append(f"step {name} {keep(action).text()}")
        files[result_at(action)] = result_message({"out": keep(tree_message(made))})
    plan += ["root", "in release out gen out", "in release out add out", "in release/guide src guide", "in release/list src list"]
    claim = Digest.of(directory_message({"release": RELEASE})).text()
    texts = {"sources": root.text(), "claim": claim, "plan": "\n".join(plan) + "\n", "record": "\n".join(record) + "\n"}
    return {**{name: text.encode() for name, text in texts.items()}, **files}


# ---- folders


def write_tree(folder, tree):
    os.mkdir(folder)
    contents = {Digest.of(content): content for content in CONTENTS.values()}
    for name, entry in tree.items():
        place = f"{folder}/{name}"
        if isinstance(entry, dict):
            write_tree(place, entry)
        elif isinstance(entry, Link):
            os.symlink(entry.target, place)
        else:
            stores.write_file(place, contents[entry.digest])
            os.chmod(place, 0o755 if entry.is_executable else 0o644)


def tree_at(folder):
    """The tree of a folder, as names with what each has."""
    tree = {}
    for entry in os.scandir(folder):
        if entry.is_symlink():
            tree[entry.name] = Link(os.readlink(entry.path))
        elif entry.is_dir():
            tree[entry.name] = tree_at(entry.path)
        else:
            tree[entry.name] = File(Digest.of(stores.read_file(entry.path)), bool(os.stat(entry.path).st_mode & stat.S_IXUSR))
    return tree


def changes_of(tree, above=""):
    """What may be changed: of each path below, a name for the change and what does it, given the folder."""
    for name, entry in tree.items():
        path = f"{above}{name}"
        if isinstance(entry, dict):
            yield "a folder is removed", path, shutil.rmtree
            yield "a file is added", f"{path}/0", lambda place: stores.write_file(place, b"new")
            yield "a folder is added", f"{path}/~", os.mkdir
            yield "a link is added", f"{path}/m", lambda place: os.symlink("there", place)
            yield from changes_of(entry, f"{path}/")
            continue
        yield "a file or a link is removed", path, os.remove
        if isinstance(entry, Link):
            yield "a link leads elsewhere", path, lambda place: (os.remove(place), os.symlink('of "b"', place))
            yield "a folder stands for a link", path, lambda place: (os.remove(place), os.mkdir(place))
        else:
            yield "a file has another content", path, lambda place: stores.write_file(place, b"changed")
            yield "a file's bit is turned", path, lambda place: os.chmod(place, os.stat(place).st_mode ^ stat.S_IXUSR)
            yield "a link stands for a file", path, lambda place: (os.remove(place), os.symlink("there", place))


# ---- the model


def first_mismatch(made, there, unknown, above=""):
    """The first path at which two trees differ, and what each has there. Of a directory of the one may be known only its digest."""
    for name in sorted({*made, *there}, key=str.encode):
        path, one, other = f"{above}{name}", made.get(name), there.get(name)
        if one == other:
            continue
        if isinstance(one, dict) and isinstance(other, dict) and path not in unknown:
            return first_mismatch(one, other, unknown, f"{path}/")
        return path, one, other
    return None


def words_for(entry):
    if isinstance(entry, dict):
        return f"the directory {Digest.of(directory_message(entry)).text()}"
    if isinstance(entry, Link):
        return 'a link to "' + entry.target.replace('"', r"\"") + '"'
    return entry.digest.text() + (" (executable)" if entry.is_executable else "")


def note_of(made, there, unknown):
    found = first_mismatch(made, there, unknown)
    if not found:
        return ""
    path, one, other = found
    one = f"every build makes {words_for(one)}" if one is not None else "no build makes anything there"
    other = f"the folder has {words_for(other)}" if other is not None else "the folder has nothing there"
    return f"note: {path}: {one}, {other}\n"


# ---- the rows


def try_large(tried):
    """`digest` of a file of many bytes, all of them zero, in little memory."""
    path, size = f"{tried.place}/large", LARGE // harness.SLOWNESS**3
    stores.write_file(path, b"")
    os.truncate(path, size)
    whole = hashlib.sha256()
    for _ in range(size >> 20):
        whole.update(bytes(1 << 20))
    out, seconds, status, memory = harness.watch(tried.program, "digest", path, seconds=600)
    print(f"digest of {size} bytes: {seconds:.1f} s, {memory} KiB")
    tried.rows.tell(f"digest of a file of {size >> 20} MiB", (out, status) == (f"{whole.hexdigest()}/{size}\n", 0), (out, status))
    most = KIB_OF_DIGEST * (4 if harness.is_slow() else 1)
    tried.rows.tell(f"and its memory is within {most} KiB", memory <= most, memory)
    os.remove(path)


def try_changes(tried, name, words, folder, unknown=()):
    """A release in a folder, of which one thing is changed in turn; the same words verify it each time."""
    made = tree_at(folder)
    root = Digest.of(directory_message(made)).text()
    kinds = {}
    for kind, path, change in changes_of(made):
        changed = f"{tried.place}/changed"
        shutil.copytree(folder, changed, symlinks=True)
        change(f"{changed}/{path}")
        told = tried.verify(*words, "--artifact", changed)
        said = (told.stdout.decode(), told.returncode, told.stderr.decode())
        right = (f"no root cause root-differs {root}\n", 1, note_of(made, tree_at(changed), unknown))
        kinds.setdefault(kind, []).append((path, said, right))
        shutil.rmtree(changed)
    for kind, seen in kinds.items():
        wrong = [it for it in seen if it[1] != it[2]]
        tried.rows.tell(f"{name}: {kind}, at each of {len(seen)} paths, and the note names it", not wrong, wrong[:1])
    tried.rows.tell(f"{name}: unchanged", tried.verify(*words, "--artifact", folder).returncode == 0)


def try_example(tried):
    """The example's release, as `build` made it."""
    made, shipped = f"{tried.place}/made", f"{tried.place}/shipped"
    os.makedirs(f"{made}/work")
    with harness.Server(tried.program) as server:
        maker = [sys.executable, f"{TOP}/tools/evidence/make_plan.py", f"{EXAMPLE}/steps.json", made, "--server", server.address]
        subprocess.run(maker, check=True, stdout=subprocess.DEVNULL)
        asked = ["--server", server.address, "--sources", stores.read_file(f"{EXAMPLE}/sources").decode().strip()]
        asked += ["--plan", f"{EXAMPLE}/plan", "--record", f"{made}/record"]
        built = harness.run(tried.program, "build", *asked, "--work", f"{made}/work")
        root = built.stdout.decode().split(" ")[1] if built.returncode == 0 else ""
        got = harness.run(tried.program, "get", "--server", server.address, root, "--into", shipped)
        tried.rows.tell("the example's release is built", (built.returncode, got.returncode) == (0, 0), (built, got))
        if got.returncode == 0:
            try_changes(tried, "the example's release", asked, shipped)


def try_notes(tried):
    try_large(tried)
    try_example(tried)
    folder, evidence = f"{tried.place}/release", tried.archive(archive_of(evidence_of_two()))
    os.mkdir(folder)
    write_tree(f"{folder}/release", RELEASE)
    try_changes(tried, "a release with links and bits", [evidence], folder, {"release/guide"})
    told = tried.verify(evidence, "--claim", Digest.of(b"").text())
    tried.rows.tell("without a folder there is no note", (told.returncode, told.stderr) == (1, b""), told)
    shutil.rmtree(folder)
