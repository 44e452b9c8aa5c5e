"""Evidence of a build, as options, a folder and an archive. The build is that of README's small example, its messages written by
shared.messages, and its digests hashlib's."""

import io
import os
import re
import shutil
import subprocess
import tarfile

from archive_vectors import END, header
from shared import harness, stores
from shared.messages import EMPTY, Digest, File, action_message, command_message, directory_message, result_message, tree_message

NINE, LINE = b"123456789", b"\n"
TREE = tree_message({"a": File(Digest.of(NINE), False)})
GEN_COMMAND, USE_COMMAND = command_message(["/bin/true"], ["out"]), command_message(["/bin/true"], ["res"])
GEN_FRAME, USE_FRAME = (Digest.of(action_message(Digest.of(it))).text() for it in (GEN_COMMAND, USE_COMMAND))
DATA = directory_message({"x": File(Digest.of(NINE), False)})
INPUT = directory_message({"data": Digest.of(DATA)})
GEN = action_message(Digest.of(GEN_COMMAND), EMPTY)
USE = action_message(Digest.of(USE_COMMAND), Digest.of(INPUT))
UNCACHED = action_message(Digest.of(GEN_COMMAND), EMPTY, is_cacheable=False)
FILE = File(Digest.of(LINE))
CLAIM, OTHER_CLAIM = (Digest.of(directory_message({"result": File(Digest.of(LINE), it)})).text() for it in (False, True))
YES = f"yes {CLAIM} steps 2\n"


def digest(blob):
    return Digest.of(blob).text()


def blob_at(blob):
    return f"store/cas/{Digest.of(blob).hash}"


def result_at(action):
    return f"store/ac/{Digest.of(action).hash}"


PLAN = (
    f"buildplan 1\nstep gen {GEN_FRAME}\nstep use {USE_FRAME}\nin data/x out gen out/a\nroot\nin result out use res\n"
).encode()
RIGHT = {
    "sources": f"{EMPTY.text()}\n".encode(), "claim": CLAIM.encode(), "plan": PLAN,
    "record": f"buildrecord 1\nstep gen {digest(GEN)}\nstep use {digest(USE)}\n".encode(),
    **{blob_at(it): it for it in (TREE, GEN_COMMAND, USE_COMMAND, DATA, INPUT, GEN, USE)},
    result_at(GEN): result_message({"out": Digest.of(TREE)}), result_at(USE): result_message({"res": File(Digest.of(LINE), False)}),
}


def changed(changes, files=None):
    """Files with others in their place; those of `None` are left out."""
    return {name: content for name, content in {**(files or RIGHT), **changes}.items() if content is not None}


def in_plan(old, new):
    assert old in PLAN.decode()
    return {"plan": PLAN.decode().replace(old, new).encode()}


def in_record(old, new):
    return {"record": RIGHT["record"].replace(digest(old).encode(), digest(new).encode()), blob_at(new): new}


TOO_LARGE = "a file of more than 16777216 bytes\n"
LINE_OF_USE = "in data/x out gen out/a\n"
OTHER_TREE = tree_message({"a": File(Digest.of(LINE), False)})
# What is asked: what differs from README's example, the verdict's line in docs/FORMATS.md, the status, and at 2 and 3 the file that
# is named, with what follows.
QUESTIONS = {
    "README's example": ({}, YES, 0, ""),
    "its blobs that are needed alone": ({blob_at(DATA): None, blob_at(INPUT): None}, YES, 0, ""),
    "an input of the sources": ({"sources": digest(DATA).encode(), **in_plan("out gen out/a", "src x")}, YES, 0, ""),
    "a line that ends in a newline": ({"claim": RIGHT["claim"] + LINE, "sources": EMPTY.text().encode()}, YES, 0, ""),
    "a blob missing": ({blob_at(TREE): None}, f"no step gen cause blob-missing {digest(TREE)}\n", 1, ""),
    "an action missing": ({blob_at(USE): None}, f"no step use cause blob-missing {digest(USE)}\n", 1, ""),
    "a blob with other bytes": ({blob_at(TREE): OTHER_TREE}, f"no step gen cause blob-wrong {digest(TREE)}\n", 1, ""),
    "a blob without bytes": ({blob_at(GEN_COMMAND): b""}, f"no step gen cause blob-wrong {digest(GEN_COMMAND)}\n", 1, ""),
    "a blob that is no action": (in_record(GEN, NINE), f"no step gen cause blob-malformed {digest(NINE)}\n", 1, ""),
    "do not cache": (in_record(GEN, UNCACHED), "no step gen cause do-not-cache\n", 1, ""),
    "no origin": (in_plan("out/a", "out/b%20c"), "no step use cause origin-missing out/b%20c\n", 1, ""),
    "another frame": (in_plan(GEN_FRAME, USE_FRAME), "no step gen cause frame-differs\n", 1, ""),
    "an input without a line": (in_plan(LINE_OF_USE, ""), "no step use cause input-unexplained data\n", 1, ""),
    "a line too many": (in_plan("root\n", "in more out gen out\nroot\n"), "no step use cause input-absent more\n", 1, ""),
    "another input": (in_plan("out gen out/a", "out gen out"), "no step use cause input-differs data/x\n", 1, ""),
    "lines that conflict": ({"plan": PLAN.replace(b"plan 1", b"plan 2").replace(b"root", b"in data/x out gen out\nroot")},
                            "no step use cause input-conflict data/x\n", 1, ""),
    "a result missing": ({result_at(USE): None}, "no step use cause result-missing\n", 1, ""),
    "a result that is none": ({result_at(GEN): b"\xff"}, "no step gen cause result-malformed\n", 1, ""),
    "an exit code": ({result_at(GEN): result_message({"out": Digest.of(TREE)}, 3)}, "no step gen cause exit-code 3\n", 1, ""),
    "an exit code below 0": ({result_at(USE): result_message({}, -9)}, "no step use cause exit-code -9\n", 1, ""),
    "an output unlisted": ({result_at(GEN): result_message({"p": FILE})}, "no step gen cause output-unlisted p\n", 1, ""),
    "another claim": ({"claim": EMPTY.text().encode()}, f"no root cause root-differs {CLAIM}\n", 1, ""),
    "another output": ({result_at(USE): result_message({"res": FILE})}, f"no root cause root-differs {OTHER_CLAIM}\n", 1, ""),
    "no store": ({name: None for name in RIGHT if "/" in name}, f"no step gen cause blob-missing {digest(GEN)}\n", 1, ""),
    "no bytes of a plan": ({"plan": b""}, "", 2, 'plan": line 1: '),
    "a plan's line at fault": (in_plan(LINE_OF_USE, "in data/x out gen out/a \n"), "", 2, 'plan": line 4: '),
    "a record's line at fault": ({"record": RIGHT["record"].replace(b"use", b"us")}, "", 2, 'record": line 3: '),
    "a record that ends early": ({"record": b"buildrecord 1\n"}, "", 2, 'record": line 2: '),
    "a claim without bytes": ({"claim": b""}, "", 2, 'claim": '),
    "a claim that is a newline": ({"claim": LINE}, "", 2, 'claim": '),
    "a claim of two lines": ({"claim": RIGHT["claim"] + LINE * 2}, "", 2, 'claim": '),
    "a claim with the line end of Windows": ({"claim": RIGHT["claim"] + b"\r\n"}, "", 2, 'claim": '),
    "a claim without its size": ({"claim": CLAIM[:64].encode()}, "", 2, 'claim": '),
    "a claim in upper case": ({"claim": RIGHT["claim"].upper()}, "", 2, 'claim": '),
    "sources with a size below 0": ({"sources": RIGHT["sources"].replace(b"/0", b"/-1")}, "", 2, 'sources": '),
    "both digests at fault": ({"sources": b"x", "claim": b"x"}, "", 2, 'sources": '),
    "a digest and a plan at fault": ({"claim": b"x", "plan": b""}, "", 2, 'claim": '),
    "no plan": ({"plan": None}, "", 3, 'plan": '),
    "no record": ({"record": None}, "", 3, 'record": '),
    "a record at fault, and no plan": ({"plan": None, "record": b""}, "", 3, 'plan": '),
    "a blob that is too large": ({blob_at(TREE): bytes(16777217)}, "", 3, f'{blob_at(TREE)}": {TOO_LARGE}'),
}
# Those that no options have.
OF_FILES = {
    "no sources": ({"sources": None}, "", 3, 'sources": '),
    "no claim": ({"claim": None}, "", 3, 'claim": '),
    "nothing": ({name: None for name in RIGHT}, "", 3, 'sources": '),
    "bytes that are no UTF-8": ({"claim": b"\xff" * 66}, "", 2, 'claim": '),
    "a claim that is too large": ({"claim": bytes(16777217)}, "", 3, f'claim": {TOO_LARGE}'),
}


# A build in stages: README's example, then from its root a step and a line, then a line alone.
PLAIN = File(Digest.of(LINE), False)
MORE = {"again": PLAIN, "more": File(Digest.of(NINE), False)}
ENDS = [directory_message(it) for it in ({"result": PLAIN}, MORE, {"end": PLAIN})]
STAGES = {
    "stages": b"7\n12\n999999999\n", "sources": RIGHT["sources"], "claim": digest(ENDS[2]).encode(),
    **{f"7/{name}": RIGHT[name] for name in ("plan", "record", "claim")},
    "12/plan": f"buildplan 1\nstep gen {GEN_FRAME}\nroot\nin again src result\nin more out gen out/a\n".encode(),
    "12/record": f"buildrecord 1\nstep gen {digest(GEN)}\n".encode(), "12/claim": digest(ENDS[1]).encode(),
    "999999999/plan": b"buildplan 1\nroot\nin end src again\n", "999999999/record": b"buildrecord 1\n",
    **{name: content for name, content in RIGHT.items() if "/" in name}, **{blob_at(it): it for it in ENDS},
}
STAGES_YES = f"yes {digest(ENDS[2])} stages 3 steps 3\n"
# What may be printed by each status.
ANSWERS = {
    0: re.escape(YES.encode()) + b"|" + re.escape(STAGES_YES.encode()),
    1: rb"no (?:stage [0-9]{1,9} )?(?:root|step [a-z0-9_-]{1,64}) cause [a-z-]+(?: [A-Za-z0-9./%_~-]+)?\n",
    2: b"",
    3: b"",
}
NO_STAGE = "expected a stage's number, of 1 to 9 digits without a leading zero, and a newline\n"
# Texts of stages, and the line at fault.
FAULTY_STAGES = {
    b"": 1, b"\n": 1, b"7": 1, b"7\n12": 2, b"7\r\n": 1, b"7\n\n12\n": 2, b"7\n12\n\n": 3, b"07\n": 1, b"0\n": 1,
    b"+7\n": 1, b" 7\n": 1, b"7 \n": 1, b"7\n1000000000\n": 2, b"7\n12\n../7\n": 3, b"7\n\xff\n": 2, b"7\0\n": 1, b"18446744073709551623\n": 1,
}
# What is asked of stages, in the same way.
OF_STAGES = {
    "three stages": ({}, STAGES_YES, 0, ""),
    "one stage": ({"stages": b"7\n", "claim": RIGHT["claim"]}, f"yes {CLAIM} stages 1 steps 2\n", 0, ""),
    "a stage twice": (
        {"stages": b"7\n1\n1\n", "1/plan": b"buildplan 1\nroot\nin result src result\n", "1/record": b"buildrecord 1\n",
         "1/claim": RIGHT["claim"], "claim": RIGHT["claim"]}, f"yes {CLAIM} stages 3 steps 2\n", 0, "",
    ),
    "sources and a last claim that aren't read": (
        {"7/sources": b"x", "12/sources": b"x", "999999999/claim": b"x"}, STAGES_YES, 0, "",
    ),
    "a no of the first": ({blob_at(USE): None}, f"no stage 7 step use cause blob-missing {digest(USE)}\n", 1, ""),
    "a no of the second": ({"12/record": in_record(GEN, UNCACHED)["record"].replace(f"step use {digest(USE)}\n".encode(), b""),
                            blob_at(UNCACHED): UNCACHED}, "no stage 12 step gen cause do-not-cache\n", 1, ""),
    "a no of the last": (
        {"claim": CLAIM.encode()}, f"no stage 999999999 root cause root-differs {digest(ENDS[2])}\n", 1, "",
    ),
    "a claim between that is another": (
        {"7/claim": digest(ENDS[1]).encode()}, f"no stage 7 root cause root-differs {CLAIM}\n", 1, "",
    ),
    "a no, and a fault behind it": (
        {blob_at(USE): None, "12/plan": None}, f"no stage 7 step use cause blob-missing {digest(USE)}\n", 1, "",
    ),
    "a fault, and a no behind it": ({blob_at(ENDS[0]): None, "7/plan": None}, "", 3, '7/plan": '),
    "other sources": ({"sources": digest(DATA).encode()}, STAGES_YES, 0, ""),
    "a plan beside them": ({"plan": PLAN}, "", 2, 'stages": stages, and a plan beside them\n'),
    "a plan beside a text at fault": ({"plan": b"", "stages": b""}, "", 2, 'stages": stages, and a plan beside them\n'),
    "a text at fault, and digests": ({"stages": b"x", "sources": None}, "", 2, f'stages": line 1: {NO_STAGE}'),
    "no sources": ({"sources": None, "7/plan": b""}, "", 3, 'sources": '),
    "a claim that is none": ({"claim": b"x", "7/plan": b""}, "", 2, 'claim": '),
    "a stage's claim that is none": ({"7/claim": b"x", "7/plan": b""}, "", 2, '7/claim": '),
    "no claim of a stage": ({"12/claim": None}, "", 3, '12/claim": '),
    "a stage's plan at fault": ({"12/plan": b"", "12/record": b""}, "", 2, '12/plan": line 1: '),
    "no record of a stage": ({"999999999/record": None}, "", 3, '999999999/record": '),
    "no folder of a stage": ({"stages": b"7\n12\n8\n"}, "", 3, '8/plan": '),
    **{
        f"the stages {text!r}": ({"stages": text}, "", 2, f'stages": line {line}: {NO_STAGE}')
        for text, line in FAULTY_STAGES.items()
    },
}


def options_of(folder, files):
    """The words that ask what a folder does."""
    digests = [word for it in ("sources", "claim") for word in (f"--{it}", files[it].decode().removesuffix("\n"))]
    return [*digests, "--plan", f"{folder}/plan", "--record", f"{folder}/record", "--store", f"{folder}/store"]


def write_folder(folder, files):
    shutil.rmtree(folder, ignore_errors=True)
    for name, content in {"store/cas/": None, "store/ac/": None, **files}.items():
        os.makedirs(os.path.dirname(f"{folder}/{name}"), exist_ok=True)
        if content is not None:
            stores.write_file(os.fsencode(f"{folder}/{name}"), content)
    return folder


def member(name, content=b"", flag=b"0"):
    """A member: its header, and its content in whole blocks. A name of more than 100 bytes goes to the prefix too."""
    name, prefix = name.encode(), b""
    if len(name) > 100:
        cut = name.index(b"/", len(name) - 101)
        prefix, name = name[:cut], name[cut + 1 :]
    return header(name, b"%011o\0" % len(content), flag, prefix=prefix) + content + bytes(-len(content) % 512)


def folders_of(files):
    return sorted({"/".join(name.split("/")[:count]) for name in files for count in range(1, name.count("/") + 1)})


def archive_of(files, before="", with_folders=False):
    """An archive of files in their order."""
    folders = [member(f"{before}{it}/", flag=b"5") for it in folders_of(files)] if with_folders else []
    return b"".join([*folders, *(member(f"{before}{name}", content) for name, content in files.items())]) + END


def has_gnu_tar():
    return shutil.which("tar") and b"GNU tar" in subprocess.run(["tar", "--version"], stdout=subprocess.PIPE, check=False).stdout


def by_tar(folder, form, named):
    """The archive of a folder by GNU tar."""
    names = ["."] if named == "." else sorted(os.listdir(folder), reverse=named == "reversed")
    words = ["tar", f"--format={form}", "--owner=builder:1000", "--group=builder:1000", "-C", folder, "-cf", "-", *names]
    return subprocess.run(words, stdout=subprocess.PIPE, check=True).stdout


def by_tarfile(files, form, before=""):
    """The archive of files by Python's tarfile, with their folders."""
    made = io.BytesIO()
    with tarfile.open(fileobj=made, mode="w", format=form) as archive:
        for name in [*(f"{it}/" for it in folders_of(files)), *files]:
            entry = tarfile.TarInfo(before + name)
            entry.type = tarfile.DIRTYPE if name.endswith("/") else tarfile.REGTYPE
            entry.size, entry.mtime, entry.uname = len(files.get(name, b"")), 1600000000.5, "builder"
            archive.addfile(entry, io.BytesIO(files.get(name, b"")))
    return made.getvalue()


def wrong_of(told, evidence, out, status, named=""):
    """What is wrong with what was told of evidence at a path, or None. What is named stands behind the path."""
    right = (told.stdout, told.returncode) == (out.encode(), status) and harness.is_told(told.stderr, status)
    named = f'error: "{evidence}{named}' if named.startswith('"') else f'error: "{evidence}/{named}'
    return None if right and (status < 2 or told.stderr.startswith(named.encode())) else told
