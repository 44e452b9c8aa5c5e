#!/usr/bin/env python3
"""Tries `verify` over evidence: evidence_rows.py PROGRAM [--many]

Questions of all kinds, each by options, as a folder and as an archive: the same verdict and status, and of the files the same
one is named. Builds in stages, with each no and fault. Digests that are said in place of the files, and folders in place of a
claim, with the note that says where one differs; `digest` of a large file; a server beside evidence; what a verdict looked at,
kept as evidence by itself; archives as GNU tar (where it is installed) and Python's tarfile write them, and in other orders.
Archives of which each field of a header is turned, or a member that isn't read is among them, are refused in the words of
docs/FORMATS.md; so are archives that end too early, wherever. Archives that are turned at random, for half a minute, come to what a
model of that page says: a refusal, or the verdict on a folder of their files. An archive of 100,000 files (with --many of
1,000,000) is judged in bounded memory. It prints a line for each row, and ends with status 1 where one failed. Nothing outside
this machine is asked.
"""

import collections
import os
import random
import re
import shutil
import sys
import tarfile
import tempfile
import time

from archive_model import FIELDS, TWICE, NoArchive, files_of, members_of, turned, with_field
from archive_vectors import CUT, END, NAME, TURNED, header
from artifact_notes import try_notes
from evidence_forms import (
    ANSWERS, CLAIM, DATA, EMPTY, ENDS, GEN, INPUT, LINE, NINE, OF_FILES, OF_STAGES, QUESTIONS, RIGHT, STAGES, STAGES_YES, TREE, USE, YES,
    archive_of, blob_at, by_tar, by_tarfile, changed, digest, has_gnu_tar, member, options_of, result_at, write_folder, wrong_of,
)
from shared import harness, stores
from shared.command_line import fail, program_at, words_of
from shared.crates import TOP
from shared.rows import Rows

# How long archives are turned at random; and so many are, which come to each kind of answer.
SECONDS, FEWEST = 30, 100
# The files of a large archive, of which a slow program has its part, and with --many.
FILES, MANY = 100_000, 1_000_000
# The KiB that each file may cost, and the program beside them; a slow one may take twice that. (The reader of test_archive was
# seen to take 16,100 KiB for 100,000 files, the preview 66,808, and 30,104 for 12,500.)
KIB_OF_A_FILE, KIB_OF_A_PROGRAM = 0.25, 16384
NO_SERVER = f"{harness.LOCAL}:1"


class Evidence:
    """The program in a folder of its own, and the rows that tell what it said of evidence there."""

    def __init__(self, program, place, rows):
        self.program, self.place, self.rows = program, place, rows

    def verify(self, *words):
        return harness.run(self.program, "verify", *words)

    def expect(self, name, evidence, out, status, named="", more=()):
        wrong = wrong_of(self.verify(evidence, *more), evidence, out, status, named)
        self.rows.tell(f"{name}: status {status}", not wrong, wrong)

    def expect_words(self, name, told, status, named):
        """Refused for what is named, which is no file of evidence."""
        right = (told.returncode, told.stdout) == (status, b"") and harness.is_error(told.stderr)
        self.rows.tell(f"{name}: status {status}", right and told.stderr.startswith(f"error: {named}: ".encode()), told)

    def folder(self, files, name="folder"):
        return write_folder(f"{self.place}/{name}", files)

    def archive(self, content, name="archive"):
        stores.write_file(f"{self.place}/{name}", content)
        return f"{self.place}/{name}"

    def expect_both(self, name, files, out, status, named="", more=()):
        """Told so of a folder of files, and of the archive of them."""
        self.expect(f"{name}, in a folder", self.folder(files), out, status, named, more)
        self.expect(f"{name}, in an archive", self.archive(archive_of(files)), out, status, named, more)

    def expect_archive(self, name, content, out=YES, status=0, named=""):
        self.expect(name, self.archive(content), out, status, named)

    def refuse(self, name, content, at, words):
        self.expect_archive(name, content, "", 2, f'": at byte {at}: {words}\n')


def try_questions(tried):
    for name, (changes, out, status, named) in QUESTIONS.items():
        files = changed(changes)
        tried.expect_both(name, files, out, status, named)
        told = tried.verify(*options_of(folder := tried.folder(files), files))
        if option := re.match("claim|sources", named):
            tried.expect_words(f"{name}, by options", told, status, f"--{option[0]}")
        else:
            tried.rows.tell(f"{name}, by options: status {status}", not wrong_of(told, folder, out, status, named), told)
    for name, (changes, out, status, named) in OF_FILES.items():
        tried.expect_both(name, changed(changes), out, status, named)
    with open(f"{TOP}/README.md", encoding="utf-8") as page:
        tried.rows.tell("that is README's line", f"\n{YES}" in page.read(), YES)


def try_stages(tried):
    """A build in stages, with what is said beside it. A plan that can't be read is no plan, be it a link to nothing."""
    for name, (changes, out, status, named) in OF_STAGES.items():
        tried.expect_both(f"of stages: {name}", changed(changes, STAGES), out, status, named)
    claim, without = STAGES["claim"].decode(), changed({"claim": None, "sources": None}, STAGES)
    said = ["--claim", claim, "--sources", EMPTY.text()]
    tried.expect_both("of stages: both digests are said", without, STAGES_YES, 0, more=said)
    differs = f"no stage 999999999 root cause root-differs {claim}\n"
    tried.expect_both("of stages: another claim is said", STAGES, differs, 1, more=["--claim", CLAIM])
    for option in ("--claim", "--sources"):
        for evidence in (tried.folder(STAGES), tried.archive(archive_of(STAGES))):
            told = tried.verify(evidence, option, "x")
            tried.expect_words(f"{option} x beside stages, in {os.path.basename(evidence)}", told, 2, option)
    folder = tried.folder(STAGES)
    os.symlink("nowhere", f"{folder}/plan")
    tried.expect("of stages: a link to nothing for a plan", folder, "", 2, 'stages": stages, and a plan beside them\n')
    tried.expect("a folder for stages", tried.folder({**RIGHT, "stages/1": b""}), "", 3, 'stages": not a file\n')
    lacks = f"no stage 7 step gen cause blob-missing {digest(GEN)}\n"
    folder = tried.folder({name: it for name, it in STAGES.items() if "store" not in name}, "without store")
    told = tried.verify(folder)
    tried.rows.tell("of stages: no blobs", (told.stdout, told.returncode) == (lacks.encode(), 1), told)
    shutil.rmtree(f"{folder}/store")
    told = tried.verify(folder)
    is_noted = told.stderr.startswith(b'note: "' + os.fsencode(folder) + b'/store": ')
    tried.rows.tell("of stages: no store, and a note", (told.stdout, told.returncode) == (lacks.encode(), 1) and is_noted, told)
    with harness.Keeper() as keeper:
        keeper.held = {name[5:]: content for name, content in STAGES.items() if name.startswith("store/cas/")}
        results = {name: content for name, content in STAGES.items() if not name.startswith("store/cas/")}
        tried.expect_both("of stages: a server has the blobs", results, STAGES_YES, 0, more=["--server", keeper.address])
        keeper.held.pop(blob_at(ENDS[1])[5:])
        missing = f"no stage 999999999 root cause blob-missing {digest(ENDS[1])}\n"
        tried.expect_both("of stages: and not all", results, missing, 1, more=["--server", keeper.address])


def try_said(tried):
    """`--claim` and `--sources` in place of the files."""
    empty, data = EMPTY.text(), QUESTIONS["an input of the sources"][0]
    other, sources = ["--claim", empty], data["sources"].decode()
    tried.expect_both("another claim is said", RIGHT, f"no root cause root-differs {CLAIM}\n", 1, more=other)
    claims = changed({"claim": empty.encode()})
    tried.expect_both("the right claim is said, and the file has another", claims, YES, 0, more=["--claim", CLAIM])
    tried.expect_both("other sources are said", changed(data), "no step use cause origin-missing x\n", 1, more=["--sources", empty])
    tried.expect_both("the sources are said", changed({**data, "sources": None}), YES, 0, more=["--sources", sources])
    for name, content in (("isn't there", None), ("is at fault", b"x")):
        both = changed({"claim": content, "sources": content})
        tried.expect_both(f"both are said, and their file {name}", both, YES, 0, more=["--claim", CLAIM, "--sources", empty])
        status = 3 if content is None else 2
        tried.expect_both(f"the claim alone is said, and their file {name}", both, "", status, 'sources": ', other)
    for option in ("--claim", "--sources"):
        for evidence in (tried.folder(RIGHT), tried.archive(archive_of(RIGHT))):
            tried.expect_words(f"{option} x beside {os.path.basename(evidence)}", tried.verify(evidence, option, "x"), 2, option)


def try_artifacts(tried):
    """A folder in place of the claim: as it is read, with its files' executable bits, or without."""
    files, no = changed({"claim": None}), f"no root cause root-differs {CLAIM}\n"
    place = f"{tried.place}/shipped"
    os.mkdir(place)
    stores.write_file(f"{place}/result", LINE)
    said = ["--artifact", place]

    def expect(name, out, status, more=(), named=""):
        tried.expect_both(name, files, out, status, named, more=[*said, *more])
        words = options_of(folder := tried.folder(files), RIGHT)
        at = words.index("--claim")
        del words[at:at + 2]
        told = tried.verify(*words, *said, *more)
        tried.rows.tell(f"{name}, by options: status {status}", not wrong_of(told, folder, out, status, named), told)

    os.chmod(f"{place}/result", 0o655)
    expect("the folder that the root is", YES, 0)
    expect("it without bits", YES, 0, ["--no-bits"])
    os.chmod(f"{place}/result", 0o744)
    expect("it with an executable bit", no, 1)
    expect("and without bits", YES, 0, ["--no-bits"])
    tried.expect_both("it beside a claim that is at fault", changed({"claim": b"x"}), YES, 0, more=[*said, "--no-bits"])
    os.mkdir(f"{place}/empty")
    expect("it with an empty folder", no, 1, ["--no-bits"])
    os.rmdir(f"{place}/empty")
    os.symlink("result", f"{place}/z")
    expect("it with a link", no, 1, ["--no-bits"])
    os.remove(f"{place}/z")
    stores.write_file(f"{place}/result", b"")
    expect("it with another content", no, 1, ["--no-bits"])
    shutil.rmtree(place)
    for name, make in (("isn't there", lambda: None), ("is a file", lambda: stores.write_file(place, LINE))):
        make()
        for evidence in (tried.folder(files), tried.archive(archive_of(files))):
            told = tried.verify(evidence, *said)
            tried.expect_words(f"a folder that {name} beside {os.path.basename(evidence)}", told, 3, f'"{place}"')
        told = tried.verify(*options_of(tried.folder(RIGHT), RIGHT), *said)
        right = (told.returncode, told.stdout, told.stderr) == (2, b"", b"error: --claim cannot be used with --artifact\n")
        tried.rows.tell(f"a folder that {name}, beside a claim: status 2", right, told)
    os.remove(place)


def try_servers(tried):
    """Blobs of a server, and results of evidence."""
    missing = f"no step gen cause blob-missing {digest(GEN)}\n"
    blobs = {name: content for name, content in RIGHT.items() if name.startswith("store/cas/")}
    results = {name: content for name, content in RIGHT.items() if name.startswith("store/ac/")}
    without = changed(dict.fromkeys(blobs))
    with harness.Keeper() as keeper:
        server = ["--server", keeper.address]
        tried.expect_both("a server has no blob, and evidence has all", RIGHT, missing, 1, more=server)
        keeper.held = {f"{prefix}{name[5:]}": content for prefix in ("", "/p") for name, content in blobs.items()}
        tried.expect_both("a server has the blobs", without, YES, 0, more=server)
        tried.expect_both("a server with a timeout", without, YES, 0, more=[*server, "--timeout", "9"])
        keeper.held |= {name[5:]: b"\xff" for name in results}
        tried.expect_both("a server has other results", without, YES, 0, more=server)
        keeper.held |= {name[5:]: content for name, content in results.items()}
        lacks = changed(dict.fromkeys(results), without)
        tried.expect_both("a server has the results", lacks, "no step gen cause result-missing\n", 1, more=server)
        keeper.held = {name: content for name, content in keeper.held.items() if name.startswith("/p/")}
        tried.expect_both("a server below a prefix", without, YES, 0, more=[*server, "--prefix", "/p"])
        tried.expect_both("and without the prefix", without, missing, 1, more=server)
        keeper.held[f"/p{blob_at(TREE)[5:]}"] = TREE[:-1]
        wrong = f"no step gen cause blob-wrong {digest(TREE)}\n"
        tried.expect_both("a server has other bytes", RIGHT, wrong, 1, more=[*server, "--prefix", "/p"])
    for evidence in (tried.folder(RIGHT), tried.archive(archive_of(RIGHT))):
        told = tried.verify(evidence, "--server", NO_SERVER)
        tried.expect_words(f"no server beside {os.path.basename(evidence)}", told, 3, NO_SERVER)


def kept_by(tried, path, words, out, status, evidence, named=""):
    """What a run keeps in a file: its bytes, or None where it isn't written; and what is wrong with it."""
    stores.forget(path)
    wrong = wrong_of(tried.verify(*words, "--keep", path), evidence, out, status, named)
    kept = stores.read_file(path) if os.path.exists(path) else None
    if kept is None or wrong or status > 1:
        return kept, wrong or (kept is None) != (status > 1) and (status, kept)
    return kept, wrong_of(tried.verify(path), path, out, status)


def try_kept(tried):
    """What a verdict looks at, kept in one file: evidence by itself with the same line, alike by whatever form it was asked."""
    path = f"{tried.place}/kept"
    for name, (changes, out, status, named) in {**QUESTIONS, **OF_STAGES}.items():
        files = changed(changes, STAGES if name in OF_STAGES else RIGHT)
        folder, archive = tried.folder(files), tried.archive(archive_of(files))
        seen = [kept_by(tried, path, [it], out, status, it, named) for it in (folder, archive)]
        if name in QUESTIONS and not re.match("claim|sources", named):
            seen.append(kept_by(tried, path, options_of(folder, files), out, status, folder, named))
        wrong = next((it for _, it in seen if it), None)
        tried.rows.tell(f"kept: {name}: status {status}", not wrong and len({it for it, _ in seen}) == 1, wrong or seen)
    try_kept_members(tried, path)
    try_kept_of_server(tried, path)
    try_not_kept(tried, path)


def try_kept_members(tried, path):
    """It has what was looked at, and no more."""
    names = sorted({*RIGHT} - {blob_at(DATA), blob_at(INPUT)})
    kept_by(tried, path, [tried.folder(RIGHT)], YES, 0, "")
    with tarfile.open(path) as archive:
        members = {it.name: (archive.extractfile(it).read(), it.mode, it.mtime, it.uid, it.uname) for it in archive}
    wanted = {name: (RIGHT[name].removesuffix(LINE) + LINE * ("/" not in name), 0o644, 0, 0, "") if name in ("sources", "claim")
              else (RIGHT[name], 0o644, 0, 0, "") for name in names}
    tried.rows.tell("kept: what was looked at, sorted", [*members.items()] == [*wanted.items()], [*members])
    once = stores.read_file(path)
    wrong = kept_by(tried, f"{path} again", [path], YES, 0, path)[1]
    tried.rows.tell("kept: of it again the same bytes", not wrong and stores.read_file(f"{path} again") == once, wrong)


def try_kept_of_server(tried, path):
    """Kept from a server, which has ended when it is judged."""
    folder = tried.folder({name: content for name, content in RIGHT.items() if "/" not in name})
    with harness.Server(tried.program) as server:
        store = stores.ServerStore(server.address, "")
        complete = {**RIGHT, **{blob_at(it): it for it in (NINE, LINE)}}
        for name, content in sorted(complete.items(), key=lambda it: "store/ac" in it[0]):
            if "/" in name:
                store.put(*name.split("/")[1:], content)
        store.close()
        words = options_of(folder, RIGHT)
        words[words.index("--store"):] = ["--server", server.address]
        kept, wrong = kept_by(tried, path, words, YES, 0, folder)
    told = tried.verify(path)
    tried.rows.tell("kept from serve, which then ended", not wrong and (told.stdout, told.returncode) == (YES.encode(), 0), wrong or told)
    folder_kept, _ = kept_by(tried, path, [tried.folder(RIGHT)], YES, 0, "")
    tried.rows.tell("kept from serve as from a folder", kept == folder_kept, kept)


def try_not_kept(tried, path):
    """Where the file can't be written, nothing is asked and nothing printed; where it isn't, what stands there stays."""
    folder, archive = tried.folder(RIGHT), tried.archive(archive_of(RIGHT))
    for name, it in (("an empty path", ""), ("the evidence", archive)):
        told = tried.verify(archive, "--keep", it)
        tried.rows.tell(f"not kept: {name}: status 2", (told.returncode, told.stdout) == (2, b"") and harness.is_error(told.stderr), told)
    told = tried.verify(*options_of(folder, RIGHT), "--keep", f"{folder}/plan")
    right = (told.returncode, told.stdout, told.stderr) == (2, b"", b"error: --keep cannot name the file of --plan\n")
    tried.rows.tell("not kept: the plan's file: status 2", right, told)
    for name, it in (("a folder", folder), ("no folder", f"{tried.place}/none/kept"), ("a device", "/dev/full")):
        tried.expect_words(f"not kept: {name}", tried.verify(NO_SERVER, "--keep", it), 3, f'"{it}"')
    stores.write_file(path, b"before")
    tried.expect_words("not kept: a fault of what is asked", tried.verify(tried.folder(changed({"plan": None})), "--keep", path), 3,
                       f'"{tried.place}/folder/plan"')
    twice = changed({"record": RIGHT["record"].replace(digest(USE).encode(), digest(GEN).encode().rpartition(b"/")[0] + b"/9")})
    told = tried.verify(tried.folder(twice), "--keep", path)
    tried.expect_words("not kept: two digests with one hash", told, 3, f'"{path}"')
    tried.rows.tell("not kept: what stands there stays", stores.read_file(path) == b"before", path)


def try_archives(tried):
    """Archives of the same files, by several hands."""
    folder = tried.folder(RIGHT)
    for form in ("ustar", "gnu", "pax", "v7") if has_gnu_tar() else ():
        for named in (".", "names", "reversed"):
            tried.expect_archive(f"GNU tar --format={form}, {named}", by_tar(folder, form, named))
    if not has_gnu_tar():
        print("GNU tar isn't installed: its archives are left out")
    for name, form in (("ustar", tarfile.USTAR_FORMAT), ("GNU", tarfile.GNU_FORMAT), ("pax", tarfile.PAX_FORMAT)):
        for before in ("", "./"):
            tried.expect_archive(f"tarfile's {name} format, behind {before!r}", by_tarfile(RIGHT, form, before))
    for seed in range(4):
        files = {name: RIGHT[name] for name in random.Random(seed).sample([*RIGHT], len(RIGHT))}
        tried.expect_archive(f"members in order {seed}", archive_of(files, ("", "./")[seed % 2], with_folders=seed > 1))
    more = {"a": b"a", "store/a": b"", "plan.old": b"x", "z/z": b"z" * 9999}
    tried.expect_archive("files that aren't asked for", archive_of({**more, **RIGHT}))
    tried.expect_archive("and behind those that are", archive_of({**RIGHT, **more}))
    tried.expect_archive("files in a folder of the archive", archive_of(RIGHT, "evidence/"), "", 3, 'sources": ')
    folder_of_plan = member("plan/", flag=b"5") + archive_of(changed({"plan": None}))
    tried.expect_archive("a plan that is a folder", folder_of_plan, "", 3, 'plan": ')
    names = [f"plan{letter}" for letter in " é\n\""]
    tried.expect_archive("names like the plan's", archive_of({**dict.fromkeys(names, b"x"), **RIGHT}))
    tried.expect_archive("an archive in an archive", archive_of({"archive": archive_of({"plan": b"x"}), **RIGHT}))
    archive = archive_of(RIGHT)
    tried.expect_archive("a file of 8 GiB, which is a hole", header(b"hole", b"77777777000\0"), "", 2, f'": at byte 0: {CUT}\n')
    with open(f"{tried.place}/archive", "wb") as out:
        out.write(header(b"hole", b"77777777000\0"))
        out.seek(512 + 0o77777777000)
        out.write(archive)
    tried.expect("and evidence behind it", f"{tried.place}/archive", YES, 0)
    try_paths(tried, folder, tried.archive(archive))


def try_paths(tried, folder, archive):
    for name, evidence in (("folder", folder), ("archive", archive)):
        os.symlink(evidence, f"{tried.place}/link of {name}")
        tried.expect(f"a link to the {name}", f"{tried.place}/link of {name}", YES, 0)
        tried.expect(f"the {name} by a path from here", os.path.relpath(evidence), YES, 0)
    tried.expect("the folder behind a slash", f"{folder}/", YES, 0)
    os.mkfifo(f"{tried.place}/fifo")
    for name, path in (("nothing there", f"{tried.place}/none"), ("a device", "/dev/null"), ("a fifo", f"{tried.place}/fifo"),
                       ("an archive with a slash", f"{archive}/"), ("nothing below an archive", f"{archive}/evidence")):
        tried.expect(name, path, "", 3, '": ')
    tried.expect("an empty folder", tried.folder({}, "none yet"), "", 3, 'sources": ')


def try_hostile(tried):
    """Members that aren't read, each alone, before evidence and behind it."""
    whole = archive_of(RIGHT)
    right = whole.removesuffix(END)
    for name, (content, refused) in TURNED.items():
        if refused:
            tried.refuse(f"{name}, alone", content, *refused)
            tried.refuse(f"{name}, behind evidence", right + content, len(right) + refused[0], refused[1])
        else:
            tried.expect_archive(f"{name}, alone", content, "", 3, 'sources": ')
            tried.expect_archive(f"{name}, behind evidence", right + content)
    for name, field in FIELDS.items():
        content, refused = with_field(*field), field[2]
        if refused:
            tried.refuse(f"{name}, before evidence", content + (END if refused == CUT else whole), 0, refused)
            tried.refuse(f"{name}, behind evidence", right + content + END, len(right), refused)
        else:
            tried.expect_archive(f"{name}, before evidence", content + whole)
            tried.expect_archive(f"{name}, behind evidence", right + content + END)
    for name in ("plan", "store/cas/" + "0" * 64, blob_at(TREE), result_at(GEN)):
        before = right + member(name) * (name not in RIGHT)
        tried.refuse(f"{name[:12]} twice", before + member(name, b"other") + END, len(before), TWICE)
    for name, prefix, it, words in (("of 65 names", b"a/" * 31 + b"a", b"a/" * 32 + b"a", NAME), ("above", b"", b"../plan", NAME),
                                    ("of no UTF-8", b"", b"plan\xff", NAME), ("behind which is a NUL", b"", b"plan\0x", TWICE)):
        tried.refuse(f"a name {name}", right + header(it, b"0\0", prefix=prefix) + END, len(right), words)


def try_cuts(tried):
    """An archive is cut at each block, and at 200 other places: the first member that isn't whole is told."""
    for name, archive in (("own", archive_of(RIGHT, with_folders=True)), ("tarfile's", by_tarfile(RIGHT, tarfile.PAX_FORMAT))):
        offsets = [0, *(behind for _, behind, *_ in members_of(archive))]
        places = {*range(0, len(archive), 512), *random.Random(1).sample(range(len(archive)), 100)}
        wrong = None
        for place in sorted(places):
            at = max(it for it in offsets if it <= place)
            expected = ("", 2, f'": at byte {at}: {CUT}\n') if place < offsets[-1] + len(END) else (YES, 0)
            wrong = wrong or wrong_of(tried.verify(path := tried.archive(archive[:place])), path, *expected)
        tried.rows.tell(f"{name} archive of {len(archive)} bytes, cut at {len(places)} places", not wrong, wrong)


def wrong_of_turned(tried, archive, whole, yes, seen):
    """What is wrong with what is told of an archive that was turned, or None; with all of these files it has this yes."""
    told = tried.verify(path := tried.archive(archive))
    seen[told.returncode] += 1
    try:
        files = files_of(archive)
    except NoArchive as refused:
        at, words = refused.args
        seen[words] += 1
        return wrong_of(told, path, "", 2, f'": at byte {at}: {words}\n')
    if files.items() >= whole.items():
        return wrong_of(told, path, yes, 0)
    is_line = told.returncode in ANSWERS and re.fullmatch(ANSWERS[told.returncode], told.stdout)
    if not is_line or not harness.is_told(told.stderr, told.returncode):
        return told
    folders = {"store", "store/cas", "store/ac", *(name.partition("/")[0] for name in whole if name[0].isdigit())}
    if any(it in folders or it.startswith(tuple(f"{name}/" for name in whole)) for it in files):
        return None  # (a folder with these files is another one)
    seen["as a folder"] += 1
    alike = tried.verify(tried.folder({name: it for name, it in files.items() if name in whole or name.startswith("store/")}))
    return None if (alike.stdout, alike.returncode) == (told.stdout, told.returncode) else (told, alike)


def try_turned(tried):
    """Archives that are turned at random; each has the seed of its number."""
    archives = [
        *((it, RIGHT, YES) for it in (archive_of(RIGHT), archive_of(RIGHT, "./", with_folders=True))),
        (by_tarfile(RIGHT, tarfile.PAX_FORMAT), RIGHT, YES), (archive_of(STAGES), STAGES, STAGES_YES),
    ]
    seen, number, wrong = collections.Counter(), 0, None
    end = time.monotonic() + SECONDS
    while (time.monotonic() < end or number < FEWEST) and not wrong:
        number += 1
        chance = random.Random(number)
        archive, whole, yes = chance.choice(archives)
        wrong = wrong_of_turned(tried, turned(chance, archive), whole, yes, seen)
    tried.rows.tell(f"{number} archives that were turned at random", not wrong, f"seed {number}: {wrong}")
    tried.rows.tell("they are judged and refused in several ways", seen[0] and seen[1] and seen[2] and len(seen) > 8, seen)


def try_many(tried, count):
    """An archive of many small files, and evidence between them."""
    path = f"{tried.place}/many"
    with open(path, "wb") as out:
        for number in range(count):
            if number == count // 2:
                out.write(archive_of(RIGHT).removesuffix(END))
            out.write(member(f"store/cas/{number:064x}", b"%d" % number))
        out.write(END)
    out, seconds, status, memory = harness.watch(tried.program, "verify", path, seconds=600)
    print(f"{count} files: {seconds:.1f} s, {memory} KiB")
    tried.rows.tell(f"an archive of {count} more files: yes", (out, status) == (YES, 0), (out, status))
    most = int(KIB_OF_A_PROGRAM + KIB_OF_A_FILE * count) * (2 if harness.is_slow() else 1)
    tried.rows.tell(f"and its memory is within {most} KiB", memory <= most, memory)
    os.remove(path)


def try_all(rows, program, count=None):
    with tempfile.TemporaryDirectory() as place:
        tried = Evidence(program, place, rows)
        for part in (try_questions, try_stages, try_said, try_artifacts, try_notes, try_servers, try_kept, try_archives, try_hostile, try_cuts,
                     try_turned):
            part(tried)
        try_many(tried, count or FILES // harness.SLOWNESS)


def main():
    words = words_of(__doc__, 1, 2, ["--many"])
    named = [it for it in words if it != "--many"]
    if len(named) != 1:
        fail(2, "one program is named; see --help")
    rows = Rows()
    try_all(rows, program_at(named[0]), MANY if "--many" in words else None)
    sys.exit(rows.end())


if __name__ == "__main__":
    main()
