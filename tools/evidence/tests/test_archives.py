"""Tests of archives.py, and of the tools that write evidence as an archive or read one.

What is read and what is refused is held against the rows of crates/test_archive, which the crate `archive` answers too. What is
written is read by Python's `tarfile` and by `tar`.
"""

import contextlib
import hashlib
import io
import os
import shutil
import subprocess
import sys
import tarfile
from unittest import mock

import archives
import bazel_plan
import make_plan
import verify_stages
from shared import command_line, stores
from shared.crates import TOP
from shared.harness import PROGRAM, Keeper
from tests.bazel_case import CHAIN, TREE_STEP, Case, contents, kept_log
from tests.spawns import log, spawn

VECTORS = os.path.join(TOP, "crates", "test_archive")
COUNTS = ["--outputs", "*/counts.txt", "*/site", "--below", "bazel-out/k8-fastbuild/bin/pages"]
ZEROS = bytes(1024)
# What stands last in an archive.
LISTS = ["artifact.sums", "from-cache", "sources.sums", "taken"]


def digest_of(content):
    return f"{hashlib.sha256(content).hexdigest()}/{len(content)}"


def called(main, *words):
    """Status, standard output and standard error of a tool."""
    out, err = io.StringIO(), io.StringIO()
    with contextlib.redirect_stdout(out), contextlib.redirect_stderr(err):
        try:
            status = main(list(words))
        except SystemExit as ended:
            status = ended.code
    return status, out.getvalue(), err.getvalue()


class ArchiveCase(Case):
    def archive(self, text, *words, name="e.tar"):
        """Status, standard output and standard error of bazel_plan.py, which writes an archive of a log."""
        with open(self.at("log"), "w", encoding="utf-8") as out:
            out.write(text)
        return called(bazel_plan.main, self.at("log"), "--archive", self.at(name), *words)

    def bytes_of(self, name="e.tar"):
        return stores.read_file(self.at(name))

    def held(self, name="e.tar"):
        """What an archive has, by tarfile, in its order."""
        with tarfile.open(self.at(name), "r:") as it:
            return {member.name: it.extractfile(member).read() for member in it}

    def refuse_archive(self, reason, *words):
        """A tool ends with one line of an error that has this in it, and status 2."""
        status, out, err = called(*words)
        self.assertEqual((status, out, err.count("\n"), err[:7]), (2, "", 1, "error: "), err)
        self.assertIn(reason, err)


class Read(ArchiveCase):
    """What is read and refused is what the crate reads and refuses."""

    def answer(self, name, *paths):
        """The lines that the crate prints of an archive of its rows."""
        place = os.path.join(VECTORS, "data", name)
        try:
            held = archives.Archive(place)
        except command_line.Refused as fault:
            return [f"{name}{str(fault).removeprefix(chr(34) + place + chr(34))}"]
        whole, lines, found = stores.read_file(place), [name], []
        for it in paths:
            start, size = held.places.get(it, (0, 0))
            content = whole[start:start + size]
            lines.append(f"  {digest_of(content) if it in held.places else 'none'}")
            found += [(it, content)] if it in held.places else []
        return [*lines, f"  {self.written(found)}"]

    def written(self, files):
        """What the crate tells of an archive that it writes of these files: that it is the one that the tools write."""
        out = io.BytesIO()
        writer = archives.Writer(out)
        for number, (path, content) in enumerate(files):
            if len(path) > 100:
                return f"not written: file {number}: the name isn't that of a file in a folder, in at most 100 bytes"
            if path in (it for it, _ in files[:number]):
                return f"not written: file {number}: the name stands twice"
            writer.add(path, content)
        return f"written {digest_of(out.getvalue() + ZEROS)}"

    def test_the_rows_of_the_crate(self):
        asked, answers = (stores.read_file(os.path.join(VECTORS, it)).decode().splitlines() for it in ("stdin", "stdout"))
        self.assertEqual([line for row in asked for line in self.answer(*row.split("\t"))], answers)

    def test_cuts_and_bytes_of_a_header_turned(self):
        with archives.written(self.at("e.tar")) as out:
            out.add("sources", b"s")
            out.put("cas", "0" * 64, b"")
        whole, end = self.bytes_of(), 512 * 3
        for length in (*range(0, end, 9), *range(end - 1, end + len(ZEROS), 61), len(whole) - 1):
            stores.write_file(self.at("cut"), whole[:length])
            with self.assertRaisesRegex(command_line.Refused, f'^".*/cut": at byte [0-9]+: {archives.CUT}$'):
                archives.Archive(self.at("cut"))
        for at in (*range(0, 512, 3), *range(1024, end, 5)):
            stores.write_file(self.at("turned"), whole[:at] + bytes([whole[at] ^ 1]) + whole[at + 1:])
            with self.assertRaisesRegex(command_line.Refused, "at byte .*: the checksum of a header is wrong"):
                archives.Archive(self.at("turned"))

    def test_a_record_of_more_than_65536_bytes(self):
        for size, fault in (65536, None), (65537, "more than dates and owners"):
            content = f"{size} comment=".encode().ljust(size - 1, b"x") + b"\n"
            header = tarfile.TarInfo("record")
            header.type, header.size = tarfile.XHDTYPE, size
            record = header.tobuf(tarfile.USTAR_FORMAT) + content + bytes(-size % 512)
            stores.write_file(self.at("pax"), record + ZEROS)
            if fault is None:
                self.assertEqual(archives.Archive(self.at("pax")).places, {})
            else:
                self.assertRaisesRegex(command_line.Refused, fault, archives.Archive, self.at("pax"))


class Written(ArchiveCase):
    def compare(self, text, *words):
        """The archive of a log has what the folder has, and nothing else. Its names in their order."""
        for out in self.call(text, *words), self.archive(text, *words):
            self.assertEqual((out[0], out[2]), (0, ""))
        self.assertEqual(self.held(), contents(self.at("asked")))
        return list(self.held())

    def test_one_plan(self):
        names = self.compare(kept_log("counts.json"), *COUNTS)
        store = names[4:-4]
        self.assertEqual(names[:4] + names[-4:], ["sources", "claim", "plan", "record", *LISTS])
        self.assertEqual(store, sorted(store, key=lambda it: (it.startswith("store/ac/"), it)))

    def test_stages(self):
        names = self.compare(kept_log("counts.json"), *COUNTS, "--stages", "3")
        self.assertEqual(names[:3] + names[-4:], ["stages", "sources", "claim", *LISTS])
        begins = [names.index(f"{stage}/claim") for stage in (1, 2, 3)]
        for begin, end in zip(begins, [*begins[1:], len(names) - 4]):
            stage = names[begin][0]
            self.assertEqual(names[begin:begin + 4], [f"{stage}/{it}" for it in ("claim", "plan", "record", "sources")])
            store = names[begin + 4:end]
            self.assertEqual(store, sorted(store, key=lambda it: (it.startswith("store/ac/"), it)))
            actions = {line.split()[2].partition("/")[0] for line in self.lines(f"{stage}/record")[1:]}
            self.assertEqual({it[9:] for it in store if it.startswith("store/ac/")}, actions)
            self.assertLessEqual({f"store/cas/{it}" for it in actions}, set(store))

    def test_a_stage_needs_nothing_of_a_later_one(self):
        for content, verdicts in ("1", ["yes"] * 3), ("other", ["yes", "no step make-b cause input-differs t/x/1", "yes"]):
            first = spawn({"s/1": "1", "s/2": "2", "t/x/1": content, "t/x/2": "2", "t/y": "3"}, ["b"])
            second = spawn({"s/1": "1", "u/v": "v", "b": "b", "t/y": "3"}, ["c"])
            names = self.compare(log(TREE_STEP, first, second), "--stages", "1", "--outputs", "c")
            for stage, verdict in enumerate(verdicts, 1):
                folder, end = self.at(f"until {stage}"), f"{stage + 1}/claim"
                for name in (it for it in names[:names.index(end) if end in names else None] if "/" in it):
                    os.makedirs(os.path.dirname(f"{folder}/{name}"), exist_ok=True)
                    shutil.copy(self.at("asked", name), f"{folder}/{name}")
                self.judge_alone(folder, stage, verdict)
                shutil.rmtree(folder)
            shutil.rmtree(self.at("asked"))

    def judge_alone(self, folder, stage, verdict):
        """What `verify` says of a stage over a folder begins so."""
        if not os.path.exists(PROGRAM):
            self.is_unjudged = True
            return
        words = [PROGRAM, "verify", "--store", f"{folder}/store", "--plan", f"{folder}/{stage}/plan"]
        words += ["--record", f"{folder}/{stage}/record", "--sources", *self.lines(f"{stage}/sources")]
        done = subprocess.run([*words, "--claim", *self.lines(f"{stage}/claim")], capture_output=True, text=True)
        self.assertEqual((done.stdout[:len(verdict)], done.stderr), (verdict, ""))

    def test_equal_evidence_gives_equal_bytes(self):
        for words in [], ["--stages", "2"]:
            self.archive(log(*CHAIN), *words)
            whole = self.bytes_of()
            os.utime(self.at("e.tar"), (1, 1))
            # (a run over an earlier one's file; and the spawns in another order)
            for spawns in CHAIN, CHAIN[::-1]:
                self.assertEqual(self.archive(log(*spawns), *words)[0], 0)
                self.assertEqual(self.bytes_of(), whole)
        self.assertEqual(sorted(os.listdir(self.folder)), ["e.tar", "log"])

    def test_headers(self):
        self.archive(log(*CHAIN))
        with tarfile.open(self.at("e.tar"), "r:") as it:
            for member in it:
                found = member.type, member.mtime, member.mode, member.uid, member.gid, member.uname, member.gname
                self.assertEqual(found, (b"0", 0, 0o644, 0, 0, "", ""))
                block = self.bytes_of()[member.offset:member.offset_data]
                other = tarfile.TarInfo(member.name)
                other.size = member.size
                # (the fields of devices and the checksum aside)
                for part in slice(0, 148), slice(156, 329), slice(345, 512):
                    self.assertEqual(block[part], other.tobuf(tarfile.USTAR_FORMAT)[part])
        self.assertEqual(list(self.held()), list(archives.Archive(self.at("e.tar")).places))

    def test_tar_lists_it(self):
        self.archive(log(*CHAIN), "--stages", "1")
        listed = subprocess.run(["tar", "-tf", self.at("e.tar")], capture_output=True, text=True)
        self.assertEqual((listed.returncode, listed.stderr, listed.stdout.splitlines()), (0, "", list(self.held())))

    def test_make_plan(self):
        for name in ("hello", "release"):
            steps = os.path.join(TOP, "examples", name, "steps.json")
            status, out, err = called(make_plan.main, steps, "--archive", self.at("p.tar"))
            self.assertEqual((status, err, out.splitlines()[1]), (0, "", f"archive {self.at('p.tar')}"))
            self.assertEqual(called(make_plan.main, steps, self.at(name))[1].splitlines()[::2], out.splitlines()[::2])
            self.assertEqual(self.held("p.tar"), contents(self.at(name)))
            names = list(self.held("p.tar"))
            self.assertEqual(names, ["sources", "plan", *sorted(names[2:])])


class Places(ArchiveCase):
    """Where the archive is written, and what is there after a fault."""

    def test_what_is_there_and_is_no_evidence_is_left_and_refused(self):
        os.mkdir(self.at("folder"))
        os.symlink("text", self.at("link"))
        stores.write_file(self.at("text"), b"sources\n")
        with tarfile.open(self.at("tar"), "w") as it:
            it.add(self.at("text"), "other")
        before = contents(self.folder)
        steps = os.path.join(TOP, "examples", "hello", "steps.json")
        with open(self.at("log"), "w", encoding="utf-8") as out:
            out.write(log(*CHAIN))
        for name in ("folder", "link", "text", "tar"):
            told = f'/{name}" is there, and no archive that this tool wrote: remove it, or give the name of a new file'
            self.refuse_archive(told, bazel_plan.main, self.at("log"), "--archive", self.at(name))
            self.refuse_archive(told, make_plan.main, steps, "--archive", self.at(name))
        os.remove(self.at("log"))
        self.assertEqual(contents(self.folder), before)

    def test_a_run_that_fails_leaves_nothing_of_an_earlier_one(self):
        for words in [], ["--stages", "1"]:
            self.assertEqual(self.archive(log(*CHAIN), *words)[0], 0)
            status, out, _ = self.archive(log(spawn({}, ["a"], {"a": "a", "a/b": "b"})))
            self.assertEqual((status, out, os.listdir(self.folder)), (2, "", ["log"]))

    def test_a_fault_while_it_is_written(self):
        add, steps = archives.Writer.add, os.path.join(TOP, "examples", "hello", "steps.json")

        def fail_at(count, fault):
            def failing(writer, *words):
                nonlocal count
                count -= 1
                if count < 0:
                    raise fault
                add(writer, *words)

            return mock.patch.object(archives.Writer, "add", failing)

        for count in (0, 1, 5, 9):
            for fault in (OSError(28, "No space left on device"), KeyboardInterrupt(), MemoryError()):
                with fail_at(count, fault):
                    self.assertEqual(self.archive(log(*CHAIN))[::2], (3, f"error: {str(fault) or type(fault).__name__}\n"))
                with fail_at(count, fault):
                    self.assertEqual(called(make_plan.main, steps, "--archive", self.at("e.tar"))[0], 3)
                self.assertEqual(os.listdir(self.folder), ["log"])

    def test_lines_that_cannot_be_printed(self):
        stores.write_file(self.at("log"), log(*CHAIN).encode())
        words = os.path.join(TOP, "tools", "evidence", "bazel_plan.py"), self.at("log"), "--archive", self.at("e.tar")
        for before in "exec >/dev/full", "exec >&-", "ulimit -f 0":
            command = ["sh", "-c", f'{before}; exec "$@"', "sh", sys.executable, *words]
            done = subprocess.run(command, stderr=subprocess.PIPE, text=True)
            self.assertEqual((done.returncode, done.stderr.count("\n")), (3, 1))
            self.assertEqual(os.listdir(self.folder), ["log"])

    def test_nothing_is_written_into_the_artifact(self):
        self.ship({"o/d": "o/d"})
        for name in ("shipped/e.tar", "shipped/o/d"):
            status, _, err = self.archive(log(*CHAIN), "--artifact", self.at("shipped"), name=name)
            self.assertEqual((status, contents(self.at("shipped"))), (2, {"o/d": b"o/d"}))
            self.assertIn(f'{name}" lies in the artifact, and nothing may be written there', err)

    def test_words(self):
        for main, word in (bazel_plan.main, "log"), (make_plan.main, "steps"):
            for words in ("asked", "--archive", "e.tar"), ("--archive", "e.tar", "asked"):
                self.refuse_archive("stands in ", main, word, *words)
            self.refuse_archive("the following arguments are required: FOLDER", main, word)
            self.refuse_archive("--archive is given twice", main, word, "--archive", "a", "--archive", "b")
            self.refuse_archive("'' is no path", main, word, "--archive", "")
        self.refuse_archive("--archive and --store are one file", bazel_plan.main, "log", "--archive", "a", "--store", "./a")


class Stores(ArchiveCase):
    """The archive beside a store: what each has then."""

    def test_a_store_folder_has_the_store(self):
        self.assertEqual(self.archive(log(*CHAIN), "--store", self.at("kept"))[0], 0)
        self.assertEqual([it for it in self.held() if it.startswith("store")], [])
        self.call(log(*CHAIN))
        self.assertEqual(contents(self.at("kept")), contents(self.at("asked", "store")))

    def test_a_server_has_the_blobs(self):
        with Keeper() as server:
            self.assertEqual(self.archive(log(*CHAIN), "--server", server.address)[0], 0)
            self.call(log(*CHAIN))
            for part, held in ("cas", server.held), ("ac", {f"/{it[6:]}": blob for it, blob in self.held().items()}):
                wanted = {f"/{it}": blob for it, blob in contents(self.at("asked", "store")).items() if it.startswith(part)}
                self.assertEqual({it: blob for it, blob in held.items() if it.startswith(f"/{part}/")}, wanted)

    def test_another_result_in_an_earlier_archive(self):
        self.archive(log(*CHAIN))
        before = self.bytes_of()
        other = [*CHAIN[:3], spawn({"o/a": "o/a", "o/d": "o/d"}, ["o/e"], {"o/e": "other"})]
        for place in ["--archive", self.at("later.tar")], [self.at("asked")]:
            with open(self.at("log"), "w", encoding="utf-8") as out:
                out.write(log(*other))
            told = f'the store has another result of its action, "{self.at("e.tar")}/store/ac/'
            self.refuse_archive(told, bazel_plan.main, self.at("log"), *place, "--store", self.at("e.tar"))
            self.assertFalse(os.path.exists(place[-1]))
        self.assertEqual(self.archive(log(*CHAIN), "--store", self.at("e.tar"), name="later.tar")[0], 0)
        self.assertEqual((self.bytes_of(), self.bytes_of("later.tar")), (before, before))
        stores.write_file(self.at("e.tar"), before[:-1])
        status, _, err = self.archive(log(*CHAIN), "--store", self.at("e.tar"), name="later.tar")
        self.assertEqual((status, err), (2, f'error: "{self.at("e.tar")}": at byte {len(before) - 1024}: {archives.CUT}\n'))
        self.assertFalse(os.path.exists(self.at("later.tar")))


class Verified(ArchiveCase):
    """verify_stages.py over an archive says what it says over the folder."""

    # It says yes, with as many steps as there are lines of `step` in the record.
    YES = (
        '#!/bin/sh\nwhile [ "$1" != --claim ]; do shift; done; claim=$2; while [ "$1" != --record ]; do shift; done; '
        'echo "yes $claim steps $(grep -c ^step "$2")"\n'
    )

    def setUp(self):
        super().setUp()
        self.program_says(self.YES)
        os.mkdir(self.at("tmp"))
        self.env = {**os.environ, "TMPDIR": self.at("tmp")}

    def program_says(self, script):
        stores.write_file(self.at("program"), script.encode())
        os.chmod(self.at("program"), 0o755)

    def verify(self, *words, program=None):
        """Status, standard output and standard error; no temporary file is left. Without a program stages are asked one by one."""
        words = (*words, *(("--jobs", "1") if not program and "--jobs" not in words else ()))
        tool = os.path.join(TOP, "tools", "evidence", "verify_stages.py")
        done = subprocess.run([sys.executable, tool, *words], capture_output=True, text=True, cwd=self.folder,
                              env={**self.env, "BUILDCACHE": program or self.at("program")})
        self.assertEqual(os.listdir(self.at("tmp")), [])
        return done.returncode, done.stdout, done.stderr

    def write_both(self, *words):
        for done in self.call(log(*CHAIN), *words), self.archive(log(*CHAIN), *words):
            self.assertEqual(done[0], 0)

    def test_as_the_folder(self):
        for words in [], ["--stages", "2"]:
            self.write_both(*words)
            evidence = self.verify("e.tar", "--digest")[1].strip()
            for more in [], ["--digest"], ["--evidence", evidence], ["--evidence", evidence, "--shard", "1/2"], ["--jobs", "2"]:
                told = self.verify("e.tar", *more)
                self.assertEqual(told, self.verify("asked", *more) if "--shard" not in more or words else (2, "", told[2]))
                self.assertEqual(told[0], 2 if "--shard" in more and not words else 0, told)
            shutil.rmtree(self.at("asked"))

    def test_by_the_program(self):
        if not os.path.exists(PROGRAM):
            self.is_unjudged = True
            return
        self.write_both("--stages", "1")
        self.assertEqual(self.verify("e.tar", program=PROGRAM), (0, f"yes {self.lines('claim')[0]} stages 4 steps 4\n", ""))
        self.assertEqual(self.verify("asked", "--store", "e.tar", program=PROGRAM)[0], 0)
        stores.write_texts(self.at("asked", "2"), {"record": self.lines("1/record")})
        # (a folder as `tar` writes it, with folders, dates and owners)
        subprocess.run(["tar", "-C", self.at("asked"), "-cf", self.at("e.tar"), "."], check=True)
        status, out, err = self.verify("asked", program=PROGRAM)
        self.assertEqual((status, err[:7]), (2, "error: "))
        self.assertEqual(self.verify("e.tar", program=PROGRAM), (status, out, err.replace("asked/2/record", "e.tar/2/record")))

    def test_blobs_of_a_server(self):
        if not os.path.exists(PROGRAM):
            self.is_unjudged = True
            return
        with Keeper() as server:
            for words in ["--server", server.address], []:
                self.assertEqual(self.archive(log(*CHAIN), *words, "--stages", "2")[0], 0)
                found = self.verify("e.tar", "--server", server.address, program=PROGRAM)
                self.assertEqual((found[0], found[1][-17:], found[2]), (0, "stages 2 steps 4\n", ""))

    def test_faults_name_the_archive(self):
        self.archive(log(*CHAIN), "--stages", "1")
        held = self.held()
        for changed, status, told in (
            ({"plan": b""}, 2, '"e.tar": it has stages, and a plan beside them'),
            ({"stages": b"1\n2\n9\n"}, 3, "No such file or directory: 'e.tar/9/sources'"),
            ({}, 3, 'stage 1: "e.tar/1/plan"'),
        ):
            with archives.written(self.at("e.tar")) as out:
                for name, content in {**held, **changed}.items():
                    out.add(name, content)
            self.program_says('#!/bin/sh\nwhile [ "$1" != --plan ]; do shift; done; echo "error: \\"$2\\"" >&2; exit 3\n')
            found = self.verify("e.tar")
            self.assertEqual((found[0], found[1], found[2].count("\n")), (status, "", 1))
            self.assertIn(told, found[2])

    def test_what_is_no_evidence_is_not_unpacked(self):
        with archives.written(self.at("x.tar")) as out:
            # (paths of which one can't stand beside another on a disk, and others at which no verdict looks)
            names = ["a", "a/b", "store", "store/cas", f"store/cas/{'0' * 63}", f"store/cas/{'0' * 64}/x"]
            names += ["01/plan", "1/2/plan", "é"]
            for it in [*names, f"store/cas/{'0' * 64}", "1/plan", "claim", "stages"]:
                out.add(it, it.encode())
        asked = ["1/plan", "claim", "stages"]
        for has_blobs, names in (True, [f"store/cas/{'0' * 64}", *asked]), (False, asked):
            with archives.as_folder(self.at("x.tar"), has_blobs) as folder:
                self.assertEqual(contents(folder), {it: it.encode() for it in names})
            self.assertFalse(os.path.exists(folder))

    def test_hostile_archives(self):
        for name, told in {
            "hard_link": "a link, which isn't read", "link": "a link, which isn't read", "twice": "1024: the name stands twice",
            "pax_path": "a pax record of more", "pax_size": "a pax record of more", "cut": archives.CUT, "no_end": archives.CUT,
            "checksum": "the checksum of a header is wrong", "dots": "the name isn't that of a file", "nothing": archives.CUT,
        }.items():
            with self.subTest(name):
                place = os.path.join(VECTORS, "data", name)
                status, out, err = self.verify(place)
                self.assertEqual((status, out, err.count("\n"), err[:7]), (2, "", 1, "error: "))
                self.assertIn(f'"{place}": at byte ', err)
                self.assertIn(told, err)
        # (read as an archive, it asks nothing)
        self.assertEqual(self.verify(os.path.join(VECTORS, "data", "plain"))[0], 3)
        self.assertIn(": at byte 0: ", self.verify(__file__)[2])

    def test_the_tool_takes_no_archive_to_write(self):
        self.refuse_archive("unrecognized arguments: --archive", verify_stages.main, "e.tar", "--archive", "f.tar")
