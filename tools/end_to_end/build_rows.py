#!/usr/bin/env python3
"""Tries `build` with real processes, over the program's own server: build_rows.py PROGRAM

Steps that make a file, end with an exit code, name no program by an absolute path, make what is no output, read an input, and
wait for each other; steps that can't be opened, started or laid out; processes that come to nothing; links and folders at an
output path, what a step writes beside its files, and what it is given; lines whose directories merge, and that don't; the
second build of a plan, which runs nothing, a build that goes on where a signal ended it, and two builds at once; two steps of
one action; the `verify` of each record; folders that can't be those of the jobs; what stands at the record's path; and texts
that can't be read. It prints a line for each row, and ends with status 1 where one failed. Nothing outside this machine is
asked.
"""

import concurrent.futures
import os
import signal
import subprocess
import time

from server_streams import NINE, directory
from shared import harness, stores
from shared.builds import MADE, SHELL, record_of, try_each
from shared.messages import EMPTY, Digest, File, Link, action_message, command_message, directory_message
from shared.rows import try_rows


def rows_of_one_step(builds):
    printed = [*SHELL, "printf %s 123456789 > out"]
    done, first = builds.build(builds.one_step(printed))
    builds.expect_built("a file is made", done, first, MADE)
    builds.rows.tell("and one process was run", os.listdir(f"{first}/work") == ["0"], os.listdir(f"{first}/work"))
    for name, words, out, why in [
        ("an exit code", [*SHELL, "exit 3"], "failed step mk 103\n", "step mk: exit code 3"),
        ("a program by its name alone", ["sh", "-c", "exit 0"], "failed step mk 112\n", "step mk: the program has no absolute path"),
        ("a fifo", [*SHELL, "mkfifo out"], "failed step mk 114\n", "step mk: path out is no output"),
        ("nothing at the output path", [*SHELL, "exit 0"], "failed root 106\n", "root: origin out is missing"),
    ]:
        done, place = builds.build(builds.one_step(words))
        builds.expect(name, done, place, out, 1)
        builds.rows.tell("and why is noted", done.stderr == f"note: {why}\n".encode(), done.stderr)
    done, place = builds.build(builds.one_step(printed))
    builds.expect_built("again: the result is the store's", done, place, MADE)
    builds.ran_nothing(place)
    builds.rows.tell("and the record is the same", record_of(place) == record_of(first), record_of(place))
    builds.put(NINE)
    given = builds.put(directory("a"))
    done, place = builds.build(builds.one_step([*SHELL, 'read -r l < d/x; printf %s "$l" > out'], ["d/x src a"]), given)
    builds.expect_built("an input is read", done, place, MADE, 1, given)


def rows_of_processes(builds):
    """A process that can't be started, whose outputs can't be read, or that a signal ends: no line, and its error tells which."""
    text = f"{builds.work}/text"
    stores.write_file(text, b"no program")
    deep = "/".join(["n" * 250] * 10)
    for name, words, why in [
        ("a program that isn't there", ["/none/x"], 'can\'t run "/none/x": No such file or directory (os error 2)'),
        ("one whose name is quoted", ['/none/"\n é'], 'can\'t run "/none/\\"\\n é": No such file or directory (os error 2)'),
        ("a program without its executable bit", [text], f'can\'t run "{text}": Permission denied (os error 13)'),
        ("an output at a path of more than 4,095 bytes", [*SHELL, f"mkdir -p out/{deep} a/{deep}; mv a out/{deep}"],
         'can\'t read the outputs of "/bin/sh": File name too long (os error 36)'),
        ("a process that SIGKILL ends", [*SHELL, "kill -9 $$"], '"/bin/sh" was ended by signal 9'),
        ("a process that SIGTERM ends", [*SHELL, "kill $$"], '"/bin/sh" was ended by signal 15'),
    ]:
        done, place = builds.build(builds.one_step(words))
        builds.expect(name, done, place, "", 3)
        builds.rows.tell("and it is told", done.stderr == f"error: step mk: {why}\n".encode(), done.stderr)


def rows_of_refusals(builds):
    """A step that can't be opened, started or laid out, each for one reason, and for two of which the first is told."""
    true = command_message(["/bin/true"], [])
    command, nine, lost = Digest.of(true), File(Digest.of(NINE), False), Digest.of(b"lost")
    builds.put(NINE)
    builds.put(true)
    frame = builds.put(action_message(command))
    uncached = builds.put(action_message(command, is_cacheable=False))
    no_command, neither = (builds.put(action_message(lost, is_cacheable=it)) for it in (True, False))
    given = builds.put(directory_message({"a": nine, "d": Digest.of(NINE), "e": lost, "f": File(lost, False), "l": Link("a")}))
    linked = builds.put(directory_message({"a": nine, "l": Link("a")}))
    deep = "/".join("n" * 64)
    for name, step, sources, line, number in [
        ("a frame that the store lacks", lost.text(), linked, "", 107),
        ("a frame that is none", Digest.of(NINE).text(), linked, "", 107),
        ("a command that the store lacks", no_command, linked, "", 107),
        ("a step whose result isn't to be kept", uncached, linked, "", 108),
        ("such a step whose command the store lacks", neither, linked, "", 108),
        ("no sources", frame, lost.text(), "x src a", 107),
        ("sources that are no Directory", frame, Digest.of(NINE).text(), "x src a", 107),
        ("no origin", frame, given, "x src b", 106),
        ("an origin below a file", frame, given, "x src a/b", 106),
        ("an origin below a link", frame, given, "x src l/b", 106),
        ("an origin below a Directory that the store lacks", frame, given, "x src e/b", 107),
        ("a Directory that the store lacks", frame, given, "x src e", 42),
        ("a Directory that is none", frame, given, "x src d", 44),
        ("a file that the store lacks", frame, given, "x src f", 42),
        ("a link", frame, given, "x src l", 111),
        ("a link in a folder", frame, linked, "x src .", 111),
        ("a folder with an entry at a path of 64 names", frame, linked, f"{deep} src .", 46),
        ("a file at one", frame, linked, f"{deep} src a", None),
        ("sources that the store lacks and that nothing reads", frame, lost.text(), "", None),
    ]:
        plan = f"buildplan 1\nstep mk {step}\n{f'in {line}' if line else ''}\nroot\n".replace("\n\n", "\n")
        done, place = builds.build(plan, sources)
        if number:
            builds.expect(f"an input with {name}" if line else name, done, place, f"failed step mk {number}\n", 1)
            builds.ran_nothing(place)
        else:
            builds.expect_built(name, done, place, EMPTY.text(), 1, sources)


def rows_of_outputs(builds):
    """What stands at an output path, looked at as `cat` and `ls` do: through links, and whatever a file's mode."""
    made = "printf %s 123456789 >"
    for name, script in [
        ("a file with mode 755", f"{made} out; chmod 755 out"),
        ("a link to a file at the output path", f"{made} real; ln -s real out"),
        ("a link to a link to a file outside of the step's folder", f'{made} "$0"; ln -s "$0" two; ln -s two out'),
    ]:
        done, place = builds.build(builds.one_step([*SHELL, script, f"{builds.work}/outside"]))
        builds.expect_built(name, done, place, MADE)
    nine = File(Digest.of(NINE), is_executable=False)
    folders = {"a": {"d": {"e": {"f": nine, "g": {}}, "h": nine}, "a-b": nine}}
    root = Digest.of(directory_message(folders)).text()
    tree = f"{made} a-b; mkdir -p d/e/g; {made} d/e/f; {made} d/h; chmod 755 d/h d/e"
    for name, script in [
        ("a folder of folders", f"mkdir out; cd out; {tree}"),
        ("a link to such a folder at the output path", f"mkdir real; ln -s real out; cd real; {tree}"),
        ("links in a folder", f"mkdir out real; cd real; {tree}; cd ../out; ln -s ../real/d ../real/a-b ."),
    ]:
        done, place = builds.build(builds.one_step([*SHELL, script]))
        builds.expect_built(name, done, place, root)
    for name, script, number in [
        ("a link that leads nowhere at the output path", "ln -s nowhere out", "root 106"),
        ("a link that leads to itself at the output path", "ln -s out out", "step mk 114"),
        ("a link that leads nowhere, in a folder", "mkdir out; ln -s nowhere out/a", "step mk 114"),
        ("a link to the folder that it is in", "mkdir out; ln -s . out/a", "step mk 114"),
        ("a fifo in a folder of a folder", "mkdir -p out/a; mkfifo out/a/b", "step mk 114"),
        ("a name that is no UTF-8", "mkdir out; : > out/$(printf '\\377')", "step mk 114"),
        ("a file of 16,777,217 bytes", "truncate -s 16777217 out", "step mk 114"),
    ]:
        done, place = builds.build(builds.one_step([*SHELL, script]))
        builds.expect(name, done, place, f"failed {number}\n", 1)


def rows_of_streams(builds):
    """What a step writes to its output and its error goes nowhere, and with `--verbose` its error to the build's own."""
    done, place = builds.build(builds.one_step([*SHELL, "printf %s 123456789 > out; echo output; echo error: x >&2"]))
    builds.expect_built("a step that writes to its output and its error", done, place, MADE)
    done, place = builds.build(builds.one_step([*SHELL, "echo error: x >&2; kill -9 $$"]))
    builds.expect("a step that writes an error and is ended by a signal", done, place, "", 3)
    builds.rows.tell("and no line is the step's", b"error: x\n" not in done.stderr, done.stderr)
    script = "printf %s 123456789 > out; echo more output; echo warning >&2"
    done, place = builds.build(builds.one_step([*SHELL, script]), more=["--verbose"])
    shown = (done.stdout, done.stderr, done.returncode) == (f"built {MADE} steps 1\n".encode(), b"warning\n", 0)
    builds.rows.tell("with --verbose a step's error is shown, and its output isn't", shown, done)
    done, place = builds.build(builds.one_step([*SHELL, "echo warning >&2; kill -9 $$"]), more=["--verbose"])
    first, _, last = done.stderr.partition(b"\n")
    shown = first == b"warning" and harness.is_error(last) and done.returncode == 3
    builds.rows.tell("and before the line of the build's own error", shown, done)


def rows_of_two_steps(builds):
    waits = 'n=0; : > "$1"; while [ ! -e "$2" ]; do n=$((n+1)); [ $n -le 3000000 ] || exit 1; done'
    for jobs in (2, None):
        marks = [f"{builds.work}/mark-{jobs}-{it}" for it in "ab"]
        steps = [("one", [*SHELL, waits, "sh", *marks], [], ()), ("two", [*SHELL, waits, "sh", *reversed(marks)], [], ())]
        done, place = builds.build(builds.plan(steps, []), jobs=jobs)
        name = f"two steps that wait for each other, {jobs or 'without --jobs one'} at once"
        if jobs:
            builds.expect_built(name, done, place, EMPTY.text(), 2)
        else:
            builds.expect(name, done, place, "failed step one 103\n", 1)


def rows_of_given(builds):
    """What a step is given: no input, its command's variables alone, its command's folder, and names of all letters."""
    made = "printf %s 123456789 >"
    done, place = builds.build(builds.one_step([*SHELL, "cat > out"]))
    builds.expect_built("a step that reads its standard input to the end", done, place, Digest.of(directory("a", b"")).text())
    variables = builds.one_step(["/usr/bin/sort", "-z", "-o", "out", "/proc/self/environ"], environment=[("A", "1"), ("B", "x y")])
    done, place = builds.build(variables)
    builds.expect_built("a step has its command's variables alone", done, place, Digest.of(directory("a", b"A=1\0B=x y\0")).text())
    done, place = builds.build(builds.one_step([*SHELL, f"cd ../../d/e && {made} out"], folder="d/e"))
    builds.expect_built("a step starts in its command's folder", done, place, MADE)
    builds.rows.tell("where its output is", os.path.exists(f"{place}/work/0/d/e/out"), os.listdir(f"{place}/work/0"))
    builds.put(NINE)
    given = builds.put(directory("é +", NINE))
    reads = ["i%20n/%C3%B6 src %C3%A9%20%2B"]
    plan = builds.plan([("mk", [*SHELL, "cat 'i n/ö' > 'o ü%20'"], ["o ü%20"], reads)], ["a out mk o%20%C3%BC%2520"])
    done, place = builds.build(plan, given)
    builds.expect_built("names with blanks and other letters", done, place, MADE, 1, given)
    left = f"{builds.work}/left"
    done, place = builds.build(builds.one_step([*SHELL, f'sleep 600 & echo $! > "$0"; {made} out', left]))
    builds.expect_built("a process that a step leaves behind isn't waited for", done, place, MADE)
    os.kill(int(stores.read_file(left)), signal.SIGKILL)


def rows_of_ended(builds):
    """A build that a signal ends goes on where it was; one over a server that was started again says what is missing."""
    mark, made = f"{builds.work}/begun", "printf %s 123456789 > out"
    waits = f'[ -e "$0" ] || {{ echo $$ > "$0.new"; mv "$0.new" "$0"; exec sleep 600; }}; {made}'
    steps = [("one", [*SHELL, made], ["out"], ()), ("two", [*SHELL, waits, mark], ["out"], ["x out one out"])]
    plan = builds.plan(steps, ["a out two out"])
    words, place = builds.words(plan)
    with subprocess.Popen([builds.program, *words], stdin=subprocess.DEVNULL, stdout=subprocess.PIPE) as ended:
        for _ in range(600):
            if os.path.exists(mark):
                break
            time.sleep(0.1)
        ended.terminate()
        out, status = ended.communicate()[0], ended.returncode
    os.kill(int(stores.read_file(mark)), signal.SIGKILL)
    right = (out, status) == (b"", -signal.SIGTERM) and not os.path.exists(f"{place}/record")
    builds.rows.tell("a build that SIGTERM ends has no line and no record", right, (out, status))
    done, place = builds.build(plan)
    builds.expect_built("it is built when it is asked again", done, place, MADE, 2)
    jobs = os.listdir(f"{place}/work")
    builds.rows.tell("and the step that had finished isn't run again", jobs == ["0"], jobs)
    frame, action = plan.split()[4], record_of(place).decode().split()[4]
    builds.renew()
    builds.expect_verdict("its verify over a server that was started again", place, MADE,
                          f"no step one cause blob-missing {action}\n", 1)
    done, place = builds.build(plan)
    builds.expect("and its build there", done, place, "failed step one 107\n", 1)
    builds.rows.tell("and why is noted", done.stderr == f"note: step one: blob {frame} is missing\n".encode(), done.stderr)


def rows_of_two_builds(builds):
    """Two builds of a plan at once over one server: both run its step, and come to the same."""
    marks = f"{builds.work}/marks"
    os.mkdir(marks)
    waits = 'mktemp "$0"/XXXXXX; n=0; until [ $(ls "$0" | wc -l) = 2 ]; do n=$((n+1)); [ $n -le 1000 ] || exit 1; sleep 0.02; done'
    builds.renew("--at-once", "4")
    plan = builds.one_step([*SHELL, f"{waits}; printf %s 123456789 > out", marks])
    both = [builds.words(plan) for _ in range(2)]
    with concurrent.futures.ThreadPoolExecutor() as pool:
        for done, (_, place) in zip(pool.map(lambda it: builds.run(*it[0]), both), both):
            builds.expect_built("one of two builds of a plan at once", done, place, MADE)
    builds.renew()


def rows_of_one_action(builds):
    """Two steps of one action: at once they may come to two outcomes, and one after another the first one's result is taken."""
    words = [*SHELL, "echo $$ > out"]
    plan = builds.plan([("one", words, ["out"], ()), ("two", words, ["out"], ())], [])
    done, place = builds.build(plan, jobs=2)
    builds.expect("two steps of one action that make different files", done, place, "failed step two 104\n", 1)
    builds.renew()
    done, place = builds.build(builds.plan([("one", words, ["out"], ()), ("two", words, ["out"], ())], []))
    builds.expect_built("the same one after another", done, place, EMPTY.text(), 2)
    jobs = os.listdir(f"{place}/work")
    builds.rows.tell("of which the first alone is run", jobs == ["0"], jobs)


def rows_of_merges(builds):
    """Version 2: a step that reads its sources and what an earlier one made in one folder, and a root of two steps' folders."""

    def makes(files):
        return [*SHELL, "mkdir out" + "".join(f"; printf %s {content} > out/{name}" for name, content in files.items())]

    def roots(first, second):
        """A plan of two steps that make a folder each, and a root that merges these."""
        steps = [("one", makes(first), ["out"], ()), ("two", makes(second), ["out"], ())]
        return builds.plan(steps, ["r out one out", "r out two out"], 2)

    def of(content):
        return File(Digest.of(content), is_executable=False)

    builds.put(NINE)
    given = builds.put(directory("a"))
    use = ("use", [*SHELL, "mkdir out; cat d/a d/b > out/c"], ["out"], ["d src .", "d out gen out"])
    plan = builds.plan([("gen", makes({"b": "made"}), ["out"], ()), use], ["r out gen out", "r out use out"], 2)
    root = Digest.of(directory_message({"r": {"b": of(b"made"), "c": of(NINE + b"made")}})).text()
    done, place = builds.build(plan, given)
    builds.expect_built("sources and a step's folder in one, and the folders of two steps", done, place, root, 2, given)
    done, place = builds.build(plan.replace("buildplan 2", "buildplan 1"), given)
    builds.expect("a plan of version 1 with lines that meet", done, place, "", 2)
    done, place = builds.build(builds.plan([("gen", makes({"a": "made"}), ["out"], ()), use], [], 2), given)
    builds.expect("a file of the sources and another that a step made at its path", done, place, "failed step use 110\n", 1)
    done, place = builds.build(roots({"b": "made"}, {"b": "other"}))
    builds.expect("two steps that made different files at one path", done, place, "failed root 110\n", 1)
    done, place = builds.build(roots({"b": "made"}, {"b": "made", "c": "more"}))
    root = Digest.of(directory_message({"r": {"b": of(b"made"), "c": of(b"more")}})).text()
    builds.expect_built("two steps that made the same file at one path", done, place, root, 2)
    meeting = stores.read_file(f"{place}/plan").decode().replace("in r out two out", "in r/b out two out")
    stores.write_file(f"{place}/plan", meeting.encode())
    builds.expect_verdict("a folder at the path of a file: no", place, root, "no root cause input-conflict r/b\n", 1)


def rows_of_the_folder(builds):
    plan = builds.one_step([*SHELL, "exit 0"])
    for name, spoil in [
        ("no folder for the jobs", os.rmdir),
        ("a folder for the jobs that isn't empty", lambda work: os.mkdir(f"{work}/other")),
        ("a folder for the jobs with a name that is no UTF-8", lambda work: os.mkdir(os.fsencode(work) + b"/\xff")),
    ]:
        done, place = builds.build(plan, spoil=spoil)
        builds.expect(name, done, place, "", 3)
        builds.rows.tell("and it is named", f'"{place}/work"'.encode() in done.stderr, done.stderr)
        left = os.path.exists(f"{place}/work/0")
        builds.rows.tell("and no process was run", not left, left)
    done, place = builds.build(plan, spoil=lambda work: os.mkdir(f"{work}/0"), address="127.0.0.1:1")
    builds.expect("a folder that isn't empty, and no server: the server is told", done, place, "", 3)
    builds.rows.tell("and it is named", b"127.0.0.1:1" in done.stderr, done.stderr)
    gone = f"{builds.work}/{builds.count + 1}/work"
    steps = [("one", [*SHELL, 'rm -rf "$1"', "sh", gone], [], ()), ("two", [*SHELL, "exit 0"], [], ())]
    done, place = builds.build(builds.plan(steps, []))
    builds.expect("a folder that is gone once the first job has ended", done, place, "", 3)
    told = b'error: step two: can\'t run "/bin/sh": No such file or directory (os error 2)\n'
    builds.rows.tell("and the step and its program are told", done.stderr == told, done.stderr)


def rows_of_the_record(builds):
    """What stands at the record's path: a file is replaced, through links, which stay; what is no file is told before a step
    runs, and stays."""
    plan = builds.one_step([*SHELL, "printf %s 123456789 > out"])
    done, first = builds.build(plan)
    builds.expect_built("nothing at the record's path", done, first, MADE)
    for name, link in [("a file at the record's path", None), ("a link to a file", "kept"), ("a link to a link to a file", "two")]:

        def lay(work, link=link):
            place = os.path.dirname(work)
            stores.write_file(f"{place}/{'kept' if link else 'record'}", b"old")
            stores.write_file(f"{place}/{'kept' if link else 'record'}.new0", b"another's")
            os.symlink("kept", f"{place}/two")
            if link:
                os.symlink(link, f"{place}/record")

        done, place = builds.build(plan, spoil=lay)
        builds.expect_built(name, done, place, MADE)
        builds.rows.tell("and the record is the same", record_of(place) == record_of(first), record_of(place))
        left = os.readlink(f"{place}/record") if os.path.islink(f"{place}/record") else None
        builds.rows.tell("and a link stays", left == link, left)
        kept = "kept" if link else "record"
        beside = sorted(it for it in os.listdir(place) if it.startswith(kept))
        builds.rows.tell("and nothing new beside it", beside == [kept, f"{kept}.new0"], beside)
        builds.rows.tell("and what was beside it stays", stores.read_file(f"{place}/{kept}.new0") == b"another's")
    rows_of_no_record(builds)


def rows_of_no_record(builds):
    """Where no record can be written, that is told before a step runs."""
    plan = builds.one_step([*SHELL, "exit 0"])
    for name, make in [
        ("a fifo at the record's path", os.mkfifo),
        ("a folder at the record's path", os.mkdir),
        ("a link to a device at the record's path", lambda path: os.symlink("/dev/null", path)),
        ("a link that leads nowhere at the record's path", lambda path: os.symlink("nowhere", path)),
    ]:
        done, place = builds.build(plan, spoil=lambda work, make=make: make(f"{os.path.dirname(work)}/record"))
        expect_no_record(builds, name, done, place, "record")
        builds.rows.tell("and it stays", sorted(os.listdir(place)) == ["plan", "record", "work"], os.listdir(place))
        builds.rows.tell("as it was", not os.path.isfile(f"{place}/record"))
    done, place = builds.build(plan, record="none/record")
    expect_no_record(builds, "a record in a folder that isn't there", done, place, "none/record")
    builds.rows.tell("and the folder isn't made", not os.path.exists(f"{place}/none"))


def expect_no_record(builds, name, done, place, record):
    right = (done.stdout, done.returncode) == (b"", 3) and harness.is_error(done.stderr)
    builds.rows.tell(name, right and f'"{place}/{record}"'.encode() in done.stderr, done)
    builds.ran_nothing(place)


HINTS = [
    ("a line that ends with CR LF", "buildplan 1\r\nroot\r\n", "line 1: ", "the line ends with CR LF"),
    ("a blank at the end of a line", "buildplan 1\nroot \n", "line 2: ", "a blank ends the line"),
    ("no newline at the end", "buildplan 1\nroot\nin a src b", "line 3: ", "the text has no newline at its end"),
    ("a text that ends before its root", "buildplan 1\n", "line 2: ", "the text ends before it"),
    ("a byte that isn't escaped", "buildplan 1\nroot\nin a src b+c\n", "line 3: ", "is escaped, a space as %20"),
    ("a space that isn't escaped", "buildplan 1\nroot\nin a b src c\n", "line 3: ", "is escaped, a space as %20"),
    ("an escape in lower case", "buildplan 1\nroot\nin a src %c3%a9\n", "line 3: ", "is escaped, a space as %20"),
    ("a step that comes later", f"buildplan 1\nstep a {MADE}\nin b out c d\nstep c {MADE}\nroot\n", "line 3: ", "a later step has it"),
    ("the step itself", f"buildplan 1\nstep a {MADE}\nin b out a d\nroot\n", "line 3: ", "the step itself has it"),
    ("no step", f"buildplan 1\nstep a {MADE}\nin b out c d\nroot\n", "line 3: ", "no step has it"),
]


def rows_of_hints(builds):
    """What is told of a plan that can't be read, or of a record: its line, and what may be wrong with it."""
    for name, plan, line, hint in HINTS:
        done, place = builds.build(plan)
        builds.expect(name, done, place, "", 2)
        told = f'"{place}/plan": {line}'.encode() in done.stderr and done.stderr.endswith(f"{hint}\n".encode())
        builds.rows.tell("and the line is told, and what is wrong with it", told, done.stderr)
    done, place = builds.build("buildplan 1\nroot\n")
    stores.write_file(f"{place}/record", b"buildrecord 1\r\n")
    words = ["--sources", EMPTY.text(), "--plan", f"{place}/plan", "--record", f"{place}/record", "--claim", EMPTY.text()]
    told = builds.run("verify", "--server", builds.address, *words)
    builds.rows.tell("a record that ends with CR LF", told.returncode == 2 and told.stderr.endswith(b"; the line ends with CR LF\n"), told)
    stores.write_file(f"{place}/record", b"buildrecord 1\n")
    told = builds.run("verify", "--store", f"{place}/none", *words[:-1], MADE)
    note = f'note: "{place}/none": there is no such folder, so what is missing from it says nothing about the build\n'.encode()
    builds.rows.tell("a no over a store folder that isn't there is noted", (told.returncode, told.stderr) == (1, note), told)
    told = builds.run("verify", "--store", f"{place}/work", *words[:-1], MADE)
    builds.rows.tell("and over one that is there it isn't", (told.returncode, told.stderr) == (1, b""), told)


def try_all(rows, program):
    try_each(rows, program, [
        rows_of_one_step, rows_of_processes, rows_of_refusals, rows_of_outputs, rows_of_streams,
        rows_of_two_steps, rows_of_given, rows_of_ended, rows_of_two_builds, rows_of_one_action,
        rows_of_merges, rows_of_the_folder, rows_of_the_record, rows_of_hints,
    ])


if __name__ == "__main__":
    try_rows(__doc__, try_all)
