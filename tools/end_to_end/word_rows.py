#!/usr/bin/env python3
"""Tries what the program says to its words, and to files that can't be read: word_rows.py PROGRAM

The help of each command; words that are missing, unknown, too many or no UTF-8; what goes beside evidence; numbers at and beyond
each limit; several faults at once, of which the first is told; plans and records of all kinds; and names with other letters. It
prints a line for each row, and ends with status 1 where one failed. Nothing outside this machine is asked.
"""

import itertools
import os
import re
import subprocess
import tempfile

from shared import harness, stores
from shared.harness import is_error
from shared.messages import EMPTY
from shared.rows import try_rows

MOST = 2**63 - 1
ADDRESS = "127.0.0.1:1"
# Each command's options with a text that is right, those that it can do without, and its own word.
COMMANDS = {
    "serve": ({"listen": "127.0.0.1:0", "limit": "1", "result-limit": "1"},
              {"prefix": "/p", "idle": "1", "at-once": "1", "connections": "0"}, []),
    "verify": ({"sources": EMPTY.text(), "plan": "plan", "record": "record", "claim": EMPTY.text()},
               {"store": "store", "server": ADDRESS, "results": "store", "prefix": "/p", "timeout": "1"}, []),
    "put": ({"server": ADDRESS}, {"prefix": "/p", "timeout": "1"}, ["plan"]),
    "get": ({"server": ADDRESS}, {"prefix": "/p", "timeout": "1", "into": "tree"}, [EMPTY.text()]),
    "digest": ({}, {}, ["plan"]),
    "compare": ({}, {}, ["evidence", "other"]),
    "build": ({"server": ADDRESS, "sources": EMPTY.text(), "plan": "plan", "record": "made", "work": "work"},
              {"prefix": "/p", "timeout": "1", "jobs": "1"}, []),
}


class Words:
    """The program in a folder of its own, and the rows that tell what it said."""

    def __init__(self, program, folder, rows):
        self.program, self.folder, self.rows = program, folder, rows
        for name, text in (("plan", "buildplan 1\nroot\n"), ("record", "buildrecord 1\n")):
            self.write(name, text.encode())
        os.mkdir(f"{folder}/store")
        os.mkdir(f"{folder}/work")

    def write(self, name, text):
        stores.write_file(f"{self.folder}/{name}", text)

    def run(self, *words):
        return subprocess.run([self.program, *words], cwd=self.folder, stdin=subprocess.DEVNULL, capture_output=True,
                              timeout=harness.within(30), check=False)

    def refuse(self, name, status, words, named=""):
        """Refused with that status: nothing on standard output, and one line of an error, which has that text."""
        told = self.run(*words)
        right = (told.returncode, told.stdout) == (status, b"") and is_error(told.stderr) and named.encode() in told.stderr
        self.rows.tell(f"{name}: status {status}", right, told)

    def accept(self, name, out, words):
        told = self.run(*words)
        self.rows.tell(f"{name}: status 0", (told.returncode, told.stdout, told.stderr) == (0, out.encode(), b""), told)


def words_of(command, *, without=None, **changed):
    """A command with its needed options, one left out, or with other texts; its own word comes last."""
    needed, _, own = COMMANDS[command]
    options = {**needed, **{name.replace("_", "-"): text for name, text in changed.items()}}
    given = [word for name, text in options.items() if name != without for word in (f"--{name}", text)]
    return [command, *given, *own]


def try_help(words):
    for command, (needed, others, own) in COMMANDS.items():
        for word in ("--help", "-h"):
            told = words.run(command, word)
            text = told.stdout.decode()
            shown = all(f"--{it} <" in text for it in (*needed, *others)) and f"Usage: buildcache {command} " in text
            words.rows.tell(f"{command} {word}: each option, and status 0", shown and (told.returncode, told.stderr) == (0, b""), told)
        beside = words.run(*words_of(command), "--help")
        words.rows.tell(f"{command} with all its words and --help: the help alone", beside.stdout == words.run(command, "-h").stdout, beside)
    told = words.run("verify", "evidence", "--help")
    lines = b"Usage: buildcache verify [OPTIONS] <EVIDENCE>\n", b"  <EVIDENCE>  A folder"
    words.rows.tell("verify --help: evidence too", told.returncode == 0 and all(it in told.stdout for it in lines), told)
    for word in ("--version", "-V"):
        told = words.run(word)
        right = re.fullmatch(rb"buildcache \d+\.\d+\.\d+\n", told.stdout) and (told.returncode, told.stderr) == (0, b"")
        words.rows.tell(f"{word}: a line, and status 0", right, told)


def try_missing(words):
    words.refuse("no words", 2, [])
    words.refuse("an unknown command", 2, ["verfy"], "verfy")
    words.refuse("the word help", 2, ["help"], "tip: '--help' prints")
    for command, (needed, others, own) in COMMANDS.items():
        for option in needed:
            words.refuse(f"{command} without --{option}", 2, words_of(command, without=option), f"--{option}")
            words.refuse(f"{command} with --{option} twice", 2, [*words_of(command), f"--{option}", "1"], f"--{option}")
        words.refuse(f"{command} with an unknown option", 2, [*words_of(command), "--nonsense"], "--nonsense")
        for option in [*others][:1]:
            words.refuse(f"{command} with an option that lacks its text", 2, [*words_of(command), f"--{option}"], f"--{option}")
        surplus = "more" if command != "verify" else "--plan cannot be used with <EVIDENCE>"
        words.refuse(f"{command} with a word too many", 2, [*words_of(command), "more"], surplus)
        words.refuse(f"{command} with a word after --", 2, [*words_of(command), "--", "more"])
        if own:
            words.refuse(f"{command} without its word", 2, words_of(command)[:-1])
    words.refuse("a word that is no UTF-8", 2, [b"\xff"])
    words.refuse("an option's text that is no UTF-8", 2, words_of("verify", store="store", plan=b"\xff"))
    words.refuse("verify with neither --store nor --server", 2, words_of("verify"))
    words.refuse("verify with both", 2, words_of("verify", store="store", server=ADDRESS))
    for option, text in (("prefix", "/p"), ("timeout", "1"), ("results", "store")):
        words.refuse(f"verify --store with --{option}", 2, words_of("verify", store="store", **{option: text}),
                     f"--{option} cannot be used with --store")
    words.refuse("verify --results with neither", 2, words_of("verify", results="store"), "one of --store and --server is required")
    words.refuse("verify --results with both", 2, words_of("verify", results="store", store="store", server=ADDRESS),
                 "--store cannot be used with --server")
    words.refuse("verify --results twice", 2, [*words_of("verify", server=ADDRESS, results="store"), "--results", "other"], "--results")
    words.refuse("verify --server --results, and no server", 3, words_of("verify", server=ADDRESS, results="store"), ADDRESS)


def try_wanted(words):
    """`verify` without evidence tells each option that it wants, whatever else is said."""
    wanted = {"sources": "DIGEST", "plan": "FILE", "record": "FILE", "claim": "DIGEST"}
    texts = COMMANDS["verify"][0]
    for count in range(len(wanted)):
        for given in itertools.combinations(wanted, count):
            missing = "".join(f" --{it} <{text}>" for it, text in wanted.items() if it not in given)
            line = f"error: the following required arguments were not provided:{missing}, or <EVIDENCE>\n"
            said = [word for it in given for word in (f"--{it}", texts[it])]
            words.refuse(f"verify with {' and '.join(given) or 'nothing'} of what it wants", 2, ["verify", *said], line)
    line = "error: the following required arguments were not provided: --claim <DIGEST>, or <EVIDENCE>\n"
    for more in (["--store", ""], ["--server", "x", "--prefix", "p"], ["--store", "a", "--server", "b"]):
        words.refuse(f"verify without --claim, and {' '.join(more)}", 2, [*words_of("verify", without="claim"), *more], line)


def try_artifact(words):
    """A folder in place of the claim: what goes with it."""
    asked = words_of("verify", without="claim", store="store")
    sources = words_of("verify", without="claim", store="store", sources="x")
    words.accept("a folder in place of the claim", f"yes {EMPTY.text()} steps 0\n", [*asked, "--artifact", "work"])
    words.accept("and without bits", f"yes {EMPTY.text()} steps 0\n", [*asked, "--artifact=work", "--no-bits"])
    words.refuse("--artifact and --claim", 2, [*words_of("verify", store="store"), "--artifact", "none"],
                 "error: --claim cannot be used with --artifact\n")
    words.refuse("--no-bits without --artifact", 2, [*words_of("verify", store="store"), "--no-bits"],
                 "error: --no-bits cannot be used without --artifact\n")
    words.refuse("--artifact without a name", 2, [*asked, "--artifact", ""], "error: --artifact: expected a folder")
    words.refuse("--artifact twice", 2, [*asked, "--artifact", "work", "--artifact", "work"], "--artifact")
    words.refuse("--artifact that isn't there, and sources at fault", 2, [*sources, "--artifact", "none"], "error: --sources: ")
    no_plan = words_of("verify", without="claim", store="store", plan="no plan")
    words.refuse("--artifact that isn't there, and no plan", 3, [*no_plan, "--artifact", "none"], 'error: "none": ')


def try_evidence(words):
    """`verify` over evidence: what can't stand beside it, and of its files the first that is at fault."""
    out = f"yes {EMPTY.text()} steps 0\n"
    right = {"sources": EMPTY.text(), "claim": EMPTY.text(), "plan": "buildplan 1\nroot\n", "record": "buildrecord 1\n"}
    os.makedirs(f"{words.folder}/evidence/store")
    for name, text in right.items():
        words.write(f"evidence/{name}", text.encode())
    words.accept("verify over evidence", out, ["verify", "evidence"])
    words.accept("verify over evidence behind --", out, ["verify", "--", "evidence"])
    words.accept("both digests beside evidence", out, ["verify", "--claim", EMPTY.text(), "evidence", f"--sources={EMPTY.text()}"])
    for option in ("plan", "record", "store", "results"):
        for text in ("none", "", f"evidence/{option}"):
            words.refuse(f"--{option} {text!r} beside evidence", 2, ["verify", "evidence", f"--{option}", text],
                         f"error: --{option} cannot be used with <EVIDENCE>\n")
    for option in ("prefix", "timeout"):
        for text in ("/p", "1", ""):
            words.refuse(f"--{option} {text!r} beside evidence without a server", 2, ["verify", f"--{option}", text, "evidence"],
                         f"error: --{option} cannot be used without --server\n")
    words.refuse("--server and --store beside evidence", 2, ["verify", "evidence", "--server", ADDRESS, "--store", "store"],
                 "error: --store cannot be used with <EVIDENCE>\n")
    words.refuse("a second word of evidence", 2, ["verify", "evidence", "more"], "more")
    words.refuse("evidence as an option", 2, ["verify", "--evidence", "evidence"], "--evidence")
    words.refuse("evidence without a name", 2, ["verify", ""], 'expected a folder or an archive, got ""')
    words.refuse("evidence with a name that is no UTF-8", 2, ["verify", b"\xff"])
    words.refuse("evidence and --claim twice", 2, ["verify", "evidence", "--claim", "x", "--claim", "x"], "--claim")
    for option, text in (("server", "x"), ("prefix", "p"), ("timeout", "x")):
        said = [it for name, given in {"server": ADDRESS, option: text}.items() for it in (f"--{name}", given)]
        words.refuse(f"--{option} {text} beside evidence that isn't there", 2, ["verify", "none", *said], f"--{option}: expected")
    words.refuse("a server that isn't there", 3, ["verify", "evidence", "--server", ADDRESS], ADDRESS)
    try_first_of_evidence(words, right, out)


def try_first_of_evidence(words, right, out):
    """All faults of words at once, and then all of files: each time the first is told, and then mended."""
    faults = [(f"--{option}", "cannot be used with <EVIDENCE>") for option in ("plan", "record", "store", "results")]
    faults += [(f"--{option}", "cannot be used without --server") for option in ("prefix", "timeout")]
    for number, (option, said) in enumerate(faults):
        more = [word for it, _ in faults[number:] for word in (it, "")]
        words.refuse(f"{len(faults) - number} words beside evidence without a name", 2, ["verify", "", *more, "--claim", "x"],
                     f"error: {option} {said}\n")
    words.refuse("evidence that isn't there, and a claim that is none", 3, ["verify", "none", "--claim", "x"], '"none"')
    words.refuse("evidence that is a plan, and a claim that is none", 2, ["verify", "plan", "--claim", "x"], '"plan": at byte 0: ')
    wrong = {"sources": b"x", "claim": b"", "plan": b"buildplan 1\nroot \n", "record": b"buildrecord 1\n\n"}
    asked = ["verify", "evidence", "--server", ADDRESS]
    for name in right:
        os.remove(f"{words.folder}/evidence/{name}")
    for name, text in wrong.items():
        line = f'error: "evidence/{name}": ' + ("line 2: " if text.startswith(b"build") else "")
        words.refuse(f"evidence without its {name}, and a server that isn't there", 3, asked, f'error: "evidence/{name}": ')
        words.write(f"evidence/{name}", text)
        words.refuse(f"evidence with its {name} at fault, and a server that isn't there", 2, asked, line)
        words.write(f"evidence/{name}", right[name].encode())
    words.accept("evidence that was mended", out, ["verify", "evidence"])


NO_NUMBERS = ["", "x", "+1", "-1", " 1", "1 ", "1_0", "1.0", "0x1", "٣", str(2**64)]


def try_numbers(words):
    for command, option in [("serve", "connections"), ("serve", "limit"), ("serve", "result-limit"), ("build", "jobs")]:
        for text in NO_NUMBERS:
            words.refuse(f"--{option}={text!r}", 2, [*words_of(command, without=option), f"--{option}={text}"], f"--{option}")
    for option in ("limit", "result-limit"):
        words.refuse(f"--{option} beyond the greatest", 2, words_of("serve", **{option: str(MOST + 1)}), f"--{option}")
        told = words.run(*words_of("serve", connections="0", **{option: f"000{MOST}"}))
        right = re.fullmatch(rb"listening 127\.0\.0\.1:\d+\n", told.stdout) and (told.returncode, told.stderr) == (0, b"")
        words.rows.tell(f"--{option} 000{MOST}: status 0 after no connection", right, told)
        for text in ("8k", "8GiB", "8 G", "G", "8KK", "+8G", "8B", "8E", f"{2**23}T", f"{2**54}K", f"{2**64}K"):
            words.refuse(f"--{option}={text!r}", 2, [*words_of("serve", without=option), f"--{option}={text}"], f'got "{text}"')
        for text in ("0K", "512M", "8G", "008T", f"{2**23 - 1}T", f"{2**53 - 1}K"):
            told = words.run(*words_of("serve", connections="0", **{option: text}))
            words.rows.tell(f"--{option} {text}: status 0 after no connection", (told.returncode, told.stderr) == (0, b""), told)
    for jobs in ("0", "65", "00065"):
        words.refuse(f"--jobs {jobs}", 2, words_of("build", jobs=jobs), "--jobs")
    words.refuse("--jobs 0064, and no server", 3, words_of("build", jobs="0064"), ADDRESS)
    words.refuse("no --jobs, and no server", 3, words_of("build"), ADDRESS)


def try_order(words):
    """All faults at once: each time the first is told, and then mended."""
    words.write("faulty", b"buildplan 1\nroot \n")
    words.write("unlike", b"buildrecord 1\nstep a " + EMPTY.text().encode() + b"\n")
    steps = [
        ("prefix", "p", "/p", 2, "--prefix"),
        ("sources", "x", EMPTY.text(), 2, "--sources"),
        ("claim", "y", EMPTY.text(), 2, "--claim"),
        ("plan", "none", "faulty", 3, '"none"'),
        ("plan", "faulty", "plan", 2, "line 2"),
        ("record", "none", "unlike", 3, '"none"'),
        ("record", "unlike", "record", 2, "line 2"),
        ("server", ADDRESS, None, 3, ADDRESS),
    ]
    words.refuse("a word that is missing comes before all else", 2, [*words_of("verify", server=ADDRESS, without="claim", prefix="p")], "--claim")
    try_mended(words, "verify", steps)
    build = [("jobs", "x", "1", 2, "--jobs"), *steps[:2], *steps[3:5], ("server", ADDRESS, None, 3, ADDRESS)]
    try_mended(words, "build", build)
    serve = [("connections", "x", "0", 2, "--connections"), ("limit", "x", "1", 2, "--limit"),
             ("result-limit", "x", "1", 2, "--result-limit"), ("prefix", "p", "/p", 2, "--prefix")]
    try_mended(words, "serve", serve)
    get = words_of("get", prefix="p")[:-1]
    words.refuse("get: a bad prefix and a bad digest", 2, [*get, "x"], "--prefix")
    words.refuse("get: a bad digest and no server", 2, [*words_of("get")[:-1], f"{EMPTY.hash}/00"], EMPTY.hash)
    words.refuse("get: no server", 3, words_of("get"), ADDRESS)
    words.refuse("put: nothing at the path and no server", 3, [*words_of("put")[:-1], "none"], ADDRESS)


def try_mended(words, command, steps):
    texts = {}
    for option, wrong, *_ in reversed(steps):
        texts[option] = wrong
    for number, (option, wrong, right, status, named) in enumerate(steps):
        words.refuse(f"{command}: {len(steps) - number} faults, of which --{option} {wrong} is the first", status,
                     words_of(command, **texts), named)
        if right is not None:
            texts[option] = right


def try_texts(words):
    """A plan and a record that can't be read, with the line that is at fault."""
    many = b"".join(b"step s%d %s\n" % (number, EMPTY.text().encode()) for number in range(4097))
    lines = b"".join(b"in a%d src .\n" % number for number in range(65537))
    for name, plan, status, named in [
        ("no bytes", b"", 2, "line 1"),
        ("a newline alone", b"\n", 2, "line 1"),
        ("line ends of Windows", b"buildplan 1\r\nroot\r\n", 2, "line 1"),
        ("a byte order mark", b"\xef\xbb\xbfbuildplan 1\nroot\n", 2, "line 1"),
        ("its header alone, without newline", b"buildplan 1", 2, "line 1"),
        ("its header alone", b"buildplan 1\n", 2, "line 2"),
        ("no newline at its end", b"buildplan 1\nroot", 2, "line 2"),
        ("an empty line at its end", b"buildplan 1\nroot\n\n", 2, "line 3"),
        ("version 3", b"buildplan 3\nroot\n", 2, "line 1"),
        ("two blanks", b"buildplan 1\nroot\nin  a src .\n", 2, "line 3"),
        ("a tab", b"buildplan 1\nroot\nin\ta src .\n", 2, "line 3"),
        ("a byte 0", b"buildplan 1\nroot\nin a\0 src .\n", 2, "line 3"),
        ("bytes that are no UTF-8", b"buildplan 1\nroot\nin \xff src .\n", 2, "line 3"),
        ("4,097 steps", b"buildplan 1\n" + many + b"root\n", 2, "line 4098"),
        ("65,537 lines", b"buildplan 1\nroot\n" + lines, 2, "line 65539"),
        ("65,537 lines, the last of which overlaps", b"buildplan 1\nroot\n" + lines.replace(b"a65536", b"a0"), 2, "line 65539"),
        ("4,097 steps, the last of an old name", b"buildplan 1\n" + many.replace(b"s4096", b"s0") + b"root\n", 2, "line 4098"),
        ("a folder", None, 3, '"changed"'),
    ]:
        os.mkdir(f"{words.folder}/changed") if plan is None else words.write("changed", plan)
        words.refuse(f"a plan that is {name}" if plan is None else f"a plan with {name}", status, words_of("verify", store="store", plan="changed"), named)
        if plan is not None:
            os.remove(f"{words.folder}/changed")
    for name, record, named in [
        ("no bytes", b"", "line 1"),
        ("line ends of Windows", b"buildrecord 1\r\n", "line 1"),
        ("a step too many", b"buildrecord 1\nstep a %s\n" % EMPTY.text().encode(), "line 2"),
        ("an empty line at its end", b"buildrecord 1\n\n", "line 2"),
    ]:
        words.write("noted", record)
        words.refuse(f"a record with {name}", 2, words_of("verify", store="store", record="noted"), named)


def try_names(words):
    """Names with blanks and other letters, and names that an error has to tell in one line."""
    folder = "é ü\N{GRINNING FACE}"
    os.mkdir(f"{words.folder}/{folder}")
    for name, text in (("plan", b"buildplan 1\nroot\n"), ("record", b"buildrecord 1\n")):
        words.write(f"{folder}/{name}", text)
    asked = words_of("verify", store=f"{folder}/none", plan=f"{folder}/plan", record=f"{folder}/record")
    words.accept("verify by names with other letters", f"yes {EMPTY.text()} steps 0\n", asked)
    for name, path in (("a newline", "a\nb"), ("other letters", "é"), ("a quote", 'a"b'), ("an escape", "\x1b[31m")):
        words.refuse(f"a plan that isn't there, with {name} in its name", 3, words_of("verify", store="store", plan=path))
    words.refuse("a digest with a newline", 2, words_of("verify", store="store", claim=f"{EMPTY.text()}\n"), "--claim")
    for prefix in ("/", "/a/", "a", "//", "/a//b", "/a b", "/%41", "/é", "/" + "a" * 256):
        words.refuse(f"the prefix {prefix[:9]!r} of {len(prefix)} letters", 2, words_of("serve", prefix=prefix), "--prefix")
    for prefix in ("", "/a", "/A-Z.a_z~0/9", "/" + "a" * 255, "/..", "/."):
        told = words.run(*words_of("serve", connections="0"), f"--prefix={prefix}")
        words.rows.tell(f"the prefix {prefix[:9]!r} of {len(prefix)} letters: status 0", told.returncode == 0 and told.stderr == b"", told)


def try_addresses(words):
    for address in ("", ":", "127.0.0.1", "127.0.0.1:", ":1", "127.0.0.1:x", "127.0.0.1:65536", "127.0.0.1:-1", "127.0.0.1:+1",
                    "http://127.0.0.1:1", "127.0.0.1:1/", "a b:1", "a@b:1"):
        words.refuse(f"get --server={address}", 2, ["get", f"--server={address}", EMPTY.text()], "--server")
    for address in ("127.0.0.1", "127.0.0.1:x", "127.0.0.1:65536", ""):
        words.refuse(f"serve --listen={address}", 2, [*words_of("serve", without="listen"), f"--listen={address}"], "--listen")
    words.refuse("serve at an address of no machine here", 3, words_of("serve", listen="192.0.2.1:1"), "192.0.2.1:1")


def try_all(rows, program):
    with tempfile.TemporaryDirectory() as folder:
        words = Words(program, folder, rows)
        first = (try_help, try_missing, try_wanted, try_artifact, try_evidence)
        for part in (*first, try_numbers, try_order, try_texts, try_names, try_addresses):
            part(words)


if __name__ == "__main__":
    try_rows(__doc__, try_all)
