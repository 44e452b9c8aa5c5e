"""Checks a crate with other texts in it, over the libraries that `rt ci` or `rt lib` left, and reads what the prover says."""

import collections
import glob
import os
import re
import resource
import shutil
import signal
import subprocess
import tempfile
import time

from shared.crates import TOP, crates_of
from text_checksums import PARTS, sum_of, sum_of_files, sum_of_text

# The files of a library that tell it from another of its crate.
LIBRARY_FILES = ("format", "toolchain/checked.json", "toolchain/made.json", "lang/antt/made.json")
# The processor seconds that a check may take, and the seconds by the clock, which pass faster beside other work.
LONGEST = 7200
LATEST = 10800

# What the prover says of a name that a proof file has, and that isn't there.
GONE = re.compile(r"has no field|is not in scope|has no `")
# And of what rests on a declaration that it refused.
RESTS = re.compile(r"depends? on `(?P<lemma>[^`]+)`, which was (?:rejected|not admitted), (?:was|were) not checked: (?P<goals>.*)")
# What it says of a text that it can't read, beside a text that belongs to no declaration.
UNREAD = re.compile(r"is not in scope|has no field|is no name|operand is missing|expected the end|cannot continue")
PLACED = re.compile(r"(?:\./)?(?P<file>(?:src|specs|proofs)/\S+?):(?P<line>\d+):\d+: error: (?:`(?P<goal>[^`]*)`: )?(?P<said>.*)")
OPEN = re.compile(r"note: \S+:\d+:\d+: it is not proved that .*")
STATUS = re.compile(r"fn (?P<path>\S+): (?P<said>.*)")
# And of a function whose proof it takes for none, since a lemma below it was refused.
STANDS = re.compile(r"it stands on `(?P<lemma>[^`]+)`, which antt refuses")
UNTRIED = re.compile(r"note: `search` has not tried the goals of `(?P<path>[^`]+)`")


def kit():
    """The folder of the kit whose `rt` is called, be it through a script of that name (gate_minutes.py)."""
    for folder in os.get_exec_path():
        home = os.path.dirname(os.path.dirname(os.path.realpath(f"{folder}/rt")))
        if os.access(f"{folder}/rt", os.X_OK) and os.path.exists(f"{home}/bin/rattle"):
            return home
    raise SystemExit("no rt is installed")


class Workspace:
    """The repository's crates, and the libraries that they use."""

    def __init__(self, top=TOP):
        self.top, self.uses, self.kit = top, crates_of(top), kit()

    def below(self, crate):
        """The repository's crates below one, each after those that it uses."""
        found = []
        for name in self.uses[crate]:
            if name in self.uses:
                found += [it for it in [*self.below(name), name] if it not in found]
        return found

    def rlib(self, crate):
        return f"{self.top}/crates/{crate}/out/rlib/{crate}.rlib"

    def mark(self, crate):
        """The file beside a crate's library that says of what this was built."""
        return f"{os.path.dirname(self.rlib(crate))}/built-of"

    def built_of(self, crate):
        """A sum of the text of a crate and of those below it, and of their libraries as they are."""
        libraries = [sum_of_files(self.rlib(it), LIBRARY_FILES) for it in [*self.below(crate), crate]]
        return sum_of(sum_of_text(self, crate), *libraries)

    def is_built(self, crate):
        """Whether the library of a crate was built of the text that stands here and below it, over the libraries below it."""
        try:
            with open(self.mark(crate), encoding="utf-8") as it:
                return it.read() == self.built_of(crate)
        except OSError:
            return False

    def set_mark(self, crate):
        """Says that a crate's library was just built of the text that stands here."""
        if os.path.isfile(f"{self.rlib(crate)}/format"):
            with open(self.mark(crate), "w", encoding="utf-8") as it:
                it.write(self.built_of(crate))

    def lacking(self, crate):
        """The first library below a crate that isn't built of the text that stands here."""
        return next((it for it in self.below(crate) if not self.is_built(it)), None)

    def length(self, crate):
        """The lines of a crate's code."""
        files = glob.glob(f"{self.top}/crates/{crate}/src/**/*.rt", recursive=True)
        return sum(self.read(crate, os.path.relpath(it, f"{self.top}/crates/{crate}")).count("\n") for it in files)

    def bring_up_to_date(self, crates):
        """Has `rt lib` build what lies below these crates, unless all of it is built of the text that stands here."""
        below = [it for it in self.uses if any(it in self.below(crate) for crate in crates)]
        if all(map(self.is_built, below)):
            return
        for it in below:
            text = sum_of_text(self, it)
            ran = subprocess.run(["rt", "lib", "--jobs", "1"], cwd=f"{self.top}/crates/{it}", stdin=subprocess.DEVNULL, check=False)
            if ran.returncode == 0 and sum_of_text(self, it) == text:
                self.set_mark(it)

    def words(self, crate):
        """The command that checks a crate, as `rt` writes it."""
        root = "main" if os.path.isfile(f"{self.top}/crates/{crate}/src/main.rt") else "lib"
        words = [f"{self.kit}/bin/rattle", "check", "--crate-name", crate, f"src/{root}.rt"]
        for name in ["std", *self.uses[crate]]:
            place = self.rlib(name) if name in self.uses else f"{self.kit}/rlibs/{name}.rlib"
            words += ["--extern", f"{name}={place}"]
        for folder in [f"{self.kit}/rlibs", *(os.path.dirname(self.rlib(it)) for it in self.below(crate))]:
            words += ["-L", f"dependency={folder}"]
        words += ["--antt-project", f"{self.kit}/rattle/logic/antt-project.json"]
        return [*words, "--logic-built", f"{self.kit}/logic_built", "--links", f"{crate}=", "--jobs", "1"]

    def read(self, crate, file):
        with open(f"{self.top}/crates/{crate}/{file}", encoding="utf-8") as it:
            return it.read()

    def check(self, crate, texts, only=(), assumed=()):
        """What a check of the crate says with these texts in place of its own: of all of it, or only of some functions. It takes
        those that are assumed by their contracts: their proofs have a hole."""
        with tempfile.TemporaryDirectory(prefix="buildcache-check-") as room:
            for part in PARTS:
                if os.path.isdir(f"{self.top}/crates/{crate}/{part}"):
                    shutil.copytree(f"{self.top}/crates/{crate}/{part}", f"{room}/{part}")
            for path, text in texts.items():
                with open(f"{room}/{path}", "w", encoding="utf-8") as it:
                    it.write(text)
            for path in assumed:
                assume(crate, path, room)
            words = self.words(crate) + ["--allow-holes"] * bool(assumed)
            for path in only:
                words += ["--only", path]
            told = run(words, room)
            # (killed for memory, most likely: once more)
            return Said(crate, *(run(words, room) if told[0] == -signal.SIGKILL else told))


def assume(crate, path, room):
    """Puts a hole in place of a function's proof."""
    folder, name = os.path.join(room, "proofs", *path.split("::")), path.split("::")[-1]
    shutil.rmtree(folder, ignore_errors=True)
    os.makedirs(folder)
    with open(f"{folder}/Proof.antt", "w", encoding="utf-8") as it:
        it.write(f"use Rattle.{crate}.proofs.{path.replace('::', '.')}.Statement as stated\n\n"
                 f"pub {name}_spec : {{M : Type 1}} → stated.statement M\n{name}_spec = ?\n")


def run(words, folder):
    """The status of a command, or None where it takes too long; its lines, its processor seconds and its peak memory in kB."""
    late = time.monotonic() + LATEST
    with tempfile.TemporaryFile("w+", errors="replace") as out:
        ran = subprocess.Popen(words, cwd=folder, stdin=subprocess.DEVNULL, stdout=out, stderr=subprocess.STDOUT)
        resource.prlimit(ran.pid, resource.RLIMIT_CPU, (LONGEST, LONGEST + 60))
        pid = 0
        while not pid and time.monotonic() < late:
            time.sleep(0.2)
            pid, status, used = os.wait4(ran.pid, os.WNOHANG)
        if not pid:
            ran.kill()
            _, _, used = os.wait4(ran.pid, 0)
        ran.returncode = os.waitstatus_to_exitcode(status) if pid else -signal.SIGKILL
        out.seek(0)
        return ran.returncode if pid else None, out.read().splitlines(), used.ru_utime + used.ru_stime, used.ru_maxrss


def place_of(found):
    """The function in whose folder of proofs an error stands, and whether it is in the function's own proof."""
    folders = found["file"].split("/")
    # (a cycle of calls has a folder +NAME, by one of its functions)
    return "::".join(it.removeprefix("+") for it in folders[1:-1]), folders[-1] in ("Answers.antt", "Invariants.antt", "Proof.antt")


def goals_of(found):
    """The declarations of which an error tells: one, or those that rest on one that was refused."""
    rests = RESTS.search(found["said"])
    return [it.split()[0] for it in rests["goals"].split(", ")] if rests else [found["goal"]]


def false_in(errors):
    """Of each declaration that was refused, by its function and its name, whether it is false, and not only names what is gone
    or rests on what does."""
    false, in_lemmas = {}, set()
    for it in errors:
        if not RESTS.search(it["said"]):
            path, is_own = place_of(it)
            false[path, it["goal"]] = false.get((path, it["goal"]), True) and not GONE.search(it["said"])
            in_lemmas |= set() if is_own else {false[path, it["goal"]]}
    for it in errors:
        if rests := RESTS.search(it["said"]):
            (path, _), lemma = place_of(it), rests["lemma"].rpartition(".")[2]
            named = {whether for (_, name), whether in false.items() if name == lemma}
            # (of many that rest on one the line names only some)
            whether = false.get((path, lemma), any(named) if named else in_lemmas == {True})
            for goal in goals_of(it):
                false.setdefault((path, goal), whether)
    return false


class Said:
    """What a check said: of each function its line, the goals that were refused, and the names that its proof lacks."""

    def __init__(self, crate, status, lines, seconds=0, memory=0):
        self.crate, self.status, self.lines, self.seconds, self.memory = crate, status, lines, seconds, memory
        self.functions, self.refused, self.gone, self.untried, self.unread = {}, collections.Counter(), {}, set(), []
        self.false = false_in([found for found in map(PLACED.match, lines) if found and found["file"].startswith("proofs/")])
        pending = []
        for line in lines:
            if found := PLACED.match(line):
                self.take_error(found)
            elif OPEN.match(line):
                pending.append(line)
            elif found := UNTRIED.match(line):
                self.untried.add(self.below_crate(found["path"]))
            elif found := STATUS.fullmatch(line):
                self.take_function(self.below_crate(found["path"]), found["said"], pending)
                pending = []

    def below_crate(self, path):
        return path.removeprefix(f"{self.crate}::")

    def take_error(self, found):
        folders = found["file"].split("/")
        if folders[0] != "proofs":
            if not found["goal"] or UNREAD.search(re.sub("`[^`]*`", "", found["said"])):
                self.unread.append((found["file"], int(found["line"]), found["said"]))
            return
        path, _ = place_of(found)
        for goal in goals_of(found):
            if self.false[path, goal]:
                self.refused[path] += 1
            else:
                self.gone.setdefault(path, []).append((goal, found.group()))

    def take_function(self, path, said, pending):
        """A function's line, with the notes on its open goals, which stand above it."""
        self.functions[path] = said
        gone = self.gone.get(path, [])
        if any(goal is None for goal, _ in gone):
            # (a file of its proof isn't read, so each goal that it answers is open)
            return
        lost = {goal for goal, _ in gone}
        told = re.findall(r"`([^`]+)`", said.partition("`search` did not prove ")[2].partition(";")[0])
        told += [it.rpartition("(`")[2].partition("`)")[0] for it in pending]
        self.refused[path] += len({it for it in told if it not in lost})
        self.take_lemmas(path, said)

    def take_lemmas(self, path, said):
        """The lemmas for which a function's line says that it is refused: false, or only of names that are gone."""
        for lemma in STANDS.findall(said):
            named = {whether for (_, name), whether in self.false.items() if name == lemma.rpartition(".")[2]}
            self.refused[path] += any(named)
            if named == {False}:
                self.gone.setdefault(path, []).append((lemma, said))

    def gone_in(self, path):
        """That a function is refused only for that."""
        return f"{path} is refused only since a proof names what is gone ({self.gone[path][0][1][:200]})"

    def has_ended(self):
        """Whether the prover came to an end of what it was asked."""
        last = self.lines[-1] if self.lines else ""
        return last.startswith(("logic=", "only=", "rattle: no verdict"))

    def places(self):
        """The lines of code at which it tells an error."""
        found = [re.match(r"(?:\./)?(src/\S+?):(\d+):\d+: error", it) for it in self.lines]
        return {(it[1], int(it[2])) for it in found if it}

    def fault(self):
        """The first line that tells why there is no verdict."""
        told = [it for it in self.lines if "error" in it or "no verdict" in it]
        return (told or self.lines or ["it printed nothing"])[0][:240]
