"""Judges the mistakes of one crate by checks of it, and tells of each whether the prover refuses it.

The crate is checked with up to 20 of its mistakes at once in it, and each function that one turns has to be refused for a goal of
its own. The functions that none turns aren't proved again: they are taken by their contracts. What can't stand in one check beside
the others gets a check of its own: it turns the same function or cycle of calls, or more than bodies (a type, a constant, a head).
So does a mistake whose function is left unproved only since it calls another that is turned.
"""

import re

import mistakes
from text_checksums import sum_of_text

# So many mistakes stand in one check at most, which bounds its time and memory.
MOST = 20
# A check that takes more processor seconds is told with its mistakes.
LONG = 600


class Judge:
    """The mistakes of one crate, and what is known of each: it failed, it was taken over, it is left, or else it passed."""

    def __init__(self, workspace, crate, names=(), folders=mistakes.FOLDERS, kept=None):
        self.workspace, self.crate, self.kept = workspace, crate, kept
        self.mistakes = [it for it in mistakes.mistakes_of(crate, workspace.top, folders)
                         if not names or it.name in names]
        self.faults, self.texts, self.checks, self.seconds, self.memory = {}, {}, 0, 0, 0
        self.assumable, self.left, self.taken_over, self.sum = (), [], [], None

    def text(self, file):
        if file not in self.texts:
            self.texts[file] = self.workspace.read(self.crate, file)
        return self.texts[file]

    def fail(self, mistake, why):
        self.faults[mistake.name] = why

    def fail_all(self, why):
        self.left, self.taken_over = [], []
        for it in self.mistakes:
            self.fail(it, why)

    def begin(self):
        """Finds what is left to judge, first what is named: the mistakes that no run on this machine saw refused."""
        self.sum = self.kept and sum_of_text(self.workspace, self.crate)
        self.find_functions()
        sound = [it for it in self.mistakes if it.name not in self.faults]
        self.taken_over = [it for it in sound if self.kept and self.kept.has(self.kept.key(self.sum, it), it)]
        self.left = sorted((it for it in sound if it not in self.taken_over), key=lambda it: not it.is_named)
        return self

    def run(self, goes_on=lambda: True, named_alone=False):
        """Judges what is left, or what of it is named, as long as it may begin another check."""
        lacking = self.left and self.workspace.lacking(self.crate)
        if lacking:
            self.fail_unjudged(f"not tried: the library {lacking} isn't built of the text that stands here")
        while goes_on():
            together = self.beside_each_other([it for it in self.left if it.is_named or not named_alone])
            if not together:
                break
            waits = self.judge(together)
            if len(waits) == len(together):
                for it, callee in waits.items():
                    self.fail(it, f"it isn't told by itself: it calls {callee}, which isn't proved either")
                waits = {}
            self.keep(it for it in together if it not in waits and it.name not in self.faults)
            self.left = [it for it in self.left if it not in together or it in waits]
        return self

    def keep(self, refused):
        """Keeps these verdicts, if nothing that they rest on was changed meanwhile."""
        if self.kept and not self.workspace.lacking(self.crate) and sum_of_text(self.workspace, self.crate) == self.sum:
            for it in refused:
                self.kept.keep(self.kept.key(self.sum, it), it)

    def find_functions(self):
        """Finds the functions that each mistake turns, alone in the crate."""
        folder = f"{self.workspace.top}/crates/{self.crate}"
        homes = mistakes.homes_of(folder)
        self.assumable = mistakes.assumable(folder, homes)
        for it in self.mistakes:
            try:
                turned = mistakes.apply(it, self.text)
            except (mistakes.CannotApply, OSError) as fault:
                self.fail(it, f"it can't be put into the text: {fault}")
                continue
            it.functions, turns_none = mistakes.functions_turned(turned, self.text, homes)
            it.cycles = mistakes.cycles_turned(it.functions, turned, self.text)
            it.stands_alone = turns_none or mistakes.turns_more_than_bodies(turned, self.text)
            if any(not file.startswith("src/") for file in turned):
                self.fail(it, "it turns a definition or a proof, which shows nothing")
        named = {}
        for it in self.mistakes:
            if named.setdefault(it.name, it) is not it:
                self.fail(it, "two mistakes of the crate have this name")

    def beside_each_other(self, left):
        """The first of these, and those behind that can stand in one check with it: they turn bodies alone, and of others."""
        if not left or left[0].stands_alone:
            return left[:1]
        taken, seen, texts = [], set(), dict(self.texts)
        for it in left:
            own = {*it.functions, *it.cycles, *wanted(it)}
            if len(taken) == MOST or it.stands_alone or seen & own:
                continue
            try:
                texts.update(mistakes.apply(it, texts.__getitem__))
            except mistakes.CannotApply:
                continue
            taken.append(it)
            seen |= own
        return taken

    def put_in(self, together):
        texts = {}
        for it in together:
            texts.update(mistakes.apply(it, lambda file: texts.get(file) or self.text(file)))
        return texts

    def check(self, together, only=()):
        """Checks the crate with these mistakes in it; where only some functions are asked for, by the contracts of the others."""
        turned = {mistakes.spellings(path)[0] for it in together for path in (*it.functions, *wanted(it))}
        assumed = [path for path in self.assumable if only and not turned.intersection(mistakes.spellings(path))]
        assumed = [mistakes.spellings(path)[0] for path in assumed]
        said = self.workspace.check(self.crate, self.put_in(together), only, assumed)
        self.checks, self.seconds = self.checks + 1, self.seconds + said.seconds
        self.memory = max(self.memory, said.memory)
        if said.seconds > LONG:
            names = " ".join(it.name for it in together)
            print(f"mistakes: {self.crate}: {said.seconds:.0f} processor seconds and {said.memory / 1e6:.1f} GB for {names}", flush=True)
        return said

    def judge(self, together):
        """Judges mistakes by one check; those of which it says nothing, each with a function that another mistake turns."""
        only = sorted({mistakes.spellings(path)[0] for it in together for path in wanted(it)})
        said = self.check(together, only)
        if only and said.status == 2:
            # (the check prints a function otherwise than it is looked for)
            said = self.check(together)
        if said.status not in (0, 1, 2, 3):
            for it in together:
                self.fail(it, "no verdict: its check was killed, most likely for memory, or took too long")
            return {}
        if said.unread or not said.has_ended():
            return self.judge_unreadable(together, said)
        waits = {}
        for it in together:
            callee = self.judge_one(it, said)
            if callee:
                waits[it] = callee
        return waits

    def judge_one(self, mistake, said):
        """Whether a check refuses a mistake in each function; else the function on which one of them waits."""
        if not wanted(mistake):
            found = next(iter(+said.refused), None)
            if found:
                print(f"mistakes: {mistake} is refused in {found}: a line '# refused in {found}' saves a check of the crate")
            else:
                self.fail(mistake, next(map(said.gone_in, said.gone), "no function is refused with it"))
        for path in wanted(mistake):
            lines = lines_of(said, path)
            gone = next((it for it in lines if it in said.gone), None)
            callee = next((it for it in map(waited_for, lines.values()) if it), None)
            if any(said.refused[it] for it in lines):
                continue
            if callee and not gone:
                return callee
            why = f"{path} isn't refused" if lines else f"no line of the check tells of {path}"
            self.fail(mistake, said.gone_in(gone) if gone else why)
            break
        return None

    def judge_unreadable(self, together, said):
        """Tells which of some mistakes makes the text unreadable; where each is read alone, they are parted."""
        if len(together) == 1:
            why = said.unread[0][2] if said.unread else said.fault()
            self.fail(together[0], f"the prover can't read the text with it ({why[:200]})" if said.status == 1 else
                      f"no verdict: {said.fault()}")
            return {}
        named = self.standing_at(together, said.places())
        for suspects in (named, [it for it in together if it not in named]):
            rest = [it for it in together if not self.is_unreadable(it, suspects)]
            if not rest:
                return {}
            if len(rest) < len(together):
                return self.judge(rest)
        half = len(together) // 2
        return {**self.judge(together[:half]), **self.judge(together[half:])}

    def is_unreadable(self, mistake, suspects):
        """Whether one of the suspects makes the text unreadable where it stands alone; then it failed."""
        if mistake in suspects:
            alone = self.check([mistake], ("",))
            if alone.unread or not alone.has_ended():
                self.judge_unreadable([mistake], alone)
        return mistake.name in self.faults

    def standing_at(self, together, places):
        """Those of some mistakes whose text stands in one of these lines of their files."""
        texts, found = self.put_in(together), []
        for it in together:
            for file, _, comes in it.pairs:
                before = texts[file].partition(comes)[0].count("\n") + 1
                lines = range(before, before + comes.count("\n") + 1)
                if it not in found and any(path == file and line in lines for path, line in places):
                    found.append(it)
        return found

    def fail_unjudged(self, why, named_alone=False):
        """Fails what is left of the mistakes, or of the named ones among them."""
        lost = [it for it in self.left if it.is_named or not named_alone]
        self.left = [it for it in self.left if it not in lost]
        for it in lost:
            self.fail(it, why)

    def failed(self):
        return [it for it in self.mistakes if it.name in self.faults]

    def tell(self):
        """Its lines, and how many passed."""
        passed = len([it for it in self.mistakes if it not in self.left and it.name not in self.faults])
        for name, why in self.faults.items():
            print(f"mistakes: FAILED {self.crate}/{name}: {why}")
        taken = f", {len(self.taken_over)} of them before on this machine" * bool(self.taken_over)
        checks = f"{self.checks} check{'s' * (self.checks != 1)}"
        print(f"mistakes: {self.crate}: {passed} of {len(self.mistakes)} are refused{taken}, by {checks} in {self.seconds:.0f} "
              f"processor seconds, {self.memory / 1e6:.1f} GB", flush=True)
        return passed


def wanted(mistake):
    """The functions that have to be refused with a mistake, by their paths."""
    return sorted(mistake.refused_in or mistake.functions)


def lines_of(said, path):
    """What a check says of a function, and of the closures in it; of a method also where it is told in another module."""
    for name in mistakes.spellings(path):
        if name in said.functions:
            return {it: line for it, line in said.functions.items() if it == name or is_closure_in(it, name)}
        end = "::" + "::".join(name.split("::")[-2:])
        found = [it for it in said.functions if it.endswith(end) and re.search(r"::[A-Z]\w*::\w+$", end)]
        if len(found) == 1:
            return {found[0]: said.functions[found[0]]}
    return {}


def is_closure_in(found, path):
    """Whether that is how a check prints what a closure does: MODULE::fn::REST::CLOSURE+FnOnce::call_once in MODULE::REST."""
    names = path.split("::")
    places = ["::".join([*names[:at], "fn", *names[at:], ""]) for at in range(len(names))]
    return "+Fn" in found and found.startswith(tuple(places))


def waited_for(line):
    """The function for which one waits whose own goals aren't told."""
    found = re.search(r"it calls `([^`]+)`", line)
    return found and found[1]
