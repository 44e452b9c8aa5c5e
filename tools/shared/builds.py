"""What rows with builds share: plans of steps over the program's own server, and what comes of their builds."""

import os
import tempfile

from shared import harness, stores
from shared.harness import Server
from shared.messages import EMPTY, Digest, File, action_message, command_message, directory_message

SHELL = ["/bin/sh", "-c"]
NINE = b"123456789"


def directory(name, blob=NINE):
    """The Directory of one file."""
    return directory_message({name: File(Digest.of(blob), is_executable=False)})


MADE = Digest.of(directory("a")).text()


class Builds:
    """A server, and the folder in which it is tried."""

    def __init__(self, program, work, rows):
        self.program, self.work, self.rows, self.count, self.server = program, work, rows, 0, None
        self.renew()

    def renew(self, *more, limit=1000000):
        """Another server, which holds nothing."""
        if self.server:
            self.server.end()
        self.server = Server(self.program, None, limit, 100000, more)
        self.address = self.server.address
        self.given = []

    def run(self, *words):
        return harness.run(self.program, *words)

    def put(self, blob):
        """Puts a blob, and answers its digest."""
        stores.write_file(f"{self.work}/blob", blob)
        done = self.run("put", "--server", self.address, f"{self.work}/blob")
        digest = Digest.of(blob).text()
        assert done.stdout == f"{digest}\n".encode(), done
        self.given.append(blob)
        return digest

    def plan(self, steps, lines, version=1, **command):
        """The text of a plan: a step has a name, its words, its outputs and its lines."""
        text = f"buildplan {version}\n"
        for name, words, outputs, reads in steps:
            meant = command_message(words, outputs, **command)
            frame = action_message(Digest.of(meant))
            self.put(meant)
            self.put(frame)
            text += f"step {name} {Digest.of(frame).text()}\n" + "".join(f"in {it}\n" for it in reads)
        return text + "root\n" + "".join(f"in {it}\n" for it in lines)

    def one_step(self, words, reads=(), **command):
        return self.plan([("mk", words, ["out"], reads)], ["a out mk out"], **command)

    def words(self, plan, sources=EMPTY.text(), jobs=None, spoil=lambda work: None, address=None, more=(), record="record"):
        """The words that build a plan, and the folder of the plan and the record. The folder of the jobs is spoilt first."""
        self.count += 1
        place = f"{self.work}/{self.count}"
        os.makedirs(f"{place}/work")
        spoil(f"{place}/work")
        stores.write_file(f"{place}/plan", plan.encode())
        at_once = ["--jobs", str(jobs)] if jobs else []
        return ["build", "--server", address or self.address, "--sources", sources, "--plan", f"{place}/plan",
                "--record", f"{place}/{record}", "--work", f"{place}/work", *at_once, *more], place

    def build(self, plan, *how, **named):
        """Builds a plan: the run, and the folder of the plan and the record."""
        words, place = self.words(plan, *how, **named)
        return self.run(*words), place

    def expect(self, name, done, place, out, status):
        right = done.stdout == out.encode() and done.returncode == status
        right = right and os.path.exists(f"{place}/record") == (status == 0)
        self.rows.tell(name, right and harness.is_told(done.stderr, status), done)

    def expect_built(self, name, done, place, root, steps=1, sources=EMPTY.text()):
        """That a plan was built, and that `verify` says yes to its record."""
        self.expect(name, done, place, f"built {root} steps {steps}\n", 0)
        self.expect_verdict(f"{name}: verified", place, root, f"yes {root} steps {steps}\n", 0, sources)

    def expect_verdict(self, name, place, root, out, status, sources=EMPTY.text()):
        """That `verify` says so of the plan and the record of a build."""
        asked = ["--plan", f"{place}/plan", "--record", f"{place}/record", "--claim", root, "--sources", sources]
        told = self.run("verify", "--server", self.address, *asked)
        self.rows.tell(name, (told.stdout, told.returncode) == (out.encode(), status), told)

    def ran_nothing(self, place):
        """Tells that no job had a folder."""
        jobs = os.listdir(f"{place}/work")
        self.rows.tell("and no process was run", jobs == [], jobs)


def record_of(place):
    return stores.read_file(f"{place}/record")


def try_each(rows, program, parts):
    """Tries rows over one server."""
    with tempfile.TemporaryDirectory() as work:
        builds = Builds(os.path.realpath(program), work, rows)
        try:
            for part in parts:
                part(builds)
        finally:
            builds.server.end()
