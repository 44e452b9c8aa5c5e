#!/usr/bin/env python3
"""Times a build of many steps of /bin/true, 4 at once, against xargs -P4 over as many processes: measure_build.py PROGRAM [N [TURNS]]

They take turns, each build over a server of its own. Each step has a command of its own, so that each runs a process;
a second build takes each result from the server. It prints the seconds of each turn, the least time of each kind, and the
build's least time divided by that of xargs.
"""

import os
import subprocess
import tempfile
import time

from shared import stores
from shared.builds import Builds
from shared.command_line import numbers_of, program_at, words_of
from shared.messages import Digest, action_message, command_message
from shared.rows import Rows


def plan_of(count, blobs):
    """The text of a plan of so many steps; their frames and commands are written to the folder."""
    text = "buildplan 1\n"
    for number in range(count):
        meant = command_message(["/bin/true", str(number)], [])
        frame = action_message(Digest.of(meant))
        for name, blob in (("command", meant), ("frame", frame)):
            stores.write_file(f"{blobs}/{name}-{number}", blob)
        text += f"step s{number} {Digest.of(frame).text()}\n"
    return text + "root\n"


def seconds_of(call):
    began = time.time()
    call()
    return time.time() - began


def build(builds, plan):
    done, _place = builds.build(plan, jobs=4)
    assert done.returncode == 0, done


def turn(program, count):
    """The seconds of a build, of the same again, and of xargs."""
    with tempfile.TemporaryDirectory() as work:
        os.mkdir(f"{work}/blobs")
        builds = Builds(program, work, Rows())
        try:
            plan = plan_of(count, f"{work}/blobs")
            builds.run("put", "--server", builds.address, f"{work}/blobs")
            seconds = [seconds_of(lambda: build(builds, plan)) for _ in range(2)]
        finally:
            builds.server.end()
    words = f"seq {count} | xargs -P4 -n1 /bin/true"
    return [*seconds, seconds_of(lambda: subprocess.run(words, shell=True, check=True))]


def main(program, count="1000", turns="5"):
    names = ["build", "build again", "xargs -P4"]
    all_turns, program = [], program_at(program)
    count, turns = numbers_of([count, turns])
    for _ in range(turns):
        all_turns.append(turn(program, count))
        print(", ".join(f"{name}: {it:.2f} s" for name, it in zip(names, all_turns[-1])), flush=True)
    least = [min(its) for its in zip(*all_turns)]
    print("least: " + ", ".join(f"{name}: {it:.2f} s" for name, it in zip(names, least)))
    print(f"a build took {least[0] / least[2]:.2f} times what xargs took")


if __name__ == "__main__":
    main(*words_of(__doc__, 1, 3))
