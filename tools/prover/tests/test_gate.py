"""Tests of .ci/run, over a python3 and an rt that only say that they were called: which parts it has, and how it ends."""

import os
import shutil
import subprocess
import tempfile
import unittest
from shared.crates import TOP

# It writes its words to a list, and then prints what is to be said for them, and ends with that status.
TOOL = """#!/bin/sh
case $0 in
*/rt) set -- rt "$@" ;;
*) name=$(basename "$1" .py) && shift && set -- "$name" "$@" ;;
esac
echo "$*" >>"$CALLED"
said=$(echo "$SAYS" | sed -n "s|^$*=||p")
[ "$*" = 'libraries forget' ] || echo 'a row'
echo "${said#*:}"
exit "${said%%:*}"
"""
PARTS = ["end_to_end --preview", "assumptions --compare docs/assumptions.txt", "libraries forget", "rt ci", "libraries mark SUM",
         "end_to_end crates/buildcache/out/buildcache", "try_edits"]
WELL = {**{it: "0:1 passed, 0 failed" for it in (*PARTS, "try_edits --anew")}, "libraries forget": "0:SUM"}


class Gate(unittest.TestCase):
    def run_gate(self, says=(), **more):
        """Status, the last line and what was called, where these tools say otherwise than that they passed."""
        with tempfile.TemporaryDirectory() as room:
            os.mkdir(f"{room}/bin")
            os.mkdir(f"{room}/.ci")
            shutil.copy(f"{TOP}/.ci/run", f"{room}/.ci/run")
            for name in ("python3", "rt"):
                with open(f"{room}/bin/{name}", "w", encoding="utf-8") as it:
                    it.write(TOOL)
                os.chmod(it.name, 0o755)
            says = "\n".join(f"{it}={said}" for it, said in {**WELL, **dict(says)}.items())
            own = {it: os.environ[it] for it in os.environ if it != "GATE_ANEW"}
            place = {**own, "PATH": f"{room}/bin:{os.environ['PATH']}", "CALLED": f"{room}/called", "SAYS": says, **more}
            ran = subprocess.run([f"{room}/.ci/run"], text=True, capture_output=True, check=False, timeout=60, env=place)
            with open(f"{room}/called", encoding="utf-8") as it:
                called = it.read().splitlines()
        return ran.returncode, ran.stdout.splitlines()[-1], called

    def test_each_part_in_its_order(self):
        self.assertEqual(self.run_gate(), (0, "5 passed, 0 failed", PARTS))

    def test_it_ends_where_a_row_is_wrong_before_any_proof(self):
        self.assertEqual(self.run_gate({PARTS[0]: "1:7 passed, 2 failed"}), (1, "7 passed, 2 failed", PARTS[:1]))

    def test_a_part_that_fails_later_fails_the_gate_and_the_others_run(self):
        for part in [it for it in PARTS[1:] if not it.startswith("libraries")]:
            self.assertEqual(self.run_gate({part: "1:3 passed, 1 failed"}), (1, "7 passed, 1 failed", PARTS), part)

    def test_a_part_that_ends_otherwise_fails(self):
        for said in ("0:3 passed, 1 failed", "1:3 passed, 0 failed", "0:all is well"):
            self.assertEqual(self.run_gate({"rt ci": said})[:2], (1, "4 passed, 1 failed"), said)

    def test_all_is_judged_anew_where_it_is_asked_for(self):
        self.assertEqual(self.run_gate(GATE_ANEW="1")[2][-1], "try_edits --anew")
