"""Tests of assumptions.py: what it lists of code, and that a difference from a list fails."""

import contextlib
import io
import os
import tempfile
import unittest

import assumptions

CODE = """
ghost use Rattle.small.specs.World.{sees_nothing};

/// A trait whose impl is a `impl<R: Net> Peer for R`, it says.
pub trait Peer {
    ghost spoke: { Self → List ℕ };

    fn read(&mut self) -> u64
        ensures { IsRead (spoke self.old) result };

    fn name(&self) -> u64;
}

trait Permit {
    ghost access: { Access };
}

trait Places: Drop {
    type Room;

    ghost has: { Self.Room → List ℕ };

    ghost broken: { Error
        → Type 0 };
}

impl Peer for TcpStream {
    ghost spoke = { λ _. [] };

    fn read(&mut self) -> u64 { 0 }
    fn name(&self) -> u64 { 0 }
}

impl<'r, R: Files + Processes> World for System<'r, R> {
    ghost sees = { sees_nothing };

    ghost keeps = { λ w. w.kept };
}

impl Model for Few {
    ghost Value = { List ℕ };

    ghost view = { λ few. few.items };

    ghost other = { λ few. record {
      kept = [];
    } };
}

impl Few {
    pub fn told(&self) -> u64
        ensures { result ≡ 0 }
    {
        self.untold()
    }

    pub fn untold(&self) -> u64 { 0 }

    fn private(&self) -> u64 { 0 }
}

pub const fn least() -> u64 { 0 }

/// It takes a handle: Net.
pub(crate) fn connect<R: Net<Stream = TcpStream>>(rt: &R) -> u64 where R: Wait { let text = "Threads"; 0 }

unsafe impl Send for Few {}
"""

LINES = """ghost small.rt: impl Peer for TcpStream: ghost spoke = { λ _. [] }
ghost small.rt: impl<'r, R: Files + Processes> World for System<'r, R>: ghost sees = { sees_nothing }
ghost small.rt: impl<'r, R: Files + Processes> World for System<'r, R>: ghost keeps = { λ w. w.kept }
constant small.rt: trait Permit: ghost access: { Access }: a mark, picked by a call for the values behind it
constant small.rt: trait Places: Drop: ghost broken: { Error → Type 0 }: no reason is given
open small.rt: trait Peer: fn name
open small.rt: impl Few: fn untold
open small.rt: fn least
unsafe small.rt: unsafe impl Send for Few {}
handle small.rt: impl<'r, R: Files + Processes> World for System<'r, R>: Processes
handle small.rt: fn connect: Net Wait"""


class Assumptions(unittest.TestCase):
    def test_lines_of_code(self):
        self.assertEqual(assumptions.lines_of("small.rt", CODE), LINES.splitlines())

    def compare(self, found, listed):
        """The status, and the lines that are told to differ."""
        with tempfile.NamedTemporaryFile("w", encoding="utf-8") as it, contextlib.redirect_stdout(io.StringIO()) as printed:
            it.write(listed)
            it.flush()
            status = assumptions.compare(found, it.name)
        return status, [line for line in printed.getvalue().splitlines() if line[0] in "+-"]

    def test_a_list_that_differs_fails(self):
        found = [line for line in LINES.splitlines() if not line.endswith(assumptions.UNEXPLAINED)]
        listed = "\n".join(found) + "\n"
        self.assertEqual(self.compare(found, listed), (0, []))
        self.assertEqual(self.compare(found[1:], listed), (1, [f"- {found[0]}"]))
        self.assertEqual(self.compare([*found, found[0]], listed), (1, [f"+ {found[0]}"]))

    def test_a_constant_without_a_reason_fails(self):
        self.assertEqual(self.compare(LINES.splitlines(), LINES + "\n"), (1, []))

    def test_each_reason_is_of_a_member(self):
        members = [line.split(": ") for line in assumptions.lines() if line.startswith("constant ")]
        named = {f"{head.split()[1].split('<')[0]}.{member.split()[1]}" for _, head, *rest in members
                 for member in rest if member.startswith("ghost ")}
        self.assertEqual(named, set(assumptions.WHY))

    def test_crates_of_tests_are_left_out(self):
        with tempfile.TemporaryDirectory() as top:
            for crate in ("small", "test_small", "benchmark"):
                os.makedirs(f"{top}/crates/{crate}/src")
                with open(f"{top}/crates/{crate}/src/lib.rt", "w", encoding="utf-8") as it:
                    it.write("pub fn least() -> u64 { 0 }\n")
            self.assertEqual(assumptions.lines(top), ["open crates/small/src/lib.rt: fn least"])
