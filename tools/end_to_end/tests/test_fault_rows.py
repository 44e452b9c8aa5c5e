"""Tests of fault_rows.py: what it finds in small programs in C, of which one tells each fault and the others don't. Without a C
compiler it tries nothing."""

import shutil
import subprocess
import tempfile
import unittest

import fault_rows
from shared import harness

# A program that reads the file that is its word, for memory of three requests: it prints `yes`, or what it is told to do where
# one is refused.
PROGRAM = """
#include <fcntl.h>
#include <stdio.h>
#include <stdlib.h>
#include <string.h>
#include <unistd.h>

static int told(const char *why) {
  char line[100];
  snprintf(line, sizeof line, "error: %%s\\n", why);
  return write(2, line, strlen(line)) < 0 ? 4 : 3;
}

int main(int count, char **words) {
  char *volatile kept[3];
  for (int i = 0; i < 3; i++) {
    kept[i] = malloc(9);
    if (!kept[i]) { %s }
    kept[i][0] = 'x';
  }
  int file = open(words[count - 1], O_RDONLY);
  if (file < 0) return told("not opened");
  if (read(file, kept[0], 9) < 0) { %s }
  return write(1, "yes\\n", 4) == 4 ? 0 : told("not written");
}
"""
TOLD = 'return told("refused");'
NO = 'return write(1, "no\\n", 3) < 0 ? 3 : 1;'


class Faults(unittest.TestCase):
    def setUp(self):
        self.folder = tempfile.mkdtemp()
        self.addCleanup(shutil.rmtree, self.folder)
        self.library = fault_rows.library(self.folder)
        seconds, fault_rows.SECONDS = fault_rows.SECONDS, 1
        self.addCleanup(setattr, fault_rows, "SECONDS", seconds)

    def find(self, kind, without_memory=TOLD, without_read=TOLD):
        """How many faults of that kind such a program has, and what is wrong with the first."""
        program = f"{self.folder}/program"
        text = (PROGRAM % (without_memory, without_read)).encode()
        subprocess.run(["cc", "-fno-builtin", "-x", "c", "-o", program, "-"], input=text, check=True)

        def wrong_with(fault):
            done = harness.run(program, program, seconds=fault_rows.SECONDS, env=fault.environment())
            return fault_rows.wrong_of(done, b"yes\n", 0)

        return fault_rows.faults_of(wrong_with, kind, self.library, "", self.folder)

    def test_each_fault_is_told(self):
        if self.library:
            for kind, count in (("memory", 3), ("memory-from", 3), ("call", 3)):
                with self.subTest(kind):
                    self.assertEqual(self.find(kind), (count, None))

    def test_another_answer(self):
        if self.library:
            for kind in ("memory", "memory-from"):
                count, wrong = self.find(kind, without_memory=NO)
                self.assertEqual(count, 0)
                self.assertIn("number 1, malloc", wrong)
            count, wrong = self.find("call", without_read=NO)
            self.assertEqual(count, 1)
            self.assertIn("number 2, read", wrong)

    def test_a_crash(self):
        if self.library:
            count, wrong = self.find("memory", without_memory="")
            self.assertEqual(count, 0)
            self.assertIn("returncode=-11", wrong)

    def test_no_end(self):
        if self.library:
            self.assertEqual(self.find("memory", without_memory="i--; continue;"), (3, None))
            count, wrong = self.find("memory-from", without_memory="i--; continue;")
            self.assertEqual(count, 0)
            self.assertIn("returncode=None", wrong)
