"""The methods are what the table of calls gives, and the table is the program's."""
import os
import subprocess
import sys
import unittest

from vast.session import found_program

ROOT = os.path.dirname(os.path.dirname(os.path.dirname(os.path.dirname(os.path.abspath(__file__)))))
TABLE = f"{ROOT}/bindings/calls.json"


class Table(unittest.TestCase):
    """`bindings/calls.json` and what is written from it."""

    def test_written(self):
        run = [sys.executable, f"{ROOT}/tools/bindings_from_calls/run", "--check", "--table", TABLE]
        said = subprocess.run(run, capture_output=True, text=True)
        self.assertEqual(said.returncode, 0, said.stdout + said.stderr)

    @unittest.skipUnless(found_program(), "vast_replay is not there")
    def test_table(self):
        said = subprocess.run([found_program(), "--calls", "--json"], capture_output=True, check=True)
        with open(TABLE, "rb") as file:
            self.assertEqual(said.stdout, file.read())
