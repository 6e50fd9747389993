"""The designs of `examples/`, and the simulations of their testbenches where Icarus is there."""
import itertools
import os
import shutil
import subprocess
import sys
import tempfile
import unittest

from sessions import SESSIONS, FileTest

HERE = os.path.dirname(os.path.abspath(__file__))
EXAMPLES = f"{os.path.dirname(HERE)}/examples"
ROOT = os.path.dirname(os.path.dirname(os.path.dirname(HERE)))
sys.path.insert(0, EXAMPLES)
from counter import counter  # noqa: E402
from fifo import fifo  # noqa: E402
from registers import registers  # noqa: E402
from uart import uart  # noqa: E402


def stored(title):
    """What the stored run of vast_replay has after this header, but for the answers of questions."""
    with open(f"{ROOT}/crates/vast_replay/stdout", encoding="utf-8") as file:
        _, _, text = file.read().partition(f"== {title}\n")
    lines = itertools.takewhile(lambda line: not line.startswith("== "), text.splitlines(keepends=True))
    return "".join(line for line in lines if not line.startswith(("!", "?")))


class Designs(FileTest):
    """Each design."""

    def test_counter(self):
        """The counter is the stored one."""
        self.assertEqual(counter(), stored("counter by names"))

    def test_program(self):
        """A design's file is a program that prints it."""
        places = dict(os.environ, PYTHONPATH=os.path.dirname(HERE))
        said = subprocess.run(
            [sys.executable, f"{EXAMPLES}/counter.py"], env=places, capture_output=True, text=True, check=True
        )
        self.assertEqual(said.stdout, counter())

    @unittest.skipUnless(shutil.which("iverilog"), "Icarus is not there")
    def test_simulations(self):
        for name, text in (("fifo", fifo()), ("uart", uart()), ("registers", registers())):
            with self.subTest(name), tempfile.TemporaryDirectory() as folder:
                self.assertRegex(self.simulated(folder, name, text), "^passed: ")

    @unittest.skipUnless(shutil.which("iverilog"), "Icarus is not there")
    def test_testbenches(self):
        """Each testbench sees a fault that is put into its design."""
        for name, text, old, new in (
            ("fifo", fifo(), "push && !full", "push"),
            ("uart", uart(), "shift >> 1", "shift >> 2"),
            ("registers", registers(), "wstrb[2]", "wstrb[3]"),
        ):
            with self.subTest(name), tempfile.TemporaryDirectory() as folder:
                self.assertEqual(text.count(old), 1)
                self.assertRegex(self.simulated(folder, name, text.replace(old, new)), "^failed: ")

    def simulated(self, folder, name, text):
        """What the testbench prints."""
        with open(f"{folder}/{name}.sv", "w", encoding="utf-8") as file:
            file.write(text)
        built = f"{folder}/{name}"
        subprocess.run(
            ["iverilog", "-g2012", "-o", built, f"{built}.sv", f"{EXAMPLES}/{name}_tb.sv"],
            stderr=subprocess.DEVNULL,
            check=True,
        )
        return subprocess.run(["vvp", built], capture_output=True, text=True, timeout=100, check=True).stdout


if not SESSIONS:
    del Designs
