"""Sessions that tests run over: each that is there, in each dialect, with a note of each call that was made."""
import functools
import unittest
from typing import Callable, Dict, Set, Tuple

from vast import File
from vast.session import LibrarySession, ProcessSession, Session, found_library, found_program

BOTH = ("verilog", "systemverilog")


def sessions():
    """The sessions that are there, by name: functions from dialects."""
    library, program = found_library(), found_program()
    found: Dict[str, Callable[[str], Session]] = {}
    if library is not None:
        found["library"] = functools.partial(LibrarySession, library)
    if program is not None:
        found["process"] = functools.partial(ProcessSession, program)
    return found


SESSIONS = sessions()
MADE: Dict[Tuple[str, str], Set[str]] = {(name, dialect): set() for name in SESSIONS for dialect in BOTH}


class Noted:
    """A session that notes the calls that were made."""

    def __init__(self, name, dialect, lint=False):
        self.name = name
        self.session = SESSIONS[name](dialect, lint=lint)
        self.made = MADE[name, dialect]

    def lines(self, lines):
        """Notes the calls of those that were made."""
        taken, fault = self.session.lines(lines)
        self.made.update(line.split(" ", 1)[0] for line in lines[:taken])
        return taken, fault

    def ask(self, line):
        """Notes what was answered."""
        answer = self.session.ask(line)
        self.made.add(line.split(" ", 1)[0])
        return answer

    def text(self):
        """The text."""
        text = self.session.text()
        self.made.add("?Emit")
        return text

    def warnings(self):
        """The warnings."""
        return self.session.warnings()

    def close(self):
        """Closes it."""
        self.session.close()


def over_each(*dialects, lint=False, places=False):
    """A test of a file, over each session in these dialects, or in both."""

    def over(test):
        @functools.wraps(test)
        def run(self):
            for name in SESSIONS:
                for dialect in dialects or BOTH:
                    with self.subTest(session=name, dialect=dialect):
                        with File(dialect, session=Noted(name, dialect, lint), places=places) as file:
                            test(self, file)

        return run

    return over


class FileTest(unittest.TestCase):
    """Tests of texts and faults."""

    maxDiff = None

    def assert_file(self, file, *lines):
        """The file's text has these lines."""
        self.assertEqual(file.emit(), "".join(line + "\n" for line in lines))

    def assert_expression(self, expression, text):
        """The expression is printed so."""
        self.assertEqual(expression.emit_expression(), text)

    def assert_fault(self, kind, file, call, *arguments, words=None):
        """The call raises this fault, and the file is as before."""
        before = file.emit()
        with self.assertRaises(kind) as raised:
            call(*arguments)
        if words is not None:
            self.assertEqual(raised.exception.words, words)
        self.assertEqual(file.emit(), before)
