"""What makes the calls: the proved library by its shared library, or the proved program by pipes."""
from __future__ import annotations

import functools
import json
import os
import shutil
import subprocess
import weakref
from bisect import bisect_left
from ctypes import CDLL, POINTER, byref, c_char_p, c_int32, c_size_t, c_void_p, create_string_buffer
from typing import IO, Any, Dict, Iterator, List, Optional, Protocol, Tuple, cast

from .errors import Condition, NoLibrary, NotInForm, Refused
from .warning import Warned, listed_warning, read_warnings

_HERE = os.path.dirname(os.path.abspath(__file__))
_ROOT = os.path.dirname(os.path.dirname(os.path.dirname(_HERE)))


class Plain(str):
    """An answer as lists print it, where another session has a value of JSON."""


class Session(Protocol):
    """A file that takes lines."""

    def lines(self, lines: List[str]) -> Tuple[int, Optional[Exception]]:
        """Makes the calls of the lines up to the first at fault: how many were made, and the fault if there is one."""

    def ask(self, line: str) -> Any:
        """The answer of a question, `Plain` or of JSON. Raises its fault."""

    def text(self) -> str:
        """The text of the file. Raises its refusal."""

    def warnings(self) -> List[Warned]:
        """What its calls print that tools refuse, of a session with `lint`; of one without, a `ValueError`."""

    def close(self) -> None:
        """Lets go of the file."""


def no_lint() -> ValueError:
    """Why a session without `lint` tells no warnings."""
    return ValueError("warnings are told of a file that is made with lint=True")


class LibrarySession:
    """A session of the shared library, by `bindings/c/vast.h`."""

    DIALECTS = {"verilog": 0, "systemverilog": 1}
    FAULTS = {1: Refused, 2: Condition, 3: NotInForm}
    ANSWER, WORDS, CALL, FILE = 0, 2, 3, 4
    LINE = 1
    SHORT = 256  # bytes: texts up to this length are copied by one call

    def __init__(self, library: CDLL, dialect: str, lint: bool = False) -> None:
        self._library = library
        self._dialect = self.DIALECTS[dialect]
        # The lines that were made, of a session with a lint; questions stand there as empty lines.
        self._made: Optional[List[str]] = [] if lint else None
        self._at = c_void_p()
        self._session = byref(self._at)
        self._taken = c_size_t()
        self._taken_at = byref(self._taken)
        # Found once, since each call of a file goes through it.
        self._make = library.vast_lines
        self._check(library.vast_open(self._session, self._dialect))
        self._end = weakref.finalize(self, library.vast_close, self._session)

    def lines(self, lines: List[str]) -> Tuple[int, Optional[Exception]]:
        """See `Session`."""
        sent = "\n".join(lines).encode()
        status = self._make(self._session, sent, len(sent), self._taken_at)
        if self._made is not None:
            self._made += lines[: self._taken.value]
        return self._taken.value, None if status == 0 else self._fault(status)

    def ask(self, line: str) -> Plain:
        """See `Session`."""
        _, fault = self.lines([line])
        if fault is not None:
            raise fault
        if self._made is not None:
            self._made[-1] = ""
        return Plain(self._text(self.ANSWER))

    def text(self) -> str:
        """See `Session`."""
        self._check(self._library.vast_print(self._session))
        return self._text(self.FILE)

    def warnings(self) -> List[Warned]:
        """See `Session`. The lines are made anew, each time."""
        if self._made is None:
            raise no_lint()
        if not self._end.alive:
            raise ValueError("the file is closed")
        sent = "\n".join(self._made).encode()
        length, room = self._warned(sent, self.SHORT)
        if length > self.SHORT:
            length, room = self._warned(sent, length)
        return read_warnings(room[:length].decode())

    def _warned(self, sent: bytes, size: int) -> Tuple[int, bytes]:
        """The length of the warnings of these lines, and so many bytes of them."""
        room = create_string_buffer(size)
        length = c_size_t()
        self._check(
            self._library.vast_warnings(self._dialect, sent, len(sent), room, size, byref(length))
        )
        return length.value, room.raw

    def close(self) -> None:
        """See `Session`."""
        self._end()

    def _text(self, number: int) -> str:
        """A text of the session."""
        room = create_string_buffer(self.SHORT)
        length = self._library.vast_text(self._session, number, room, self.SHORT)
        if length > self.SHORT:
            room = create_string_buffer(length)
            self._library.vast_text(self._session, number, room, length)
        return str(memoryview(room)[:length], "utf-8")

    def _check(self, status: int) -> None:
        if status != 0:
            raise self._fault(status)

    def _fault(self, status: int) -> Exception:
        """The fault that a status tells."""
        if status == 4:
            return MemoryError("out of memory")
        if status == 5:
            return ValueError("the file is closed")
        line = self._library.vast_number(self._session, self.LINE)
        call = self._text(self.CALL)
        words = self._text(self.WORDS)
        # Lines are numbered from 1, and 0 is none.
        return self.FAULTS[status](words, call or None, line - 1 if line else None)


def load_library(path: str) -> CDLL:
    """The shared library of this path."""
    library = CDLL(path)
    session = POINTER(c_void_p)
    library.vast_open.argtypes = [session, c_int32]
    library.vast_lines.argtypes = [session, c_char_p, c_size_t, POINTER(c_size_t)]
    library.vast_print.argtypes = [session]
    library.vast_text.argtypes = [session, c_int32, c_char_p, c_size_t]
    library.vast_number.argtypes = [session, c_int32]
    library.vast_number.restype = c_size_t
    library.vast_warnings.argtypes = [c_int32, c_char_p, c_size_t, c_char_p, c_size_t, POINTER(c_size_t)]
    library.vast_close.argtypes = [session]
    library.vast_close.restype = None
    library.vast_text.restype = c_size_t
    return library


class ProcessSession:
    """A process `vast_replay --session`: a line in, a line of JSON out."""

    # Bytes that are sent before their answers are read: less than a pipe holds, so that sending never waits for a reading.
    ROOM = 32768
    FAULTS = {
        "refused": Refused,
        "condition": Condition,
        "kind": Condition,
        "no answer": Condition,
        "form": NotInForm,
    }

    def __init__(self, program: str, dialect: str, lint: bool = False) -> None:
        words = [program, "--session", "--lint"] if lint else [program, "--session"]
        self._process = subprocess.Popen(words, stdin=subprocess.PIPE, stdout=subprocess.PIPE)
        self._input = cast(IO[bytes], self._process.stdin)
        self._output = cast(IO[bytes], self._process.stdout)
        self._end = weakref.finalize(self, end_process, self._process)
        self._sent = 0
        # Replies that are to come.
        self._owed = 0
        # The numbers, from 1, of lines that made nothing: the dialect's, those at fault, and questions for the text.
        self._empty: List[int] = []
        # What the lines so far print, of a session with a lint.
        self._told: Optional[List[Warned]] = [] if lint else None
        self._reply(dialect)
        self._empty.append(1)

    def lines(self, lines: List[str]) -> Tuple[int, Optional[Exception]]:
        """See `Session`. Lines after one at fault are sent all the same."""
        made, first = 0, None
        for sent, count in self._parts(lines):
            self._send(sent, count)
            for _ in range(count):
                fault = self._fault_of(self._read())
                if first is None:
                    first = fault
                    made += fault is None
        return made, first

    def ask(self, line: str) -> Any:
        """See `Session`."""
        reply = self._reply(line)
        fault = self._fault_of(reply)
        if fault is not None:
            raise fault
        return json.loads(reply)["answer"]

    def text(self) -> str:
        """See `Session`."""
        text = self.ask("?Emit")
        self._empty.append(self._sent)
        return text

    def warnings(self) -> List[Warned]:
        """See `Session`."""
        if self._told is None:
            raise no_lint()
        left = self.ask("?Warnings")
        self._empty.append(self._sent)
        return self._told + self._warned(left)

    def _warned(self, given: List[Dict[str, Any]]) -> List[Warned]:
        """The warnings of a reply."""
        return [listed_warning(each, self._made_before(each["line"])) for each in given]

    def _made_before(self, line: int) -> int:
        """How many lines were made before that of this number, counted from 1."""
        return line - 1 - bisect_left(self._empty, line)

    def close(self) -> None:
        """See `Session`."""
        self._end()

    def _parts(self, lines: List[str]) -> Iterator[Tuple[bytes, int]]:
        """The lines in parts of at most `ROOM` bytes, or of one line, with their numbers of lines."""
        part: List[bytes] = []
        length = 0
        for line in lines:
            sent = line.encode()
            if part and length + len(sent) >= self.ROOM:
                yield b"".join(part), len(part)
                part, length = [], 0
            part.append(sent + b"\n")
            length += len(sent) + 1
        if part:
            yield b"".join(part), len(part)

    def _reply(self, line: str) -> bytes:
        """The reply to a line."""
        self._send(line.encode() + b"\n", 1)
        return self._read()

    def _send(self, sent: bytes, count: int) -> None:
        """Sends so many lines."""
        if self._input.closed:
            raise ValueError("the file is closed")
        if self._owed:
            raise BrokenPipeError("an exchange with vast_replay --session was interrupted")
        self._owed = count
        self._input.write(sent)
        self._input.flush()

    def _read(self) -> bytes:
        """The next reply."""
        reply = self._output.readline()
        if not reply.endswith(b"\n"):
            raise BrokenPipeError(f"vast_replay --session ended, status {self._process.wait()}")
        self._owed -= 1
        self._sent += 1
        # Quotes within texts stand after a backslash, here too.
        if self._told is not None and b',"warnings":[' in reply:
            self._told += self._warned(json.loads(reply)["warnings"])
        return reply

    def _fault_of(self, reply: bytes) -> Optional[Exception]:
        """The fault that a reply tells. Quotes within texts stand after a backslash, so they are no sign of one."""
        if b',"cause":"' not in reply:
            return None
        given = json.loads(reply)
        self._empty.append(self._sent)
        if given["cause"] == "memory":
            return MemoryError("out of memory")
        return self.FAULTS[given["cause"]](
            given["words"], given.get("call"), self._made_before(given["line"])
        )


def end_process(process: subprocess.Popen) -> None:
    """Ends a process by the end of its input."""
    for stream in (process.stdin, process.stdout):
        if stream is not None:
            stream.close()
    process.wait()


class ListSession:
    """Makes nothing and keeps the lines: for those who want the list of calls itself."""

    def __init__(self, dialect: str) -> None:
        self._kept = [dialect]

    def lines(self, lines: List[str]) -> Tuple[int, Optional[Exception]]:
        """See `Session`."""
        self._kept += lines
        return len(lines), None

    def ask(self, line: str) -> Any:
        """A list has no answers."""
        raise NoLibrary(f"a file that is only written as a list answers nothing: {line}")

    def text(self) -> str:
        """The list."""
        return "\n".join(self._kept) + "\n"

    def warnings(self) -> List[Warned]:
        """A list tells them when it is made, by `vast_replay --lint`."""
        raise NoLibrary("a file that is only written as a list tells no warnings: vast_replay --lint does")

    def close(self) -> None:
        """See `Session`."""


@functools.lru_cache(maxsize=None)
def found_library() -> Optional[CDLL]:
    """The shared library: that of the path VAST_LIBRARY, of which an empty one is none; without it that in the package, as
    a wheel has it, or that which `tools/bindings` left in this checkout."""
    named = os.environ.get("VAST_LIBRARY")
    paths = [f"{_HERE}/libvast.so", f"{_ROOT}/bindings/out/libvast.so"] if named is None else [named]
    return next((load_library(path) for path in paths if os.path.exists(path)), None)


def found_program() -> Optional[str]:
    """The program: that of the path VAST_REPLAY, or on PATH, or as it was built in this checkout."""
    named = os.environ.get("VAST_REPLAY")
    if named is not None:
        return shutil.which(named)
    return shutil.which("vast_replay") or shutil.which(f"{_ROOT}/crates/vast_replay/out/vast_replay")


def open_session(dialect: str, lint: bool = False) -> Session:
    """A session of the library where it is there, else of the program."""
    library = found_library()
    if library is not None:
        return LibrarySession(library, dialect, lint)
    program = found_program()
    if program is not None:
        return ProcessSession(program, dialect, lint)
    raise NoLibrary(
        "neither libvast.so nor vast_replay is there: bindings/python/README.md says how they are built,"
        " and VAST_LIBRARY and VAST_REPLAY name their paths"
    )
