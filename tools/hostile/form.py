"""The lines of a list of calls that are not in the form of docs/use/LISTS.md, by a reader of its own.

It knows the calls of the lists that `inputs` damages, and no others.
"""
import re

HANDLE, INT64, TRUTH, TEXT, FORMAT = "handle", "number", "truth", "text", "format"


def listing(*parts):
    return ("list", parts)


def option(part):
    return ("option", part)


FORMATS = ("Binary", "Hex", "SignedDecimal", "UnsignedDecimal", "UnsizedBinary", "UnsizedDecimal", "UnsizedHex")
CALLS = {
    "AddModule": (TEXT,), "MakeScalarType": (), "MakeBitVectorType": (INT64, TRUTH),
    "AddInput": (HANDLE, TEXT, HANDLE), "AddOutput": (HANDLE, TEXT, HANDLE), "AddLogic": (HANDLE, TEXT, HANDLE),
    "AddVariable": (HANDLE, TEXT, HANDLE),
    "AddWire": (HANDLE, TEXT, HANDLE), "MakeContinuousAssignment": (HANDLE, HANDLE),
    "AddMemberContinuousAssignment": (HANDLE, HANDLE), "MakeLiteral": (TEXT, FORMAT), "MakeAdd": (HANDLE, HANDLE),
    "MakeUnsizedDecimalLiteral": (INT64,), "AddMemberInstantiation": (HANDLE, HANDLE),
    "MakeInstantiation": (TEXT, TEXT, listing(TEXT, ...), listing(HANDLE, ...), listing(TEXT, ...),
                          listing(option(HANDLE), ...)),
}
REGISTER = listing(HANDLE, HANDLE, option(HANDLE), option(HANDLE))
QUESTIONS = {"!AddRegisters": (HANDLE, option(listing(HANDLE, TRUTH)), listing(REGISTER, ...), HANDLE)}
PATTERNS = {
    INT64: "-?[0-9]+", TRUTH: "true|false", TEXT: r'"(?:[^"\\]|\\(?:["\\/ntrbf]|u(?![dD][89a-fA-F])[0-9a-fA-F]{4}|u[dD][89abAB][0-9a-fA-F]{2}\\u[dD][c-fC-F][0-9a-fA-F]{2}))*"', FORMAT: "|".join(FORMATS),
    HANDLE: "[0-9]+|[A-Za-z_][A-Za-z0-9_]*",
}


class Fault(Exception):
    """The line is not in the form."""


def need(pattern, line, at):
    """The place after what the pattern finds."""
    found = re.compile(pattern).match(line, at)
    if not found:
        raise Fault
    return found.end()


def argument(kind, line, at, names):
    """The place after an argument and the space or the end that follows it."""
    if isinstance(kind, str):
        end = need(f"(?:{PATTERNS[kind]})(?: |\\Z)", line, at)
        word = line[at:end].rstrip(" ")
        if kind == HANDLE and not word[0].isdigit() and word not in names:
            raise Fault
        return end
    word, parts = kind
    if word == "option":
        if re.compile(r"-(?: |\Z)").match(line, at):
            return need("- ?", line, at)
        return argument(parts, line, need(r"\+ ", line, at), names)
    at = need(r"\[ ", line, at)
    if parts[-1] is ...:
        while not line.startswith("]", at):
            at = argument(parts[0], line, at, names)
    else:
        for part in parts:
            at = argument(part, line, at, names)
    return need(r"\](?: |\Z)", line, at)


def read_line(line, names):
    """Reads a line after the dialect. Its name is taken, be the line in the form or not."""
    given = re.match(r"([A-Za-z_][A-Za-z0-9_]*) = ", line)
    try:
        if given and given[1] in names:
            raise Fault
        read_call(line, given.end() if given else 0, names)
    finally:
        if given:
            names.add(given[1])


def read_call(line, at, names):
    """Reads the call that begins at this place."""
    call, *_ = line[at:].split(" ", 1)
    kinds = {**CALLS, **QUESTIONS}.get(call)
    if kinds is None:
        raise Fault
    at += len(call)
    at = at + 1 if kinds and line.startswith(" ", at) else at
    for kind in kinds:
        if line[at - 1] != " ":
            raise Fault
        at = argument(kind, line, at, names)
    if at != len(line) or (kinds and line.endswith(" ")):
        raise Fault


def text_of(line):
    """The text of a line, without the CR of its end; raises Fault where it is no UTF-8."""
    try:
        return (line[:-1] if line.endswith(b"\r") else line).decode()
    except UnicodeDecodeError:
        raise Fault from None


def faulty_lines(given):
    """The numbers of the lines that are not in the form; of a list without its dialect one alone."""
    names, faulty, is_dialect_read = set(), [], False
    given = given.removeprefix(b"\xef\xbb\xbf")
    for number, line in enumerate((given[:-1] if given.endswith(b"\n") else given).split(b"\n"), 1):
        try:
            text = text_of(line)
            if re.fullmatch(r"[ \t]*(#.*)?", text, re.DOTALL):
                continue
            if is_dialect_read:
                read_line(text, names)
            elif text in ("verilog", "systemverilog"):
                is_dialect_read = True
            else:
                return [number]
        except Fault:
            faulty.append(number)
            if not is_dialect_read:
                return faulty
    return faulty if is_dialect_read else [1]
