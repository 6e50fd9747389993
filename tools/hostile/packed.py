"""Lists in the packed form of docs/use/LISTS.md, by a writer and a reader of their own.

The calls, their numbers and the kinds of their arguments are those of docs/use/LISTS_CALLS.md.
"""
import json
import os
import re

ROOT = os.path.dirname(os.path.dirname(os.path.dirname(os.path.abspath(__file__))))
FRONT = b"\0vast\2"
DIALECTS = ("verilog", "systemverilog")
TRUTHS = ("false", "true")
RESET = ("handle", "true/false")
REGISTER = ("handle", "handle", "optional handle", "optional handle")
BOUNDS = {"integer from -2^31 to 2^31-1": 2**32, "integer from -2^63 to 2^63-1": 2**64, "integer from 0 to 2^64-1": 2**64}


class Fault(Exception):
    """The bytes are no call."""


def table():
    """The calls by their names, each with the kinds of its arguments, and their names by their numbers."""
    with open(f"{ROOT}/docs/use/LISTS_CALLS.md", encoding="utf-8") as page:
        groups = page.read().replace("\\|", "/").split("\n## ")[1:]
    named = (("[ signal", "RESET"), ("[ reg", "REGISTER"))
    calls, numbers = {}, {}
    for group, text in enumerate(groups):
        for place, (call, parameters) in enumerate(re.findall(r"(?m)^\| `(\S+)` \| (.*?) ?\| [^|]+ \|$", text)):
            for begin, word in named:
                parameters = re.sub(re.escape(begin) + r"[^\]]*\]", word, parameters)
            calls[call] = [it.split(": ", 1)[1] for it in parameters.split(", ") if it]
            numbers[16 * place + group] = call
    return calls, numbers


CALLS, NAMES = table()
NUMBERS = {call: number for number, call in NAMES.items()}


def number(value):
    digits = bytearray()
    while value >= 128:
        digits.append(value % 128 + 128)
        value //= 128
    return bytes(digits) + bytes([value])


def words_of(kind):
    return TRUTHS if kind == "true/false" else tuple(kind.split("/")) if "/" in kind else None


# The writer


def packed_item(kind, words, handles):
    """The bytes of the argument that the words begin with, which it takes."""
    if kind.startswith("list of "):
        words.pop(0)
        items = []
        while words[0] != "]":
            items.append(packed_item(kind[8:], words, handles))
        words.pop(0)
        return number(len(items)) + b"".join(items)
    if kind.startswith("optional "):
        return b"\1" + packed_item(kind[9:], words, handles) if words.pop(0) == "+" else b"\0"
    if kind in ("RESET", "REGISTER"):
        words.pop(0)
        parts = [packed_item(it, words, handles) for it in (RESET if kind == "RESET" else REGISTER)]
        words.pop(0)
        return b"".join(parts)
    word = words.pop(0)
    if kind == "text":
        text = json.loads(word, strict=False).encode()
        return number(len(text)) + text
    if words_of(kind):
        return number(words_of(kind).index(word))
    if kind in BOUNDS:
        value = int(word)
        return number(value if kind.startswith("integer from 0") else 2 * value if value >= 0 else -2 * value - 1)
    return number(int(word) if word.isdigit() else handles[word])


def packed_list(text):
    """The list of text in packed form, and where each of its calls ends."""
    dialect, *lines = [it for it in text.decode().split("\n") if it and not it.startswith("#")]
    out, ends, handles, count = FRONT + bytes([DIALECTS.index(dialect)]), [], {}, 0
    ends.append(len(out))
    for line in lines:
        name, line = re.fullmatch(r"(?:(\w+) = )?(.*)", line, re.DOTALL).groups()
        call, *words = re.findall(r'"(?:[^"\\]|\\.)*"|[^ ]+', line)
        body = number(NUMBERS[call]) + b"".join(packed_item(kind, words, handles) for kind in CALLS[call])
        if not call.startswith("?"):
            handles[name] = count
            count += 1
        out += number(len(body)) + body
        ends.append(len(out))
    return out, ends


# The reader


def take_number(given, at):
    value = 0
    for digit in range(10):
        if at >= len(given):
            raise Fault
        byte, at = given[at], at + 1
        value += byte % 128 * 128**digit
        if byte < 128 and value < 2**64:
            return value, at
        if byte < 128:
            raise Fault
    raise Fault


def take_item(kind, given, at):
    """The place after an argument."""
    value, at = (0, at) if kind in ("RESET", "REGISTER") else take_number(given, at)
    if kind.startswith("list of "):
        for _ in range(value):
            at = take_item(kind[8:], given, at)
    elif kind.startswith("optional "):
        if value > 1:
            raise Fault
        at = take_item(kind[9:], given, at) if value else at
    elif kind in ("RESET", "REGISTER"):
        for it in RESET if kind == "RESET" else REGISTER:
            at = take_item(it, given, at)
    elif kind == "text":
        if at + value > len(given):
            raise Fault
        try:
            given[at:at + value].decode()
        except UnicodeDecodeError:
            raise Fault from None
        at += value
    elif words_of(kind) and value >= len(words_of(kind)) or value >= BOUNDS.get(kind, 2**64):
        raise Fault
    return at


def take_call(given, at):
    length, at = take_number(given, at)
    call, end = given[at:at + length], at + length
    if end > len(given):
        raise Fault
    which, place = take_number(call, 0)
    if which not in NAMES:
        raise Fault
    for kind in CALLS[NAMES[which]]:
        place = take_item(kind, call, place)
    if place != length:
        raise Fault
    return end


def faulty_call(given):
    """The number of the first call that is not in the form, from 1; 0 where the front is none, `None` where all are."""
    if given[:len(FRONT)] != FRONT or len(given) == len(FRONT) or given[len(FRONT)] > 1:
        return 0
    at, count = len(FRONT) + 1, 0
    while at < len(given):
        count += 1
        try:
            at = take_call(given, at)
        except Fault:
            return count
    return None
