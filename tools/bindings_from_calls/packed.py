"""A call as packed lists have it (docs/use/LISTS.md), made of the words that its line has."""
import json
import re

WORD = re.compile(r'"(?:[^"\\]|\\.)*"|[^ ]+', re.DOTALL)


def number(value):
    """The digits of a number."""
    digits = bytearray()
    while value >= 128:
        digits.append(value % 128 + 128)
        value //= 128
    return bytes(digits) + bytes([value])


def counted(content):
    """Bytes after how many they are."""
    return number(len(content)) + content


def argument(type, words):
    """The bytes of the argument that the words begin with, which are taken."""
    if type.form == "list":
        items = list(listed(type.of, words))
        return number(len(items)) + b"".join(items)
    if type.form == "group":
        words.pop(0)
        parts = b"".join(argument(field.type, words) for field in type.fields)
        words.pop(0)
        return parts
    word = words.pop(0)
    if type.form == "optional":
        return b"\0" if word == "-" else b"\1" + argument(type.of, words)
    if type.form == "text":
        return counted(json.loads(word, strict=False).encode())
    if type.form in ("truth", "word"):
        return number((type.words or ("false", "true")).index(word))
    value = int(word)
    if type.form == "integer" and type.least < 0:
        value = 2 * value if value >= 0 else -2 * value - 1
    return number(value)


def listed(type, words):
    """The bytes of each item of a list."""
    words.pop(0)
    while words[0] != "]":
        yield argument(type, words)
    words.pop(0)


def packed(call, line):
    """The call as it stands in the line."""
    words = WORD.findall(line)[1:]
    return counted(number(call.number) + b"".join(argument(it.type, words) for it in call.parameters))
