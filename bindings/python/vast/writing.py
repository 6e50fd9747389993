"""Arguments as lines have them, and answers as lines give them."""
from __future__ import annotations

import functools
import re
from enum import Enum
from json.encoder import encode_basestring
from typing import Any, Callable, Dict, Iterable, List, Optional, Type, Union

from .kinds import ModulePortDirection, Port
from .session import Plain


def quoted(text: str) -> str:
    """A text between quotes."""
    if not isinstance(text, str):
        raise TypeError(f"a text is wanted, not {text!r}")
    if not text.isascii():
        text.encode()  # Half of a surrogate pair is no character: a UnicodeEncodeError, before anything is made.
    return encode_basestring(text)


# A literal of at most 30 bits.
_SMALL = re.compile(r"bits\[([12]?[1-9]|[123]0)\]:(0|[1-9][0-9]{0,9})", re.ASCII)


@functools.lru_cache(maxsize=1024)
def is_small_literal(text: str) -> bool:
    """Whether the text is for certain a literal that each format holds; the library tells it of others."""
    found = _SMALL.fullmatch(text)
    return found is not None and int(found[2]) >> int(found[1]) == 0


def truth(given: bool) -> str:
    """`true` or `false`."""
    if given is True:
        return "true"
    if given is False:
        return "false"
    raise TypeError(f"True or False is wanted, not {given!r}")


def _number(given: int, least: int, most: int) -> int:
    if not isinstance(given, int) or isinstance(given, bool):
        raise TypeError(f"a number is wanted, not {given!r}")
    if not least <= given <= most:
        raise ValueError(f"a number from {least} to {most} is wanted, not {given}")
    return given


def int32(given: int) -> int:
    """A signed number of 32 bits."""
    return _number(given, -0x8000_0000, 0x7FFF_FFFF)


def int64(given: int) -> int:
    """A signed number of 64 bits."""
    return _number(given, -0x8000_0000_0000_0000, 0x7FFF_FFFF_FFFF_FFFF)


def size(given: int) -> int:
    """A number of 64 bits that is not negative."""
    return _number(given, 0, 0xFFFF_FFFF_FFFF_FFFF)


def word(kind: Type[Enum], given: object) -> str:
    """A variant's word; the variant may be given by its word too."""
    return kind(given).value


def listed(write: Callable[[Any], object], given: Iterable[Any]) -> str:
    """A list."""
    if isinstance(given, str):
        raise TypeError(f"a list is wanted, not {given!r}")
    return "[ " + "".join([f"{write(item)} " for item in given]) + "]"


def optional(write: Callable[[Any], object], given: Optional[Any]) -> str:
    """What may be `None`."""
    return "-" if given is None else f"+ {write(given)}"


def read_truth(answer: Union[str, bool]) -> bool:
    """The answer of a test."""
    return answer is True or answer == "true"


def read_number(answer: Union[str, int]) -> int:
    """A number."""
    return int(answer)


def read_optional(answer: Optional[str]) -> Optional[str]:
    """A text that may be missing."""
    return None if isinstance(answer, Plain) and answer == "-" else answer


# A port's name stands at both ends, so that a space or a line break in it is no end.
_PORT = re.compile(r"\n(.*?) (Input|Output|InOut) (-?\d+) (true|false) (\1)(?=\n|\Z)", re.DOTALL)


def read_ports(answer: Union[str, List[Dict[str, Any]]]) -> List[Port]:
    """The ports of a module."""
    if isinstance(answer, str):
        rows = _PORT.findall(answer)
    else:
        rows = [[port[field] for field in Port._fields] for port in answer]
    return [
        Port(name, ModulePortDirection(direction), int(width), read_truth(signed), reference)
        for name, direction, width, signed, reference in rows
    ]
