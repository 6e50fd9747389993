"""What calls print that is no SystemVerilog or Verilog, or that a tool refuses."""
from __future__ import annotations

import re
import unicodedata
from typing import Any, Dict, List, NamedTuple, Optional


class Warned(NamedTuple):
    """A form that a call prints, and which is no SystemVerilog or Verilog, or which some tool refuses."""

    # How many lines of the file were made before that of the call, as a fault's `line`.
    line: int
    # The call as lists write it (`MakeIndex`).
    call: str
    # The text of the expression that shows it, where there is one; control characters are written `\u000a`.
    text: Optional[str]
    # What is wrong with it.
    why: str
    # What Icarus, Verilator and Yosys do with it, in words.
    tools: str
    # The file and line of Python that made the call, of files with `places=True`.
    place: Optional[str] = None

    def __str__(self) -> str:
        text = None if self.text is None else f'prints "{self.text}"'
        told = ": ".join(part for part in (self.place, self.call, text, self.why) if part)
        return f"{told} ({self.tools})"


# No reason has a quote before a colon, and no tools' words a parenthesis, so each part is found whatever the text is.
_LINE = re.compile(r'(\d+): (\w+): (?:prints "(.*)": )?(.*) \((.*)\)')


def read_warnings(told: str) -> List[Warned]:
    """Those of the lines that the library tells, whose numbers are from 1."""
    found = (_LINE.fullmatch(line) for line in told.split("\n")[:-1])
    return [Warned(int(each[1]) - 1, *each.groups()[1:]) for each in found if each]


def on_a_line(text: str) -> str:
    """The text as the library tells it, with an escape for each control character."""
    return "".join(f"\\u{ord(c):04x}" if unicodedata.category(c) == "Cc" else c for c in text)


def listed_warning(given: Dict[str, Any], line: int) -> Warned:
    """A warning as JSON has it, of the call in the line after so many."""
    text = given.get("text")
    shown = None if text is None else on_a_line(text)
    return Warned(line, given["call"], shown, given["why"], given["tools"])
