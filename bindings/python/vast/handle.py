"""What all handles are."""
from __future__ import annotations

from typing import TYPE_CHECKING, Optional

if TYPE_CHECKING:
    from .file import File

# Characters of a text that `repr` shows.
SHOWN = 60


class Handle:
    """The answer of a call: a number among those of its file.

    Two handles are equal where they are the same answer. A handle of another file is refused by `Condition`, one of
    another kind by `TypeError`. `str` of an expression is its text, of a module or a function its name, which the library is
    asked for; `repr` shows the start of it after the kind. Other handles show their kind and number.
    """

    __slots__ = ("file", "step")
    file: File
    # Its number in digits, as lines have it.
    step: str

    @property
    def number(self) -> int:
        """Which of the file's answers it is, from 0."""
        return int(self.step)

    def _printed(self) -> Optional[str]:
        """What it is printed as, of a kind that is a text or a name by itself. Raises what asking for it raises."""
        return None

    def _shown(self) -> Optional[str]:
        """The same, or `None` where it can't be told: of a list, of a closed file, of a text that is refused."""
        try:
            return self._printed()
        except Exception:
            return None

    def __repr__(self) -> str:
        shown = self._shown() or self.step
        return f"<{type(self).__name__} {shown[:SHOWN]}{'..' if len(shown) > SHOWN else ''}>"

    def __str__(self) -> str:
        return self._shown() or f"<{type(self).__name__} {self.step}>"
