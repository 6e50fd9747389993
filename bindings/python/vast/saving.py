"""Texts that become files whole, or not at all."""
from __future__ import annotations

import os
import secrets
import shutil
from typing import Union

Path = Union[str, "os.PathLike[str]"]


def save_whole(path: Path, text: str) -> None:
    """Makes the text the file at the path, in UTF-8 with its own line ends, and keeps the mode of one that was there.

    It is written to a file beside it, which takes its place once all of it is on the disk. Where anything fails, that file
    is removed and the one at the path stays as it was. Of a symbolic link, what it leads to is replaced.
    """
    path = os.path.realpath(path)
    if os.path.exists(path) and not os.path.isfile(path):
        raise OSError(f"{path} is no file that can be replaced")
    folder, name = os.path.split(path)
    beside = os.path.join(folder, f".{name}.{secrets.token_hex(8)}")
    file = open(beside, "x", encoding="utf-8", newline="")
    try:
        with file:
            file.write(text)
            file.flush()
            os.fsync(file.fileno())
        if os.path.exists(path):
            shutil.copymode(path, beside)
        os.replace(beside, path)
    except BaseException:
        os.unlink(beside)
        raise
