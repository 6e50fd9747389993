"""An archive of files, which is the same bytes for the same files."""
import gzip
import io
import tarfile
from pathlib import PurePosixPath
from typing import NamedTuple


class Entry(NamedTuple):
    """A file, or a symbolic link where it has a target."""

    content: bytes = b""
    is_program: bool = False
    target: str = ""


def archive(top, files, date):
    """The .tar.gz of entries by their paths, below a folder: in their order, all of this date and of nobody's."""
    made = io.BytesIO()
    with gzip.GzipFile("", "wb", 9, made, mtime=0) as packed:
        with tarfile.open(fileobj=packed, mode="w", format=tarfile.USTAR_FORMAT) as tar:
            for path in sorted([*files, *folders_of(files)]):
                entry = files.get(path)
                tar.addfile(header(f"{top}/{path}", entry, date), io.BytesIO(entry.content if entry else b""))
    return made.getvalue()


def folders_of(paths):
    """The folders that the paths lie in."""
    return {str(folder) for path in paths for folder in PurePosixPath(path).parents if folder.name}


def header(path, entry, date):
    """What the archive says of an entry; of a folder there is none."""
    info = tarfile.TarInfo(path)
    info.mtime = date
    if entry is None:
        info.type, info.mode = tarfile.DIRTYPE, 0o755
    elif entry.target:
        info.type, info.mode, info.linkname = tarfile.SYMTYPE, 0o777, entry.target
    else:
        info.size, info.mode = len(entry.content), 0o755 if entry.is_program else 0o644
    return info
