"""Makes the wheel of the package `vast`, for pip (PEP 517) and for `tools/release`.

The shared library that `tools/bindings` leaves in bindings/out is part of it where it is there; else the package runs on
`vast_replay`. The same files give the same bytes, and the standard library is all that is wanted.
"""
import base64
import hashlib
import io
import os
import re
import time
import zipfile

HERE = os.path.dirname(os.path.abspath(__file__))
LIBRARY = f"{HERE}/../out/libvast.so"
# The first time that a zip file can name: 1980-01-01.
EARLIEST = 315532800
# The oldest C library that a wheel is tagged for, glibc 2.17, which is that of manylinux2014.
OLDEST_GLIBC = 17


def build_wheel(wheel_directory, config_settings=None, metadata_directory=None):
    """Pip's call: makes the wheel in the folder; its name."""
    library = read(LIBRARY) if os.path.exists(LIBRARY) else None
    name, made = wheel(library, int(os.environ.get("SOURCE_DATE_EPOCH", EARLIEST)))
    with open(os.path.join(wheel_directory, name), "wb") as file:
        file.write(made)
    return name


def wheel(library, date):
    """The name of the wheel with this shared library, or with none, and its bytes."""
    stem = f"{field('name').replace('-', '_')}-{field('version')}"
    tag = f"py3-none-{'any' if library is None else platform_of(library)}"
    files = package_files()
    if library is not None:
        files["vast/libvast.so"] = library
    files[f"{stem}.dist-info/LICENSE"] = read(f"{HERE}/../../LICENSE")
    files[f"{stem}.dist-info/METADATA"] = metadata().encode()
    files[f"{stem}.dist-info/WHEEL"] = wheel_file(tag, is_pure=library is None).encode()
    record = f"{stem}.dist-info/RECORD"
    rows = [f"{path},sha256={sum_of(files[path])},{len(files[path])}\n" for path in sorted(files)]
    files[record] = "".join([*rows, f"{record},,\n"]).encode()
    return f"{stem}-{tag}.whl", zipped(files, date)


def package_files():
    """The files of the package by their paths in the wheel."""
    names = [name for name in os.listdir(f"{HERE}/vast") if name.endswith((".py", ".typed"))]
    return {f"vast/{name}": read(f"{HERE}/vast/{name}") for name in names}


def platform_of(library):
    """Which machines the library runs on: those with the C library whose symbols it names, or a later one."""
    return f"manylinux_2_{glibc_of(library)}_x86_64"


def glibc_of(program):
    """The N of the glibc 2.N that a program or a shared library wants: the highest version of the symbols that it names."""
    return max([OLDEST_GLIBC, *map(int, re.findall(rb"\0GLIBC_2\.(\d+)", program))])


def metadata():
    """What pip shows of the package."""
    head = [
        "Metadata-Version: 2.1",
        f"Name: {field('name')}",
        f"Version: {field('version')}",
        f"Summary: {field('description')}",
        "License: Apache-2.0",
        f"Requires-Python: {field('requires-python')}",
        "Description-Content-Type: text/markdown",
    ]
    return "\n".join([*head, "", read(f"{HERE}/README.md").decode()])


def wheel_file(tag, is_pure):
    """What pip reads to install it."""
    return f"Wheel-Version: 1.0\nGenerator: build_backend\nRoot-Is-Purelib: {str(is_pure).lower()}\nTag: {tag}\n"


def field(name):
    """A text of pyproject.toml."""
    return re.search(rf'^{name} = "(.*)"$', read(f"{HERE}/pyproject.toml").decode(), re.M).group(1)


def sum_of(content):
    """The sum of a file as RECORD has it."""
    return base64.urlsafe_b64encode(hashlib.sha256(content).digest()).decode().rstrip("=")


def zipped(files, date):
    """The zip file of these files, in the order of their paths, all of this date."""
    made = io.BytesIO()
    with zipfile.ZipFile(made, "w", zipfile.ZIP_DEFLATED, compresslevel=9) as archive:
        for path in sorted(files):
            entry = zipfile.ZipInfo(path, time.gmtime(max(date, EARLIEST))[:6])
            entry.compress_type = zipfile.ZIP_DEFLATED
            entry.create_system = 3  # Unix, whose modes follow
            entry.external_attr = 0o100644 << 16
            archive.writestr(entry, files[path], compresslevel=9)
    return made.getvalue()


def read(path):
    """The bytes of a file."""
    with open(path, "rb") as file:
        return file.read()
