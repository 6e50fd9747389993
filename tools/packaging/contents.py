"""What stands in a release."""
import os
import re
import sys

from archive import Entry
from built import ROOT, SONAME, Refusal, tracked
from completions import completions
from documents import quick_starts, verified

sys.path.insert(0, f"{ROOT}/bindings/python")
from build_backend import field, glibc_of, read, wheel  # noqa: E402, of that folder

# Files of the repository as they are: their folder, the form of their names there, and their folder in the release.
COPIED = (
    ("bindings", r"(c|python)/README\.md", "bindings"),
    ("bindings/c", r"vast\w*\.h", "include"),
    ("bindings/c/examples", r".*", "share/examples"),
    ("bindings/python/examples", r".*", "share/examples"),
    ("bindings/rust", r"Cargo\.\w+|build\.rs|README\.md|(src|examples)/.*", "rust/xlsynth-vast"),
    ("docs/believe", r".*", "docs/believe"),
    ("docs/use", r"(?!GUIDE).*", "docs/use"),
    ("", r"LICENSE", ""),
    ("", r"LICENSE", "rust/xlsynth-vast"),
)
# Files that are made for the release, where they stand in it; `@VERSION@` and the like are filled in.
FILLED = "tools/packaging/files"


def release_version():
    """The version, which the packages for Rust and Python both have."""
    version = field("version")
    if f'\nversion = "{version}"\n' not in read(f"{ROOT}/bindings/rust/Cargo.toml").decode():
        raise Refusal(f"bindings/rust/Cargo.toml is not of version {version}, as bindings/python/pyproject.toml is")
    return version


def release_files(commit, version, built):
    """The entries of a release by their paths, of what was built by its paths."""
    built = {name: read(path) for name, path in built.items()}
    files = {**copied(), **libraries(version, built)}
    for program in ("vast_replay", "vast_check"):
        files[f"bin/{program}"] = Entry(built[program], is_program=True)
    name, made = wheel(built["libvast.so"], commit.date)
    files[f"python/{name}"] = Entry(made)
    files["rust/xlsynth-vast/libvast.a"] = Entry(built["libvast.a"])
    files.update((path, Entry(text.encode())) for path, text in completions().items())
    glibc = f"2.{max(map(glibc_of, built.values()))}"
    files.update(filled({"VERSION": version, "GLIBC": glibc, "QUICK_STARTS": quick_starts()}))
    files["VERIFIED"] = Entry(verified(commit, version, glibc, files).encode())
    return files


def copied():
    """The files that are taken as they are."""
    return {
        os.path.join(to, os.path.relpath(path, folder or ".")): Entry(
            read(f"{ROOT}/{path}"), is_program=os.access(f"{ROOT}/{path}", os.X_OK)
        )
        for folder, names, to in COPIED
        for path in tracked(folder, names)
    }


def libraries(version, built):
    """The libraries for C: the shared one by its whole version, which links name."""
    return {
        "lib/libvast.a": Entry(built["libvast.a"]),
        f"lib/libvast.so.{version}": Entry(built["libvast.so"]),
        f"lib/{SONAME}": Entry(target=f"libvast.so.{version}"),
        "lib/libvast.so": Entry(target=SONAME),
    }


def filled(words):
    """The files that are made for the release, with these words in their places."""
    for path in tracked(FILLED, r".*"):
        text = re.sub(r"@([A-Z_]+)@", lambda found: words[found[1]], read(f"{ROOT}/{path}").decode())
        yield os.path.relpath(path, FILLED), Entry(text.encode())
