"""What the gate built, and whether it is of this commit as far as can be told."""
import os
import re
import subprocess
from typing import NamedTuple

ROOT = os.path.dirname(os.path.dirname(os.path.dirname(os.path.abspath(__file__))))
SONAME = "libvast.so.0"


class Refusal(Exception):
    """Why no release is made."""


class Built(NamedTuple):
    """A program or a library."""

    name: str
    # Where the gate leaves it, from the top of the repository.
    folder: str
    # What it is built from.
    crate: str


BUILT = (
    Built("vast_replay", "crates/vast_replay/out", "vast_replay"),
    Built("vast_check", "crates/vast_check/out", "vast_check"),
    Built("libvast.a", "bindings/out", "vast_c"),
    Built("libvast.so", "bindings/out", "vast_c"),
)


class Commit(NamedTuple):
    """What a release is of."""

    name: str
    date: int
    # Whether the checkout has changes that the commit has not.
    is_changed: bool


def commit(takes_changes):
    """The commit of this checkout; one with changes is refused but where they are taken."""
    changes = printed("git", "status", "--porcelain")
    if changes and not takes_changes:
        raise Refusal(f"the checkout is not as it was committed, --uncommitted takes it so:\n{changes.rstrip()}")
    name, date = printed("git", "log", "-1", "--format=%H %ct").split()
    return Commit(name, int(date), bool(changes))


def built_files(version):
    """The paths of what was built by their names, each looked at."""
    paths = {it.name: path_of(it) for it in BUILT}
    for it in BUILT:
        refuse_stale(it, paths[it.name])
    refuse_other_version(paths["vast_replay"], version)
    refuse_other_version(paths["vast_check"], version)
    refuse_other_calls(paths["vast_replay"])
    refuse_other_functions(paths["libvast.so"])
    return paths


def path_of(built):
    """Where it lies: in the folder that VAST_BUILT names, or where the gate leaves it."""
    folder = os.environ.get("VAST_BUILT") or f"{ROOT}/{built.folder}"
    return f"{folder}/{built.name}"


def refuse_stale(built, path):
    """Refuses what isn't there, and what is older than one of the sources that it was built from."""
    if not os.path.isfile(path):
        raise Refusal(f"{path} isn't there: `rt ci` makes the programs, then `tools/bindings` the libraries")
    source = max(sources_of(built.crate), key=lambda it: os.path.getmtime(f"{ROOT}/{it}"))
    if os.path.getmtime(path) < os.path.getmtime(f"{ROOT}/{source}"):
        raise Refusal(f"{path} is older than {source}: run `rt ci`, then `tools/bindings`")


def sources_of(crate):
    """The sources of a crate and of those that it stands on."""
    with open(f"{ROOT}/crates.txt", encoding="utf-8") as file:
        below = re.search(rf"^{crate}\b[^:]*:(.*)$", file.read(), re.M).group(1).split()
    return [path for name in [crate, *below] for path in tracked(f"crates/{name}", r"(src|specs|proofs)/.*")]


def refuse_other_version(program, version):
    """Refuses a program that doesn't say this version."""
    if f" {version}" not in printed(program, "--version"):
        raise Refusal(f"{program} is not of version {version}")


def refuse_other_calls(program):
    """Refuses a program whose table of calls isn't the one that the bindings here are written from."""
    with open(f"{ROOT}/bindings/calls.json", encoding="utf-8") as file:
        if printed(program, "--calls", "--json") != file.read():
            raise Refusal(f"{program} has other calls than bindings/calls.json: it is of another commit")


def refuse_other_functions(library):
    """Refuses a shared library without its name, without a function of the headers, or on more than the C library."""
    dynamic = printed("readelf", "-d", library)
    if f"[{SONAME}]" not in dynamic:
        raise Refusal(f"{library} is not named {SONAME}: `tools/bindings` makes one that is")
    if set(re.findall(r"\(NEEDED\).*\[(.*)\]", dynamic)) - {"libc.so.6"}:
        raise Refusal(f"{library} wants more than the C library")
    has = {line.split()[-1] for line in printed("nm", "-D", "--defined-only", library).splitlines()}
    missing = sorted(set(functions()) - has)
    if missing:
        raise Refusal(f"{library} has no {', '.join(missing)}: it is of another commit")


def functions():
    """The functions that the headers for C declare and don't define."""
    for path in tracked("bindings/c", r"vast\w*\.h"):
        with open(f"{ROOT}/{path}", encoding="utf-8") as file:
            yield from re.findall(r"^(?!static\b)\w[\w *]*\b(vast_\w+)\([^;{]*\);", file.read(), re.M)


def tracked(folder, names):
    """The files of the repository below a folder whose names from there are of this form, in their order."""
    listed = printed("git", "ls-files", "--cached", "--others", "--exclude-standard", "--", folder or ".")
    paths = [path for path in listed.splitlines() if re.fullmatch(names, os.path.relpath(path, folder or "."))]
    return sorted(path for path in paths if os.path.isfile(f"{ROOT}/{path}"))


def printed(*command):
    """What a command prints, run at the top of the repository."""
    try:
        return subprocess.run(command, cwd=ROOT, stdout=subprocess.PIPE, check=True, encoding="utf-8").stdout
    except (OSError, subprocess.CalledProcessError) as fault:
        raise Refusal(f"{' '.join(command)}: {fault}") from fault
