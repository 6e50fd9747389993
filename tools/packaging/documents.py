"""What a release says of itself, in the words of the repository's documents."""
import hashlib
import re

from built import ROOT, Refusal, printed

LAWS = ("prints_what_was_built", "reads_back_what_was_built")
VERIFIED = """\
vast {version} for linux-x86_64, glibc {glibc} or later

commit  {commit}{changed}
kit     {kit}

The gate of this commit (`.ci/run`) proves, by that kit of the toolchain Rattle, each function of which the programs in
`bin/` and the library `lib/libvast.a` are built, and fails where one isn't; these are what it left, as far as their age,
their version, their calls and their functions tell. `rust/xlsynth-vast/libvast.a` is the same library, and the shared
one, in `lib/` and in the wheel, is linked from it by the C compiler.

What is proved stands below in the words of the repository's `README.md` and `docs/believe/PROOFS.md`. Tested and not
proved are the crate for Rust and the package for Python, which hand each call to the library, and the rest of this
release; the compilers and the linker are trusted.

## The main statement

{statement}

## What "verified" means

{meaning}

## The sums of all files (SHA-256)

    grep -E '^[0-9a-f]{{64}}  ' VERIFIED | sha256sum --check --quiet

{sums}
"""


def quick_starts():
    """How each language begins, as README.md says it."""
    return section("README.md", "From a release")


def readme_blocks():
    """The commands of that section, a text for each block of indented lines."""
    blocks = re.findall(r"(?:^    .*\n|^\n(?=    ))+", f"{quick_starts()}\n", re.M)
    return [re.sub(r"^    ", "", block.strip("\n") + "\n", flags=re.M) for block in blocks]


def section(path, title):
    """What stands below a heading of a document."""
    with open(f"{ROOT}/{path}", encoding="utf-8") as file:
        found = re.search(rf"^## {re.escape(title)}\n(.*?)(?=^## |\Z)", file.read(), re.M | re.S)
    if not found:
        raise Refusal(f"{path} has no section {title}")
    return found.group(1).strip("\n")


def verified(commit, version, glibc, files):
    """What the release is made from, what is proved of it, and the sum of each of its files."""
    statement = section("docs/believe/PROOFS.md", "The main statement")
    missing = [law for law in LAWS if law not in statement]
    if missing:
        raise Refusal(f"docs/believe/PROOFS.md doesn't name {' and '.join(missing)} in its main statement")
    return VERIFIED.format(
        version=version,
        glibc=glibc,
        commit=commit.name,
        changed=" with changes that are not committed" if commit.is_changed else "",
        kit=printed("rt", "version").strip(),
        statement=statement,
        meaning=section("README.md", 'What "verified" means'),
        sums=sums(files),
    )


def sums(files):
    """The sums of files that are no links, in the form of sha256sum."""
    rows = [(hashlib.sha256(it.content).hexdigest(), path) for path, it in sorted(files.items()) if not it.target]
    return "\n".join(f"{sum}  {path}" for sum, path in rows)
