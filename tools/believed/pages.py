"""The pages that tools/believed/run writes: docs/believe/BELIEVED.md and docs/believe/DEFINITIONS.md."""
import os

BELIEVED = """# What must be believed

Written by `tools/believed/run --write`, and the gate fails where it is not true: so no definition comes under a claim
unseen. A claim is the contract of a public function, or of one that a program's `main.rt` calls; it rests on the
definitions that its clauses name, and on those that these name, and so on. What the contract of some public function
rests on stands in a crate's `specs/` itself, and nothing else does; what only private contracts name stands in
`specs/Internal/`, and what proofs alone name in `proofs/`: these two are checked by the prover and need not be read.
The gate fails where a definition stands in the wrong one. Where to begin: `crates/vast_script/specs/Headline.antt`,
which says what to read in which order. [DEFINITIONS](DEFINITIONS.md) has the definitions, file by file, and marks
those that the first claim rests on. Definitions speak of types of the code, as of the seven enums of a step: those
that they name, with those that the fields of these name, must be read too, and have columns of their own. Lines are
counted without comments, blank lines, imports and attributes.

| Claim | Definitions | Lines | Files | Types of `src/` | Their lines |
|---|---|---|---|---|---|
"""

DEFINITIONS = """# Definitions

Written by `tools/believed/run --write` from the comments above the definitions, and the gate fails where it is not
true. Here stands what the contracts of public functions speak of, file by file: all of each crate's `specs/` but its
`Internal/`, whose files are named below each crate's table. [GLOSSARY](GLOSSARY.md) has words
that are no definition. The law over lists of calls, `vast_script::laws::prints_what_was_built`, rests on each definition that
stands upright; on one in italics rests another claim of [BELIEVED](BELIEVED.md); on one in brackets the contract of
some other public function. Those without a comment of their own stand beside their file's.
"""


def counts(reasons):
    """How many definitions there are, their lines, and their files."""
    definitions = [it for it, _ in reasons.values()]
    return len(definitions), sum(it.count() for it in definitions), len({it.path for it in definitions})


def counts_of_types(types):
    """How many types of src/ there are, and their lines."""
    return len(types), sum(it.lines for it in types)


def row(claim, reasons, types):
    """A row of the table of claims."""
    counted = *counts(reasons), *counts_of_types(types)
    return f"| {claim} | " + " | ".join(f"{it:,}" for it in counted) + " |\n"


def believed_page(closures, types):
    """The text of docs/believe/BELIEVED.md, of what each claim rests on."""
    union = {key: it for reasons in closures.values() for key, it in reasons.items()}
    rows = [row(f"`{claim}`", reasons, types[claim]) for claim, reasons in closures.items()]
    return BELIEVED + "".join(rows) + row("all of these", union, set().union(*types.values()))


def marked(definition, headline, claimed):
    if definition.key in headline:
        return f"`{definition.name}`"
    return f"*`{definition.name}`*" if definition.key in claimed else f"(`{definition.name}`)"


def rows_of(module, headline, claimed):
    """The rows of a file's definitions: those without a comment of their own stand by the file's."""
    its = list(module.definitions.values())
    plain = [marked(it, headline, claimed) for it in its if not it.comment]
    rows = [(", ".join(plain), module.comment)] if plain else []
    rows += [(marked(it, headline, claimed), it.comment) for it in its if it.comment]
    name = os.path.basename(module.path)
    for names, comment in rows:
        yield f"| {names} | {comment.replace('|', chr(92) + '|')} | `{name}` |\n"


def definitions_page(modules, headline, claimed):
    """The text of docs/believe/DEFINITIONS.md, of the modules of each crate's specs/."""
    text = DEFINITIONS
    for crate, its in modules.items():
        open_ones = [it for it in its if ".Internal." not in it.name]
        rows = "".join(row for it in open_ones for row in rows_of(it, headline, claimed))
        text += f"\n## `{crate}`\n"
        if rows:
            text += f"\n| Definitions | What they say | File |\n|---|---|---|\n{rows}"
        hidden = [it for it in its if ".Internal." in it.name]
        if hidden:
            files = (f"- `{os.path.basename(it.path)}`: {it.comment}\n" for it in hidden)
            text += "\nIn `specs/Internal/`:\n\n" + "".join(files)
    return text
