"""Files of Rust as lines: which functions stand there, where they begin and end, and who can call them."""
import re
from collections import namedtuple
from pathlib import Path

FUNCTION = re.compile(r"( *)((?:pub(?:\([a-z]+\))? )?(?:const )?(?:unsafe )?)fn (\w+)(.)")
BLOCK = re.compile(r"(?:pub(?:\([a-z]+\))? )?(?:unsafe )?(impl|trait)\b")

# A function's name, the block that it stands in, its words before `fn`, and its lines: that of its name, that of the
# brace before its body, and that after its body.
Function = namedtuple("Function", "name block words indent first body end")


def sources(crate):
    """The paths of the crate's files below it, but those of tests."""
    return sorted(it for it in Path(crate).glob("src/**/*.rt") if "tests" not in str(it.relative_to(crate)))


def end_of(lines, first, indent):
    """The line of the brace that ends what begins here."""
    last = first
    while lines[last] != indent + "}":
        last += 1
    return last


def is_body(lines, at, indent):
    """Whether the function's body begins at the end of this line: alone, or after the parameters where no contract stands."""
    line = lines[at].rstrip()
    return line == indent + "{" or line.endswith("{") and not line.lstrip().startswith(("requires", "ensures"))


def functions(text):
    """The functions of a file in order, without those of its tests."""
    lines, at, block = text.split("\n"), 0, ""
    while at < len(lines):
        if lines[at] == "#[cfg(test)]":
            at = end_of(lines, at, "") if lines[at + 1].endswith("{") else at + 2
        if BLOCK.match(lines[at]):
            block = lines[at]
        found = FUNCTION.match(lines[at])
        if found:
            indent, words, name, _ = found.groups()
            body = at
            while not is_body(lines, body, indent) and not lines[body].endswith(("{}", ";")):
                body += 1
            if lines[body].endswith(";"):
                at = body + 1
                continue
            end = body if lines[body].endswith("{}") else end_of(lines, body, indent)
            yield Function(name, block if indent else "", words, indent, at, body, end)
            at = end
        at += 1


def shown(crate, module="lib"):
    """The words that a library makes public: what its root hands on, its public modules, and what these hand on."""
    path = Path(crate) / f"src/{module}.rt"
    root = path.read_text() if path.exists() else ""
    modules = re.findall(r"^pub mod (\w+);", root, re.M)
    words = {word for it in re.findall(r"^pub use ([^;]*);", root, re.M) for word in re.findall(r"\w+", it)}
    return words.union([module], modules, *(shown(crate, it) for it in modules))


def type_of(block):
    """The type whose functions stand in an `impl` block, by the block's line."""
    head = block.split(" for ", 1)[-1]
    return re.findall(r"\w+", head.split(">", 1)[-1] if head.startswith("impl<") else head.removeprefix("impl"))[0]


def is_public(function, module, words):
    """Whether other crates can call it: itself or its type is handed on under one of these words, or its module is public."""
    owner = re.findall(r"\w+", function.block.split(">", 1)[-1] if function.block.startswith("impl<") else function.block[4:])
    named = owner[:1] if function.block else [function.name]
    return function.words.startswith("pub ") and (named[0] in words or module in words)


def has_contract(lines, function):
    return any("ensures" in it for it in lines[function.first:function.body])
