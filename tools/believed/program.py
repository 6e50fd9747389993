"""The functions of a crate's src/, with the words of their clauses."""
import os
import re

from theory import RESERVED, bound_in, without_strings, words_in

USE = re.compile(r"(?m)^[ \t]*ghost\s+use\s+([\w.\-]+?)(?:\.\{([^}]*)\}|\s+as\s+([\w\-]+))?\s*;")
ITEM = re.compile(
    r"(?P<fn>(?P<public>pub(?:\([^)]*\))?\s+)?(?:const\s+|extern\s+\"[^\"]*\"\s+)?fn\s+(?P<name>\w+))"
    r"|(?P<impl>\bimpl\b(?:<[^{]*?>)?\s+(?P<head>[^{;]+?)\s*\{)"
    r"|(?P<trait>trait\s+(?P<trait_name>\w+)[^{;]*\{)"
    r"|(?P<open>\{)|(?P<close>\})"
)
CLAUSE = re.compile(r"\s*(requires|ensures|ghost)(\*?)(\s+([\w\-]+))?\s*:?\s*\{")
SIGNATURE_END = re.compile(r"\b(requires|ensures|ghost)\b")


def files_below(base):
    for at, folders, files in os.walk(base):
        folders[:] = sorted(it for it in folders if it != "out")
        yield from (f"{at}/{name}" for name in sorted(files) if name.endswith(".rt"))


def without_comments(text):
    """The text with blanks for its comments and for what its strings and characters hold."""
    part = re.compile(r"//[^\n]*|\"(?:[^\"\\]|\\.)*\"|'(?:[^'\\\n]|\\.|\\u\{[^}]*\})'", re.S)
    return part.sub(lambda found: re.sub(r"[^\n\"']", " ", found[0]), text)


def matching(text, start):
    """Where the brace that opens at a place closes."""
    depth = 0
    for i in range(start, len(text)):
        depth += {"{": 1, "}": -1}.get(text[i], 0)
        if depth == 0:
            return i
    return len(text)


class Function:
    """A function, with its path below the crate, its line, its signature and its clauses."""

    def __init__(self, source, path, is_public, line):
        self.source, self.path, self.is_public, self.line = source, path, is_public, line
        self.signature, self.clauses, self.named, self.body = "", [], [], ""

    def words(self):
        parameters = set(re.findall(r"(\w+)\s*:", self.signature)) | {"self", "result"}
        for text in map(without_strings, self.clauses):
            bound = bound_in(text) | parameters
            yield from (
                it for it in words_in(text) if it not in RESERVED and it not in bound and it.split(".")[0] not in bound
            )


class Source:
    """A file of src/: what its `ghost use` lines name, and its functions."""

    def __init__(self, crate, base, path):
        self.crate, self.file = crate, path
        with open(path, encoding="utf-8") as it:
            self.text = without_comments(it.read())
        self.imports, self.aliases = {}, {}
        for found in USE.finditer(self.text):
            if found[2] is None:
                self.aliases[found[3] or found[1].split(".")[-1]] = found[1]
                continue
            for parts in filter(None, (it.split() for it in found[2].split(","))):
                self.imports[parts[-1]] = found[1], parts[0]
        parts = os.path.relpath(path, base).removesuffix(".rt").split("/")
        self.module = [] if parts in (["lib"], ["main"]) else parts
        self.is_root_of_program = parts == ["main"]
        self.functions = list(self.read())

    def read(self):
        owners, depth, i = [], 0, 0
        while found := ITEM.search(self.text, i):
            i = found.end()
            if found["fn"]:
                function = self.function(found, owners[-1][1] if owners else None)
                i = self.read_clauses(function, i)
                function.body = self.text[i : matching(self.text, i)]
                yield function
            elif found["close"]:
                depth -= 1
                while owners and owners[-1][0] > depth:
                    owners.pop()
            else:
                depth += 1
                if found["impl"]:
                    target = re.match(r"[\w:]+", re.split(r"\s+for\s+", found["head"].strip())[-1])
                    owners.append((depth, target[0].split("::")[-1] if target else found["head"]))
                elif found["trait"]:
                    owners.append((depth, found["trait_name"]))

    def function(self, found, owner):
        path = [*self.module, *([owner] if owner else []), found["name"]]
        return Function(self, path, (found["public"] or "").strip() == "pub", self.text[: found.start()].count("\n") + 1)

    def read_clauses(self, function, start):
        """Reads a signature up to its first clause, body or semicolon, and the clauses; returns where they end."""
        depth, i = 0, start
        while i < len(self.text):
            c = self.text[i]
            if depth == 0 and (c in "{;" or SIGNATURE_END.match(self.text, i)):
                break
            depth += {"(": 1, "[": 1, ")": -1, "]": -1}.get(c, 0)
            i += 1
        function.signature = self.text[start:i]
        while clause := CLAUSE.match(self.text, i):
            end = matching(self.text, clause.end() - 1)
            function.clauses.append(self.text[clause.end() : end])
            function.named.append((clause[1], clause[4], self.text[clause.end() : end]))
            i = end + 1
        return i
