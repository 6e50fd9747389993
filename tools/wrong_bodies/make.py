"""The edit of a crate in which public functions return at once, and all that they have no need of is left out.

A list names files, and under each, what becomes of its functions:

    src/session.rt
    new stays                       its body stands, with what `turn` says
    line: Ok(LineResult::Nothing)   its body is this alone
    without mod told;               the line's item is left out: a module, an `impl` or a type
    turn OLD becomes NEW               a text of the file

All other functions are left out, and from imports what is.
"""
import re

from rust import BLOCK, end_of, functions, sources

LEFT_OUT = "#[cfg(test)] "
IMPORT = re.compile(r"^((?:pub(?:\([a-z]+\))? )?use )([\w:]+?)(?:::\{([^}]*)\})?;$", re.M)


class Wishes:
    """What the list says of one file."""

    def __init__(self):
        self.bodies, self.stays, self.without, self.turns = {}, set(), [], []

    def take(self, line):
        words = line.split(" ")
        if words[0] == "without":
            self.without.append(line.partition(" ")[2])
        elif words[0] == "turn":
            self.turns.append(tuple(line.partition(" ")[2].split(" becomes ", 1)))
        elif words[1:] == ["stays"]:
            self.stays.add(words[0])
        else:
            name, _, body = line.partition(": ")
            self.bodies[name] = body


def wishes_of(listed):
    found, now = {}, None
    for line in listed.splitlines():
        if line.startswith("src/"):
            now = found.setdefault(line, Wishes())
        elif line and not line.startswith("#"):
            now.take(line)
    return found


def module_of(file):
    """The path of a file's module, `session::told` of `src/session/told.rt`."""
    path = file[len("src/"):-len(".rt")].replace("/", "::")
    return "" if path in ("lib", "main") else path


def below(module, name):
    return f"{module}::{name}" if module else name


class File:
    """A file, and the pairs that make it so."""

    def __init__(self, file, text, wishes):
        self.file, self.text, self.lines, self.wishes = file, text, text.split("\n"), wishes
        self.module, self.pairs, self.gone = module_of(file), [], set()

    def is_once(self, text):
        return self.text.count(text) == 1

    def leave_out(self, line):
        self.pairs.append((line, LEFT_OUT + line))

    def left_blocks(self):
        """The `impl` blocks without a function that stays or gets a body, by their lines; those of traits stay."""
        wanted = self.wishes.stays | {*self.wishes.bodies}
        for at, line in enumerate(self.lines):
            if BLOCK.match(line) and line.endswith("{") and self.is_once(line):
                names = {it.name for it in self.found if it.block == line}
                is_said = any(line.startswith(it) for it in self.wishes.without)
                # Text of antt that is skipped must end where Rust ends it: not so with a quote in it.
                is_plain = 'codes "' not in "\n".join(self.lines[at:end_of(self.lines, at, "")])
                if is_said or names and " for " not in line and not names & wanted and is_plain:
                    yield line

    def make(self):
        self.found = [*functions(self.text)]
        blocks = {*self.left_blocks()}
        for line in self.lines:
            said = next((it for it in self.wishes.without if line.startswith(it)), None)
            if line in blocks or said:
                self.leave_out(line)
                name = re.search(r"(?:struct|enum|trait|mod) (\w+)", line)
                self.gone |= {name[1]} if name else set()
        for it in self.found:
            if it.block in blocks or it.name in self.wishes.stays:
                continue
            if it.name in self.wishes.bodies:
                self.give_body(it, self.wishes.bodies[it.name])
            elif " for " not in it.block:
                self.leave_function(it)
        self.pairs += self.wishes.turns

    def leave_function(self, it):
        line = self.lines[it.first].strip()
        short = next((text for text in (re.match(r".*?fn \w+.", line)[0], line) if self.is_once(text)), None)
        if not short:
            raise SystemExit(f"{self.file}: {it.name} has no line of its own: say that it stays")
        self.leave_out(short)
        if not it.indent:
            self.gone.add(it.name)

    def give_body(self, it, body):
        """The body stands before the first line that can be told, and the rest becomes a comment."""
        inside = [at for at in range(it.body + 1, it.end) if self.lines[at].strip() and "//" not in self.lines[at]]
        first, last = (self.lines[it].strip() for it in (inside[0], inside[-1]))
        if first == last and self.is_once(first):
            self.pairs.append((first, body))
            return
        if self.is_once(first):
            self.pairs.append((first, f"{body} /* {first}"))
        else:
            clause = next((it for it in self.clauses(it) if self.is_once(it)), None)
            if not clause:
                raise SystemExit(f"{self.file}: {it.name} has no line of its own after what it ensures")
            self.pairs.append((clause, f"{clause} {{ {body} /*"))
        self.end_comment(it, last)

    def clauses(self, it):
        """The last lines of its clauses, from the last on, so far as one that ensures something stands before."""
        for at in range(it.body - 1, it.first, -1):
            behind = self.lines[at + 1].strip()
            is_ensured = any("ensures" in line for line in self.lines[it.first:at + 1])
            if is_ensured and (at + 1 == it.body or behind.startswith(("requires", "ensures"))):
                yield self.lines[at].strip()

    def end_comment(self, it, last):
        """In the body's last line, or before what stands after the function."""
        if self.is_once(last):
            self.pairs.append((last, f"{last} */"))
            return
        at, braces = it.end + 1, "} "
        while not self.is_once(self.lines[at].strip()) or self.lines[at].strip() in ("", "}"):
            braces += "} " * (self.lines[at] == "}")
            at += 1
        self.pairs.append((self.lines[at].strip(), f"*/ {braces}{self.lines[at].strip()}"))

    def mend_imports(self, gone, modules):
        """Leaves out what is imported of what is left out."""
        for found in IMPORT.finditer(self.text):
            words, path, names = found.groups()
            if names is None:
                path, _, names = path.rpartition("::")
            place = self.place(path)
            names = names.split(", ")
            if any(place == it or place.startswith(f"{it}::") for it in modules):
                self.leave_out(found[0])
                continue
            left = [it for it in names if it not in gone.get(place, ()) and below(place, it) not in modules]
            if not left:
                self.leave_out(found[0])
            elif len(left) < len(names):
                of = left[0] if len(left) == 1 else "{" + ", ".join(left) + "}"
                self.pairs.append((found[0], f"{words}{path}::{of};"))

    def place(self, path):
        """Where an import's path leads within the crate."""
        first, _, rest = path.partition("::")
        if first == "crate":
            return rest
        if first == "super":
            return below("::".join(self.module.split("::")[:-1]), rest)
        return below(self.module, rest if first == "self" else path)


def made_edit(crate, listed):
    wishes = wishes_of(listed)
    files = {str(it.relative_to(crate)): it.read_text() for it in sources(crate)}
    modules = set()
    for file, wish in wishes.items():
        modules |= {below(module_of(file), name[1]) for line in wish.without if (name := re.search(r"mod (\w+);", line))}
    left = {it: text for it, text in files.items() if not any(f"{module_of(it)}::".startswith(f"{m}::") for m in modules)}
    made = [File(it, text, wishes.get(it, Wishes())) for it, text in left.items()]
    for it in made:
        it.make()
    gone = {it.module: it.gone for it in made}
    lines = []
    for it in made:
        it.mend_imports(gone, modules)
        if it.pairs:
            lines.append(f"file: {it.file}")
            lines += [text for old, new in it.pairs for text in (f"old: {old}", f"new: {new}")]
    return "\n".join(lines) + "\n"
