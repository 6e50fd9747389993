"""The table of calls, with what docs/use/CALLS.md says of each."""
import json
import re
from dataclasses import dataclass


@dataclass(frozen=True)
class Type:
    """What an argument is, or an answer. `form` is the word of the table, `of` what it says more."""

    form: str  # handle, text, truth, integer, word, list, optional, group, nothing
    of: object = None  # a kind's word; the name of an enum or struct; the `Type` of items
    words: tuple = ()  # of a word
    least: int = 0  # of an integer
    most: int = 0
    fields: tuple = ()  # of a group: `Parameter`s

    @property
    def key(self):
        """The form, and of handles the kind too."""
        return (self.form, self.of) if self.form == "handle" else (self.form,)


@dataclass(frozen=True)
class Parameter:
    """A parameter, or a field of a group."""

    name: str
    type: Type


@dataclass(frozen=True)
class Call:
    """One call."""

    call: str  # as lists write it, its sign included
    number: int  # in packed lists
    group: str
    method: str  # the name of the method in Rust
    parameters: tuple
    answer: Type
    meaning: str  # what docs/use/CALLS.md says of it
    conditions: tuple  # the clauses that it asks, but for the ownership of handles
    is_refused: bool  # whether it may be refused by name

    @property
    def is_question(self):
        """Whether it only asks."""
        return self.call.startswith("?")

    @property
    def may_fault(self):
        """Whether it may be at fault though its handles are the file's and of their kinds."""
        return self.is_refused or bool(self.conditions)

    @property
    def owner(self):
        """The kind of its first parameter, if that is a handle."""
        first = self.parameters[0].type if self.parameters else Type("nothing")
        return first.of if first.form == "handle" else None


@dataclass(frozen=True)
class Kind:
    """A kind of handles."""

    kind: str
    rust: str  # the type's name in Rust
    takes: tuple  # the kinds whose handles may stand for one of this


@dataclass(frozen=True)
class Table:
    """All kinds and all calls, in order."""

    kinds: tuple
    calls: tuple

    def named_types(self, form):
        """The types of this form that have a name, each once, sorted by it."""
        found = {}
        for call in self.calls:
            for type in [parameter.type for parameter in call.parameters] + [call.answer]:
                for part in parts(type):
                    if part.form == form:
                        found[part.of] = part
        return [found[name] for name in sorted(found)]


def parts(type):
    """The type and all within it."""
    yield type
    if isinstance(type.of, Type):
        yield from parts(type.of)
    for field in type.fields:
        yield from parts(field.type)


def read_type(given):
    """A type of the table."""
    form = given["form"]
    if form in ("list", "optional"):
        return Type(form, read_type(given["of"]))
    if form == "integer":
        return Type(form, least=given["min"], most=given["max"])
    if form == "word":
        return Type(form, given["of"], words=tuple(given["words"]))
    if form == "group":
        return Type(form, given["of"], fields=read_parameters(given["fields"]))
    return Type(form, given.get("of"))


def read_parameters(given):
    """Parameters, or fields."""
    return tuple(Parameter(each["name"], read_type(each["type"])) for each in given)


def read_table(source, page):
    """The table of this JSON, with the words of the page."""
    given = json.loads(source)
    said = read_page(page)
    calls = []
    for each in given["calls"]:
        method = each["method"]
        name = NAMES.get(method, method)
        if name not in said:
            raise SystemExit(f"docs/use/CALLS.md: no line for {name}")
        meaning, conditions, is_refused = said[name]
        calls.append(
            Call(
                each["call"],
                each["number"],
                each["group"],
                method,
                read_parameters(each["parameters"]),
                read_type(each["answer"]),
                meaning,
                conditions,
                is_refused,
            )
        )
    kinds = (Kind(each["kind"], each["rust"], tuple(each["takes"])) for each in given["kinds"])
    return Table(tuple(kinds), tuple(calls))


# Calls whose name in Rust is another.
NAMES = {"file_is_plain": "is_plain"}
NEVER = "Never refused by name"
LINE = re.compile(r"^- `(?:helpers::)?(\w+)\(.*?\)(?: -> ([^`]+))?`: (.*?)(?: \[((?:`[^`]*`|[^`\[\]])*)\])?$")
SENTENCES = re.compile(r"(?<=[^.])\. (?=[A-Z`])")


def read_page(page):
    """For each call by its name in Rust its meaning, its conditions, and whether it may be refused."""
    said = {}
    for line in page.splitlines():
        if found := LINE.match(line):
            name, answer, words, clauses = found.groups()
            meaning, *refusals = SENTENCES.split(words)
            conditions = tuple(re.findall(r"`([^`]*)`", clauses or ""))
            said[name] = (meaning, conditions, (answer or "").startswith("V ") and NEVER not in refusals)
    return said
