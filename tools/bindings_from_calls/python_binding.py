"""The methods of the Python binding: `vast/kinds.py`, a class for each kind of handles, and `vast/calls.py`, the calls of a
file."""
import keyword
import re

from python_text import WIDTH, called, doc, wrapped
from python_words import CONDITIONS, MEANINGS, NOTES, REFUSALS, SAYS
from table import Type, parts
from waiting import COMPARED, NAMED, clauses, tests

FOLDER = "bindings/python/vast"
HEAD = '"""{}\n\nWritten by tools/bindings_from_calls from the table of calls; not to be edited."""\n'

# Kinds with methods of their own, the class that each stands on (`words.py`, `operators.py`), and what the names of the calls
# begin with where their first argument is such a handle.
OWNERS = {
    "module": ("ModuleWords", "module_"),
    "function": ("FunctionWords", "function_"),
    "type": ("TypeWords", "type_", "make_"),
    "signal": ("Selectable", "logic_ref_"),
    "expression": ("Operators", "make_"),
    "indexable": ("Expression", "make_"),
    "macro": ("Expression", "make_"),
    "always": ("AlwaysWords",),
    "block": ("BlockWords", "block_"),
    "conditional": ("ConditionalWords", "conditional_"),
    "case": ("CaseWords", "case_"),
    "loop": ("LoopWords", "generate_"),
}
# Of kinds for which others may stand: the name of the class of all of them.
FAMILIES = {"expression": "Expression", "indexable": "Selectable"}
# What makes of an argument of a kind what stands for it, where that isn't plain.
STANDS = {"expression": "_value", "indexable": "_subject", "type": "_type", "scope": "_scope"}
# Calls of files alone, though their first argument is a handle.
NO_METHODS = ("add_registers",)
# What `core.py` has.
BY_HAND = ("emit",)
DEFAULTS = {
    "signed": "False",
    "invert": "False",
    "active_low": "False",
    "semicolon": "True",
    "unique": "True",
    "label": "None",
    "reset_value": "None",
    "enable": "None",
}
# What tells for certain that a clause is met, or that a call is not refused so.
TELLS = {
    **COMPARED,
    "name ≢ []": 'name != ""',
    REFUSALS["make_literal"]: "is_small_literal(text)",
}
INTEGERS = {(-(2**31), 2**31 - 1): "int32", (-(2**63), 2**63 - 1): "int64", (0, 2**64 - 1): "size"}


def class_of(kind):
    """The name of a kind's class."""
    return kind.rust.removeprefix("Vast")


def upper(word):
    """A variant's name as Python writes constants."""
    return "".join("_" + c if c.isupper() and i else c for i, c in enumerate(word)).upper()


class PythonBinding:
    """What is written for Python."""

    def __init__(self, table):
        self.table = table
        self.kinds = {kind.kind: kind for kind in table.kinds}

    def files(self):
        """The texts of the files by their paths."""
        return {f"{FOLDER}/kinds.py": self.kinds_file(), f"{FOLDER}/calls.py": self.calls_file()}

    # Types, and how an argument is written into a line

    def hint(self, type):
        """The type of an argument or an answer, for readers and checkers of types."""
        if type.form == "handle":
            if type.of in FAMILIES:
                return {"expression": "Operand"}.get(type.of, FAMILIES[type.of])
            return {"type": "TypeLike", "scope": "RegisterScope"}.get(
                type.of, class_of(self.kinds[type.of])
            )
        if type.form == "list":
            return f"Sequence[{self.hint(type.of)}]"
        if type.form == "optional":
            return f"Optional[{self.hint(type.of)}]"
        plain = {"text": "str", "truth": "bool", "integer": "int", "nothing": "None"}
        return plain.get(type.form, type.of)

    def answer_hint(self, type):
        """The type of an answer."""
        if type.form == "handle":
            return class_of(self.kinds[type.of])
        return self.hint(type).replace("Sequence", "List")

    def looked_at(self, type, name):
        """The statement that makes of a handle's argument, where it isn't plainly one of the file and of its kind, what stands
        for it; nothing for other arguments."""
        if type.form != "handle":
            return []
        plain = f"isinstance({name}, {self.classes(type.of)}) and {name}.file is self"
        stands = f"self.{STANDS[type.of]}({name})" if type.of in STANDS else f"self._own({name}, {self.classes(type.of)})"
        return [f"if not ({plain}):", f"    {name} = {stands}"]

    def written(self, type, name):
        """The Python expression of what a line has for this argument."""
        if type.form == "list":
            return f"listed({self.writer(type.of)}, {name})"
        if type.form == "optional":
            return f"optional({self.writer(type.of)}, {name})"
        if type.form == "handle":
            return f"{name}.step"
        if type.form == "word":
            return f"word({type.of}, {name})"
        return f"{self.writer(type)}({name})"

    def writer(self, type):
        """The function that writes such an argument within a list, an optional or a group."""
        if type.form == "handle" and type.of != "expression":
            return f"lambda given: self._own(given, {self.classes(type.of)}).step"
        if type.form == "handle":
            return "self._value_step"
        if type.form == "integer":
            return INTEGERS[type.least, type.most]
        if type.form == "group":
            return f"self._{type.of.lower()}"
        if type.form in ("list", "optional"):
            return f"lambda given: {self.written(type, 'given')}"
        return {"text": "quoted", "truth": "truth"}[type.form]

    def classes(self, kind):
        """The class of a kind, or that or those of what may stand for it."""
        if kind in FAMILIES:
            return FAMILIES[kind]
        names = [class_of(self.kinds[each]) for each in self.kinds[kind].takes]
        return names[0] if len(names) == 1 else f"({', '.join(names)})"

    # kinds.py

    def kinds_file(self):
        """The kinds, the enums and the groups."""
        enums = [self.enum(type) for type in self.table.named_types("word")]
        families = [self.family(kind) for kind in FAMILIES]
        kinds = [self.kind_class(kind) for kind in self.table.kinds if kind.kind not in ("scope", "port")]
        groups = [self.group(type) for type in self.table.named_types("group")]
        scope = ", ".join(class_of(self.kinds[each]) for each in self.kinds["scope"].takes)
        words = sorted({words[0] for words in OWNERS.values() if words[0].endswith("Words")})
        return "\n".join(
            [
                HEAD.format("The kinds of handles, and the enums and groups of calls."),
                "from __future__ import annotations\n",
                "import enum",
                "from typing import List, NamedTuple, Optional, Sequence, Union\n",
                "from .handle import Handle",
                "from .operators import Operators",
                "from .words import (",
            ]
            + [f"    {word}," for word in words]
            + [")\n"]
            + enums
            + families
            + kinds
            + [
                "\n# What may be given for an expression, and for a type; an `int` is a literal, or a number of bits.",
                "Operand = Union[Expression, int]",
                "TypeLike = Union[DataType, int]",
                f"RegisterScope = Union[{scope}]\n",
            ]
            + groups
        )

    def enum(self, type):
        """An enum, whose values are the words of lists."""
        words = [f'    {upper(word)} = "{word}"' for word in type.words]
        return "\n".join(
            [f"\nclass {type.of}(enum.Enum):", doc(SAYS[type.of], "    "), ""] + words + [""]
        )

    def family(self, kind):
        """The class of all kinds that may stand for one."""
        names = [class_of(self.kinds[each]) for each in self.kinds[kind].takes]
        says = f"What may stand as `{class_of(self.kinds[kind])}`: {', '.join(names)}."
        return self.class_text(FAMILIES[kind], OWNERS[kind][0], says, kind)

    def kind_class(self, kind):
        """The class of a kind."""
        base = self.base(kind.kind)
        own = kind.kind if kind.kind in OWNERS and kind.kind not in FAMILIES else None
        return self.class_text(class_of(kind), base, f"A handle of the kind `{kind.kind}`.", own)

    def base(self, kind):
        """The class that a kind's stands on."""
        if kind in self.kinds["indexable"].takes:
            return FAMILIES["indexable"]
        if kind in self.kinds["expression"].takes:
            return FAMILIES["expression"]
        return OWNERS.get(kind, ("Handle",))[0]

    def class_text(self, name, base, says, owner):
        """A class with the methods of an owner."""
        methods = [self.method(call) for call in self.table.calls if self.is_method(call, owner)]
        return "\n".join(
            [f"\nclass {name}({base}):", doc(says, "    "), "\n    __slots__ = ()\n"] + methods
        )

    @staticmethod
    def is_method(call, owner):
        """Whether the call is a method of its owner too."""
        return owner is not None and call.owner == owner and call.method not in NO_METHODS

    def method(self, call):
        """A call as a method of its first argument."""
        name = call.method
        for prefix in OWNERS[call.owner][1:]:
            name = name.removeprefix(prefix)
        if keyword.iskeyword(name):
            name += "_"
        passed = "".join(f", {parameter.name}" for parameter in call.parameters[1:])
        return "\n".join(
            [
                self.signature(name, call.parameters[1:], call.answer),
                doc(f"`File.{call.method}`: {call.meaning}.", "        "),
                f"        return self.file.{call.method}(self{passed})\n",
            ]
        )

    def group(self, type):
        """A group as a named tuple."""
        field_text = self.parameter if self.is_argument(type) else self.plain_parameter
        fields = [f"    {field_text(field)}" for field in type.fields]
        return "\n".join(
            [f"\nclass {type.of}(NamedTuple):", doc(SAYS[type.of], "    "), ""] + fields + [""]
        )

    # calls.py

    def calls_file(self):
        """The calls of a file."""
        groups = [type for type in self.table.named_types("group") if self.is_argument(type)]
        body = [self.group_writer(type) for type in groups]
        body += [self.call(call) for call in self.table.calls if call.method not in BY_HAND]
        return "\n".join(
            [
                HEAD.format("The calls of a file."),
                "from __future__ import annotations\n",
                "from typing import List, Optional, Sequence\n",
                "from .core import Core",
                "from .kinds import (",
            ]
            + [f"    {name}," for name in self.imported("\n".join(body))]
            + [
                ")",
                "from .writing import int32, int64, is_small_literal, listed, optional, quoted",
                "from .writing import read_number, read_optional, read_ports, read_truth, size, truth, word\n\n",
                "class Calls(Core):",
                '    """Each call of the table, by its name in snake case."""\n',
            ]
            + body
        )

    def is_argument(self, type):
        """Whether some call takes it."""
        return any(
            type.of == part.of
            for call in self.table.calls
            for parameter in call.parameters
            for part in parts(parameter.type)
        )

    def imported(self, body):
        """The names of `kinds.py` that the calls use."""
        names = [class_of(kind) for kind in self.table.kinds if kind.kind != "port"]
        names += ["Operand", "TypeLike", *FAMILIES.values()]
        names += [type.of for form in ("word", "group") for type in self.table.named_types(form)]
        return sorted(name for name in set(names) if re.search(rf"\b{name}\b", body))

    def group_writer(self, type):
        """The method that writes such a group."""
        fields = " ".join("{" + self.field(field.type, f"given.{field.name}") + "}" for field in type.fields)
        return (
            f"    def _{type.of.lower()}(self, given: {type.of}) -> str:\n"
            + wrapped("        return ", f'f"[ {fields} ]"')
            + "\n"
        )

    def field(self, type, name):
        """The Python expression of what a line has for a field."""
        return f"{self.writer(type)}({name})" if type.form == "handle" else self.written(type, name)

    def plain_parameter(self, parameter):
        """A parameter with its type."""
        return f"{parameter.name}: {self.hint(parameter.type)}"

    def parameter(self, parameter):
        """A parameter with its type, and with its default if it has one."""
        default = DEFAULTS.get(parameter.name)
        return self.plain_parameter(parameter) + (f" = {default}" if default else "")

    def signature(self, name, parameters, answer):
        """The first line, or lines, of a method."""
        given = ", ".join(["self"] + [self.parameter(parameter) for parameter in parameters])
        line = f"    def {name}({given}) -> {self.answer_hint(answer)}:"
        if len(line) <= WIDTH:
            return line
        rows = "".join(f"        {self.parameter(parameter)},\n" for parameter in parameters)
        return f"    def {name}(\n        self,\n{rows}    ) -> {self.answer_hint(answer)}:"

    def call(self, call):
        """A call as a method of the file."""
        return "\n".join(
            [
                self.signature(call.method, call.parameters, call.answer),
                doc(self.says(call), "        "),
                self.body(call),
                "",
            ]
        )

    def says(self, call):
        """What the doc comment of a call says."""
        meaning = MEANINGS.get(call.method) or call.meaning[0].upper() + call.meaning[1:]
        said = [meaning + "."]
        for parameter in call.parameters:
            note = NOTES.get(f"{call.method}.{parameter.name}") or NOTES.get(parameter.name)
            if note:
                said.append(f"`{parameter.name}`: {note}.")
        if call.conditions:
            conditions = ", ".join(CONDITIONS[it] for it in call.conditions)
            said.append(f"Raises `Condition` unless: {conditions}.")
        if call.method in REFUSALS:
            said.append(f"Raises `Refused` {REFUSALS[call.method]}.")
        return "\n".join(said)

    def body(self, call):
        """The statements that look at the handles, and that which writes the line."""
        looks = [self.looked_at(parameter.type, parameter.name) for parameter in call.parameters]
        rows = [f"        {row}" for look in looks for row in look]
        return "\n".join([*rows, self.made(call)])

    def made(self, call):
        """The statement that writes the line, or the two where the call enters a name."""
        given = [self.written(parameter.type, parameter.name) for parameter in call.parameters]
        written = "".join(" {" + each + "}" for each in given)
        line = f'f"{call.call}{written}"' if written else f'"{call.call}"'
        if call.is_question:
            ask = f"self._ask({line})"
            return wrapped("        return ", READERS[reader_key(call.answer)].format(ask))
        if call.answer.form == "nothing":
            return called("        ", "self._now" if call.may_fault else "self._later", line)
        kind = class_of(self.kinds[call.answer.of])
        if call.may_fault and all(clause in NAMED for clause in clauses(call)):
            owner, name, rest = given
            entry = f'        entry = f"{{{owner}}} {{{name}}}"'
            return f'{entry}\n        return self._named("{call.call}", entry, {rest}, {kind})'
        told = tests(call, TELLS)
        if told is None:
            return called("        return ", "self._now", line, kind)
        if told:
            return called("        return ", "self._if", line, kind, " and ".join(told))
        return called("        return ", "self._later", line, kind)


# How an answer's text is read.
READERS = {
    ("text",): "{}",
    ("truth",): "read_truth({})",
    ("integer",): "read_number({})",
    ("optional", "text"): "read_optional({})",
    ("list", "group"): "read_ports({})",
}


def reader_key(type):
    """The forms of an answer."""
    return (type.form, type.of.form) if isinstance(type.of, Type) else (type.form,)
