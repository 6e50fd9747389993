"""The headers of the C binding: `vast_kinds.h`, the handles, enums and groups; `vast_calls.h`, a function for each call, which
returns a status; `vast_values.h`, the same calls by value; and programs that make each call, `tests/every_call.c` and
`tests/every_value.c`."""
import pathlib
import re

from c_heads import CALLS_HEAD, KINDS_HEAD, VALUES_HEAD
from c_test import every_call, every_value
from c_text import comment, declaration, function, snake
from python_words import CONDITIONS, MEANINGS, NOTES, REFUSALS, SAYS
from table import parts

ROOT = pathlib.Path(__file__).resolve().parent.parent.parent
FOLDER = "bindings/c"
WRITTEN = "Written by tools/bindings_from_calls from the table of calls; not to be edited."
# Names that are words of C.
RENAMED = {"signed": "is_signed", "case": "case_statement"}
# What vast_file.h has.
BY_HAND = ("emit",)
# What Python calls otherwise.
IN_C = {"`None`": "`NULL`", "`True`": "`true`", "`File.": "`vast_"}
INTEGERS = {(-(2**31), 2**31 - 1): "int32_t", (-(2**63), 2**63 - 1): "int64_t", (0, 2**64 - 1): "uint64_t"}
PLAIN = {"text": "vast_string", "truth": "bool"}


def in_c(words):
    """The words of a comment, as C has them."""
    for python, c in IN_C.items():
        words = words.replace(python, c)
    return words


def name_of(parameter):
    """A parameter's name."""
    return RENAMED.get(parameter.name, parameter.name)


def c_type(type):
    """The type of an argument, of a field, or of an item of a list."""
    if type.form == "handle":
        return f"vast_{type.of}"
    if type.form in ("word", "group"):
        return f"vast_{snake(type.of)}"
    if type.form == "integer":
        return INTEGERS[type.least, type.most]
    if type.form == "list" or type.form == "optional" and type.of.form != "text":
        return pointer_to(c_type(type.of))
    return PLAIN[type.of.form if type.form == "optional" else type.form]


def pointer_to(kind):
    """The type of a pointer to what is not changed."""
    return f"{kind}const *" if kind.endswith("*") else f"const {kind} *"


def declared(kind, name):
    """A variable with its type."""
    return f"{kind}{name}" if kind.endswith("*") else f"{kind} {name}"


def item(type):
    """The word of the type in names of functions."""
    if type.form == "handle":
        return type.of
    if type.form in ("word", "group"):
        return snake(type.of)
    if type.form == "integer":
        return "integer" if type.least < 0 else "natural"
    if type.form in ("optional", "list"):
        return f"optional_{item(type.of)}" if type.form == "optional" else f"{item(type.of)}s"
    return type.form


def answer_item(type):
    """The word of an answer in names of functions that read it."""
    return "ports" if type.form == "list" else item(type)


def answer_type(type):
    """The type of an answer."""
    return "vast_ports" if type.form == "list" else c_type(type)


def parameters_of(call, text="vast_string"):
    """The parameters of a call's function: their types with their names. `text` is the type of a text."""
    found = ["vast_file *file"]
    for parameter in call.parameters:
        kind, name = c_type(parameter.type), name_of(parameter)
        found.append(declared(text if kind == "vast_string" else kind, name))
        if parameter.type.form == "list":
            found.append(f"size_t {name}_count")
    return found


def passed(parameter):
    """A parameter as an argument of a function that takes it as it is."""
    name = name_of(parameter)
    return f"{name}, {name}_count" if parameter.type.form == "list" else name


def written(type, value, counted=None, is_pointer=False):
    """The statement that writes an argument of the call."""
    if type.form == "handle":
        return f"vast_call_handle(file, {value}{'->' if is_pointer else '.'}id);"
    if type.form == "word":
        return f"vast_call_variant(file, {c_type(type)}_word({value}), (uint64_t){value});"
    count = f", {counted}" if type.form == "list" else ""
    return f"vast_call_{item(type)}(file, {'*' if is_pointer else ''}{value}{count});"


class CBinding:
    """What is written for C."""

    def __init__(self, table):
        self.table = table
        self.kinds = [kind for kind in table.kinds if kind.kind != "port"]
        self.calls = [call for call in table.calls if call.method not in BY_HAND]
        self.methods = {call.method for call in table.calls}

    def files(self):
        """The texts of the files by their paths."""
        return {
            f"{FOLDER}/vast_kinds.h": self.kinds_file(),
            f"{FOLDER}/vast_calls.h": self.calls_file(),
            f"{FOLDER}/vast_values.h": self.values_file(),
            f"{FOLDER}/tests/every_call.c": every_call(self.table, self.kinds),
            f"{FOLDER}/tests/every_value.c": every_value(self.table, self.kinds),
        }

    # vast_kinds.h

    def kinds_file(self):
        """The handles, the enums and the groups."""
        said = said_of_handles()
        enums = [self.enum(type) for type in self.table.named_types("word")]
        handles = [
            f"{comment(said[kind.rust])}\ntypedef struct {{ vast_handle id; }} vast_{kind.kind};\n"
            for kind in self.kinds
        ]
        groups = [self.group(type) for type in self.table.named_types("group")]
        families = [kind for kind in self.kinds if len(kind.takes) > 1]
        body = enums + handles + groups + [self.family(kind) for kind in families]
        return KINDS_HEAD.format(written=WRITTEN) + "\n".join(body) + "\n#endif\n"

    @staticmethod
    def enum(type):
        """An enum, and the words of its variants."""
        name = f"vast_{snake(type.of)}"
        variants = ", ".join(f"{name.upper()}_{snake(word).upper()}" for word in type.words)
        words = ", ".join(f'"{word}"' for word in type.words)
        return (
            f"{comment(in_c(SAYS[type.of]))}\n{declaration('typedef enum { ', variants, f' }} {name};')}\n\n"
            f"/* The word of a variant in lists of calls; NULL where it is none. */\n"
            f"static inline const char *{name}_word({name} variant)\n{{\n"
            f"{declaration('    static const char *const words[] = {', words, '};')}\n"
            f"    size_t place = (size_t)variant;\n"
            f"    return place < sizeof words / sizeof words[0] ? words[place] : NULL;\n}}\n"
        )

    @staticmethod
    def group(type):
        """A group as a struct."""
        rows = [f"    {declared(c_type(field.type), name_of(field))};" for field in type.fields]
        optional = any(field.type.form == "optional" for field in type.fields)
        says = in_c(SAYS[type.of]) + (" What it has not is NULL." if optional else "")
        fields = "\n".join(rows)
        return f"{comment(says)}\ntypedef struct {{\n{fields}\n}} vast_{snake(type.of)};\n"

    def family(self, kind):
        """What turns the handles that may stand for one of a kind into it."""
        name = f"vast_{kind.kind}"
        functions, overloads, choices = [], [], []
        for each in kind.takes:
            given, converts = [f"vast_{each} given"], self.converts(kind, each)
            rows = ["return given;"] if each == kind.kind else [f"{name} same = {{given.id}};", "return same;"]
            functions.append(function(f"static inline {name} {converts}", given, rows))
            overloads.append(function(f"static inline {name} {name}_of", given, [f"return {converts}(given);"]))
            choices.append(f"vast_{each}: {converts}")
        choice = ", \\\n        ".join(choices)
        return (
            f"/* Handles that stand for {article(kind.kind)}, as one; `{name}_of` takes each of them. */\n"
            + "\n".join(functions)
            + "\n#ifdef __cplusplus\n"
            + "\n".join(overloads)
            + f"#else\n#define {name}_of(given) \\\n    _Generic((given), \\\n        {choice})(given)\n#endif\n"
        )

    @staticmethod
    def converts(kind, each):
        """The name of the function that turns a handle of one kind into one of another."""
        return f"vast_{kind.kind}_itself" if each == kind.kind else f"vast_{each}_{kind.kind}"

    # vast_calls.h

    def calls_file(self):
        """A function for each call."""
        body = self.writers()
        group = None
        for call in self.calls:
            if call.group != group:
                group = call.group
                body.append(f"/* {group[0].upper()}{group[1:]} */\n")
            body.append(self.call(call))
        return CALLS_HEAD.format(written=WRITTEN) + "\n".join(body) + "\n#endif\n"

    def writers(self):
        """The functions that write groups, options and lists."""
        found = {}
        for call in self.table.calls:
            for parameter in call.parameters:
                for part in reversed(list(parts(parameter.type))):
                    if part.form in ("list", "optional", "group"):
                        found.setdefault(item(part), part)
        found.pop("optional_text")
        return [self.writer(type) for type in found.values()]

    @staticmethod
    def writer(type):
        """Such a function."""
        given = ["vast_file *file", declared(c_type(type), "given")]
        if type.form == "optional":
            rows = ["vast_call_option(file, given != NULL);", "if (given != NULL)"]
            rows.append(f"    {written(type.of, 'given', is_pointer=True)}")
        elif type.form == "list":
            given.append("size_t count")
            rows = ["vast_call_items(file, count);", "for (size_t at = 0; at < count; at++)"]
            rows += [f"    {written(type.of, 'given[at]')}", 'vast_call_bracket(file, "]");']
        else:
            rows = [written(field.type, f"given.{name_of(field)}") for field in type.fields]
            rows = ['vast_call_bracket(file, "[");', *rows, 'vast_call_bracket(file, "]");']
        return function(f"static inline void vast_call_{item(type)}", given, rows)

    def says(self, call):
        """What the comment of a call says."""
        said = [(MEANINGS.get(call.method) or call.meaning[0].upper() + call.meaning[1:]) + "."]
        for parameter in call.parameters:
            note = NOTES.get(f"{call.method}.{parameter.name}") or NOTES.get(parameter.name)
            if note:
                said.append(f"`{name_of(parameter)}`: {note}.")
        if call.conditions:
            said.append(f"VAST_CONDITION unless: {', '.join(CONDITIONS[it] for it in call.conditions)}.")
        if call.method in REFUSALS:
            said.append(f"VAST_REFUSED {REFUSALS[call.method]}.")
        return self.in_c("\n".join(said))

    def in_c(self, words):
        """The words of a comment, with the names of calls as C has them."""
        return re.sub(r"`(\w+)`", lambda it: f"`vast_{it[1]}`" if it[1] in self.methods else it[0], in_c(words))

    def call(self, call):
        """The function of a call."""
        answer, given = call.answer, parameters_of(call)
        if answer.form != "nothing":
            given.append(f"{answer_type(answer)} *{'answer' if call.is_question else 'made'}")
        rows = [f'vast_call_begin(file, "{call.call}", {call.number});']
        for parameter in call.parameters:
            name = name_of(parameter)
            rows.append(written(parameter.type, name, f"{name}_count"))
        if call.is_question:
            rows.append(f"return vast_ask_{answer_item(answer)}(file, answer);")
        elif answer.form == "nothing":
            rows.append("return vast_call_make(file, NULL);")
        else:
            rows.append("return vast_call_make(file, made == NULL ? NULL : &made->id);")
        return f"{comment(self.says(call))}\n" + function(f"static inline int32_t vast_{call.method}", given, rows)

    # vast_values.h

    def values_file(self):
        """The calls by value."""
        rows = [self.value(call) for call in self.table.calls]
        return VALUES_HEAD.format(written=WRITTEN) + "\n".join(rows) + "\n#endif\n"

    def value(self, call):
        """A call by value."""
        answer = call.answer
        type = "void" if answer.form == "nothing" else answer_type(answer)
        arguments = ["file"]
        for parameter in call.parameters:
            name = passed(parameter)
            arguments.append(f"vast_str({name})" if c_type(parameter.type) == "vast_string" else name)
        if answer.form != "nothing":
            arguments.append("&answer")
        start = f"        file->fault = vast_{call.method}("
        rows = ["if (file->fault == VAST_OK)", declaration(start, ", ".join(arguments), ");")[4:]]
        if answer.form != "nothing":
            rows = [f"{type} answer = {NOTHING[answer.form]};", *rows, "return answer;"]
        given = parameters_of(call, "const char *")
        said = comment(self.in_c(f"`{call.method}`: {call.meaning}."))
        return f"{said}\n" + function(f"static inline {type} v_{call.method}", given, rows) + self.operands(call)

    def operands(self, call):
        """The macro of a call by value that takes each kind of handles which may stand for another."""
        families = {kind.kind for kind in self.kinds if len(kind.takes) > 1}
        names, given = ["file"], ["file"]
        for parameter in call.parameters:
            name, type = name_of(parameter), parameter.type
            is_taken = type.form == "handle" and type.of in families
            names += [name, f"{name}_count"] if type.form == "list" else [name]
            given.append(f"vast_{type.of}_of({name})" if is_taken else passed(parameter))
        if given == names or not any("_of(" in each for each in given):
            return ""
        start = f"#define v_{call.method}({', '.join(names)}) \\\n"
        return start + declaration(f"    v_{call.method}(", ", ".join(given), ")", " \\") + "\n"


# What an answer is where there is none.
NOTHING = {
    "handle": "{{0, 0}}",
    "text": "{NULL, 0}",
    "optional": "{NULL, 0}",
    "truth": "false",
    "integer": "0",
    "list": "{0, {NULL, 0}}",
}


def article(word):
    """The word with its article."""
    return f"an {word}" if word[0] in "aeiou" else f"a {word}"


def said_of_handles():
    """What the crates say of each type of handles."""
    said = {}
    for path in sorted((ROOT / "crates").rglob("src/**/*.rt")):
        found = re.finditer(
            r"^/// (.*)\n(?:^#\[.*\n)*^pub (?:struct|enum) (\w+)\b", path.read_text(encoding="utf-8"), re.M
        )
        for words, name in (match.groups() for match in found):
            words = words.removeprefix("A handle of ")
            said.setdefault(name, words[0].upper() + words[1:])
    return said
