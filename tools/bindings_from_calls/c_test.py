"""Programs that make each call of the C binding, packed and as a line, and compare what it writes with what lists have."""
import json

from c_text import WIDTH, declaration
from packed import packed

# So many calls are made by one function.
PART = 10
# Arguments of calls that not any value suits, by the parameter or by call and parameter. A word of a handle is a field.
VALUES = {
    "make_literal.text": "bits[8]:1",
    "bits_msb": "1?0",
    "include": "defs.svh",
    "hi": 3,
    "lo": 2,
    "index": 2,
    "bit_count": 8,
    "replication": -2,
    "hoist_module_declarations.start": 0,
    "add_reg.data_type": "array",
    "bitwise_or_reduce_array_elements.value": "memory",
    "value": "\"a\\b\"\n\tc\r",
    "make_unsized_decimal_literal.value": -(2**31),
}
# Answers that are kept beside the first of each kind.
KEPT = {"make_packed_array_type": "array", "add_reg": "memory"}
# Calls that are made before all others, so that these have two expressions to choose from.
FIRST = ("make_literal", "make_bit_vector_type", "add_module", "add_input")
KIND_OF = {"array": "type", "memory": "signal"}
# What questions are answered with.
ANSWERS = ("bool truth", "uint64_t natural", "int64_t integer", "vast_string text", "vast_ports ports")

HEAD = """/* Makes each call of {header} packed, and as a line: nothing is at fault, and it is what lists have.
 *
 * Written by tools/bindings_from_calls from the table of calls; not to be edited.
 */
#include "check.h"
#include "{header}"

typedef struct {{
    vast_file file;
{fields}
    vast_expression expressions[2];
    const vast_expression *options[2];
    vast_string strings[2];
    int64_t integers[1];
    vast_reset reset;
    vast_register_definition definitions[2];
}} answers;

/* Whether the call was written as this line, of a file that keeps lines, or else as these bytes. */
static bool is_written(const answers *have, const char *line, const char *packed, size_t length)
{{
    const vast_buffer *lines = &have->file.lines;
    if (!have->file.keeps_lines)
        return lines->length == length && memcmp(lines->bytes, packed, length) == 0;
    size_t first = line[0] == '?', whole = strlen(line); /* the first byte of a question is let go */
    if (lines->length <= whole)
        return false;
    const char *last = lines->bytes + lines->length - whole - 1;
    return memcmp(last + first, line + first, whole - first) == 0 && last[whole] == '\\n';
}}

/* What calls are given that take more than one thing. */
static void gather(answers *have)
{{
    vast_expression signal = vast_expression_of(have->signal);
    have->expressions[0] = signal;
    have->expressions[1] = signal;
    have->options[0] = &have->expressions[0];
    have->options[1] = NULL;
    have->strings[0] = vast_str("first");
    have->strings[1] = vast_str("second");
    have->integers[0] = 2;
    have->reset.signal = signal;
    have->reset.active_low = true;
    have->definitions[0].reg = signal;
    have->definitions[0].next = have->expression;
    have->definitions[0].reset_value = &have->expressions[1];
    have->definitions[0].enable = NULL;
    have->definitions[1] = have->definitions[0];
    have->definitions[1].reset_value = NULL;
    have->definitions[1].enable = &have->expressions[0];
}}

"""
MAIN = """int main(void)
{{
    static answers have; /* of all zeros, so the file is closed */
{parts}
    static int32_t (*const opened[])(vast_file *, int32_t) = {{vast_file_open, vast_file_open_with_lint}};
    vast_string text;
    for (size_t form = 0; form < 2; form++) {{
        CHECK(opened[form](&have.file, VAST_SYSTEMVERILOG) == VAST_OK);
        for (size_t part = 0; part < sizeof parts / sizeof parts[0]; part++)
            if (parts[part](&have))
                return 1;
        CHECK(have.file.count == {count} && vast_emit(&have.file, &text) == VAST_OK);
        vast_file_close(&have.file);
    }}
    return 0;
}}
"""


class Program:
    """The calls that are made so far, and what they gave: calls that return a status."""

    header = "vast_calls.h"

    def __init__(self, table, kinds):
        self.takes = {kind.kind: kind.takes for kind in kinds}
        calls = [call for call in table.calls if call.method != "emit"]
        self.left = [call for call in calls if call.method in FIRST] + [call for call in calls if call.method not in FIRST]
        self.numbers = {}  # of each field of the answers
        self.count = 0
        self.rows = []
        self.gathered = 0

    def is_ready(self, call):
        """Whether all is there that it takes."""
        return all(self.has(call, parameter) for parameter in call.parameters)

    def has(self, call, parameter):
        """Whether what stands for the parameter is there."""
        form = parameter.type.form
        if is_definitions(parameter.type):
            return "definition" in self.numbers
        if form in ("list", "optional"):
            return parameter.type.of.form not in ("handle", "group", "optional") or bool(self.gathered)
        return form != "handle" or self.field(call, parameter) is not None

    def field(self, call, parameter, place=0):
        """The field that stands for a parameter, which of several where it is the first, the second .. of its kind."""
        chosen = value_of(call, parameter)
        if chosen is not None:
            return chosen if chosen in self.numbers else None
        kind = parameter.type.of
        likely = {"expression": ("signal", "expression", "parameter"), "indexable": ("signal",)}.get(
            kind, self.takes[kind]
        )
        there = [each for each in likely if each in self.numbers]
        return there[place % len(there)] if there else None

    def make_all(self):
        """Makes each call, the first in order of those that are ready."""
        while self.left:
            call = next(call for call in self.left if self.is_ready(call))
            self.left.remove(call)
            self.make(call)
            if not self.gathered and {"signal", "expression"} <= self.numbers.keys():
                self.gathered = len(self.rows)

    def make(self, call):
        """Makes a call."""
        given, words, seen = ["&have->file"], [call.call], 0
        for parameter in call.parameters:
            argument, word = self.argument(call, parameter, seen)
            seen += parameter.type.form == "handle" and parameter.type.of == "expression"
            given.append(argument)
            words.append(word)
        self.rows.append(self.row(call, given, self.keep(call)) + "\n" + self.look(call, " ".join(words)))

    def row(self, call, given, field):
        """The statement that makes a call, whose answer goes to a field."""
        if call.answer.form != "nothing":
            given = given + [f"&{field}" if field else "NULL"]
        return declaration(f"    CHECK(vast_{call.method}(", ", ".join(given), ") == VAST_OK);")

    def look(self, call, line):
        """The statement that looks at what was written."""
        written = packed(call, line)
        return declaration("    CHECK(is_written(have, ", f"{c_string(line)}, {c_bytes(written)}, {len(written)}", "));")

    def keep(self, call):
        """Counts the call; the field that keeps what it gives, if one does."""
        answer = call.answer
        if call.is_question:
            named = {"list": "ports", "optional": "text", "integer": natural(answer)}
            return f"have->{named.get(answer.form, answer.form)}"
        number = self.count
        self.count += 1
        field = KEPT.get(call.method)
        if field is None and answer.form != "nothing" and answer.of not in self.numbers:
            field = answer.of
        if field is None:
            return None
        self.numbers[field] = number
        return f"have->{c_field(field)}"

    def argument(self, call, parameter, seen):
        """An argument in C, and as lists have it."""
        type, name = parameter.type, parameter.name
        if type.form == "handle":
            field = self.field(call, parameter, seen)
            return self.handle(field, type.of), str(self.numbers[field])
        if type.form in ("list", "optional"):
            return self.many(type)
        chosen = value_of(call, parameter)
        if type.form == "truth":
            return "true", "true"
        if type.form == "word":
            return f"VAST_{upper(type.of)}_{upper(type.words[-1])}", type.words[-1]
        if type.form == "integer":
            return c_integer(1 if chosen is None else chosen), str(1 if chosen is None else chosen)
        text = f"{name}_{len(self.rows)}" if chosen is None else chosen
        return self.text(text), json.dumps(text).replace("\\t", "\t")

    def many(self, type):
        """A list or an option in C, and as lists have it."""
        signal, value = self.numbers.get("signal"), self.numbers.get("expression")
        if is_definitions(type):
            return "&have->definition, 1", f"[ {self.numbers['definition']} ]"
        rows = f"[ {signal} {value} + {signal} - ] [ {signal} {value} - + {signal} ]"
        return {
            ("list", "handle"): ("have->expressions, 2", f"[ {signal} {signal} ]"),
            ("list", "optional"): ("have->options, 2", f"[ + {signal} - ]"),
            ("list", "text"): ("have->strings, 2", '[ "first" "second" ]'),
            ("list", "integer"): ("have->integers, 1", "[ 2 ]"),
            ("list", "group"): ("have->definitions, 2", f"[ {rows} ]"),
            ("optional", "text"): (self.text("label"), '+ "label"'),
            ("optional", "group"): ("&have->reset", f"+ [ {signal} true ]"),
        }[type.form, type.of.form]

    def handle(self, field, kind):
        """A field of the answers as a handle of the kind."""
        own = KIND_OF.get(field, field)
        return f"have->{c_field(field)}" if own == kind else f"vast_{kind}_of(have->{c_field(field)})"

    def text(self, text):
        """A text in C."""
        return f"vast_str({c_string(text)})"


class ValueProgram(Program):
    """The same with calls by value, which take handles of each kind and texts as they are."""

    header = "vast_values.h"

    def row(self, call, given, field):
        """See `Program`."""
        kept = f"{field} = " if field else ""
        made = declaration(f"    {kept}v_{call.method}(", ", ".join(given), ");")
        return f"{made}\n    CHECK(have->file.fault == VAST_OK);"

    def handle(self, field, kind):
        """See `Program`."""
        return f"have->{c_field(field)}"

    def text(self, text):
        """See `Program`."""
        return c_string(text)


def is_definitions(type):
    """Whether it is a list of definitions."""
    return type.form == "list" and type.of.form == "handle" and type.of.of == "definition"


def value_of(call, parameter):
    """The value that is set for a parameter."""
    value = VALUES.get(f"{call.method}.{parameter.name}", VALUES.get(parameter.name))
    return None if parameter.type.form == "handle" and value not in KIND_OF else value


def c_field(field):
    """The field's name."""
    return {"case": "cases"}.get(field, field)


def natural(type):
    """The field of an answered number."""
    return "natural" if type.form == "integer" and type.least == 0 else "integer"


def upper(word):
    """A name in CamelCase as C writes constants."""
    return "".join("_" + c if c.isupper() and at else c for at, c in enumerate(word)).upper()


def c_string(text):
    """A literal of C."""
    return json.dumps(text)


def c_bytes(content):
    """The bytes as a literal of C."""
    plain = frozenset(b" !#$%&'()*+,-./:;<=>@[]^_`{|}~")
    shown = (chr(byte) if chr(byte).isalnum() and byte < 128 or byte in plain else f"\\{byte:03o}" for byte in content)
    return '"' + "".join(shown) + '"'


def c_integer(number):
    """A number; the least of a type has no literal of its own."""
    return "INT32_MIN" if number == -(2**31) else str(number)


def every_call(table, kinds):
    """The program of the calls that return a status."""
    return program_text(Program(table, kinds), kinds)


def every_value(table, kinds):
    """The program of the calls by value."""
    return program_text(ValueProgram(table, kinds), kinds)


def program_text(program, kinds):
    """The text of a program."""
    program.make_all()
    fields = [f"    vast_{kind.kind} {c_field(kind.kind)};" for kind in kinds if kind.kind in program.numbers]
    fields += [f"    vast_{kind} {field};" for field, kind in KIND_OF.items()]
    fields += [f"    {kind};" for kind in ANSWERS]
    first, rest = program.rows[: program.gathered], program.rows[program.gathered :]
    groups = [first + ["    gather(have);"]] + [rest[at : at + PART] for at in range(0, len(rest), PART)]
    functions = [
        f"static int part_{number}(answers *have)\n{{\n" + "\n".join(rows) + "\n    return 0;\n}\n"
        for number, rows in enumerate(groups)
    ]
    names = ", ".join(f"part_{number}" for number in range(len(groups)))
    parts = declaration("    static int (*const parts[])(answers *) = {", names, "};")
    return (
        HEAD.format(header=program.header, fields="\n".join(fields))
        + "\n".join(functions)
        + "\n"
        + MAIN.format(parts=parts, count=program.count)
    )
