"""The methods of the Rust binding: `src/methods/*.rs`, one for each call by group. The types of parameters, and the words of a method's comment, are those of the method in
crates/xlsynth_vast, which has the signatures of the original."""
import pathlib
import re
import shutil

from python_words import REFUSALS
from rust_arms import CALLS, test_text
from rust_calls import table_files, variant
from rust_text import rustfmt
from waiting import COMPARED, tests

ROOT = pathlib.Path(__file__).resolve().parent.parent.parent
METHODS = "bindings/rust/src/methods"

# Where a condition isn't met, the panic begins so, as it does in the original.
CONDITIONS = {
    "add_wire": "module wires must have unique names",
    "make_bit_vector_type": "bit-vector width must be greater than zero",
    "make_bit_vector_type_expr": "bit-vector width must be greater than zero",
    "make_packed_array_type_expr": "a packed array has elements that can be packed, and dimensions of which none is below 1",
    "make_unpacked_array_type_expr": "an array has dimensions, of which none is below 1",
    "make_slice": "bit and part-select indices must be nonnegative",
    "make_index": "bit and part-select indices must be nonnegative",
    "make_indexed_part_select": "indexed part-select width must be positive",
    "make_function_call": "function call name must not be empty",
    "conditional_add_else_if": "cannot add an else-if arm after an unconditional else",
    "conditional_add_else": "cannot add another arm after an unconditional else",
    "hoist_module_declarations": "the start lies behind the module's members",
}

# Conditions whose words depend on the arguments, by what looks at them.
LOOKS = {
    "make_packed_array_type": "|state| packed_condition(state, element_step, dimensions)",
    "make_unpacked_array_type": "|_| unpacked_condition(dimensions)",
    "make_type_cast": "|state| cast_condition(state, data_type_step)",
}

# What tells for certain that a clause is met, or that a call is not refused so. A call waits where all of its own are told so;
# one with a clause that is not here is made at once, as are calls that enter names: to keep all names takes longer.
TELLS = {
    **COMPARED,
    "name ≢ []": "!name.is_empty()",
    "AreDimensions dimensions": "are_dimensions(dimensions)",
    "has_else (slice_get nests conditional.id.index) ≡ false": "!self.known().has_else(conditional_step)",
    "is_castable (type_of data_type)": "!self.known().is_array(data_type_step)",
    # Asserted before.
    "length parameter_names ≡ length parameter_expressions": "true",
    "length connection_names ≡ length connection_expressions": "true",
    "length names ≡ length values": "true",
    REFUSALS["make_literal"]: "is_small_literal(text)",
    REFUSALS["make_binary_pattern"]: "is_pattern(bits_msb)",
    REFUSALS["case_set_unique"]: "!unique || self.file_type == VastFileType::SystemVerilog",
}

# What is kept of a call that is made, to tell so of later ones; or what is asked with it, since all will ask it.
KEEPS = {
    "conditional_add_else": "self.known().keep_else(conditional_step);",
    **{
        name: "self.answer_next(Call::ConditionalThenBlock, made);"
        for name in ("add_conditional", "block_add_cond", "generate_add_conditional")
    },
}

# Directions of ports, which are kept for the calls that answer handles of ports.
PORTS = {
    "add_input": "Input",
    "add_output": "Output",
    "add_inout": "InOut",
    "add_logic_input": "Input",
    "add_logic_output": "Output",
}

# What the width of a type is that the call makes.
WIDTHS = {
    "make_bit_vector_type": "Width::Bits(bit_count)",
    "make_bit_vector_type_expr": "Width::Expression(width_step)",
    "make_packed_array_type": "Width::Element(element_step)",
    "make_unpacked_array_type": "Width::Element(element_step)",
    "make_packed_array_type_expr": "Width::Element(element_step)",
    "make_unpacked_array_type_expr": "Width::Element(element_step)",
}

# Calls that answer a handle of the block which they are given, as the original's do.
BLOCK_ANSWERS = {"block_add_comment_text", "block_add_blank_line", "block_add_inline_text"}

# What is said of an enumeration's entries.
ENTRIES = [("names", "values", "enumeration entry names and values must have equal lengths")]

# Calls with lists that go by pairs, and what the original says of other lengths.
PAIRS = {
    "add_enum_typedef": ENTRIES,
    "add_file_enum_typedef": ENTRIES,
    "make_instantiation": [
        ("parameter_names", "parameter_expressions",
         "module-instantiation parameter names and values must have equal lengths"),
        ("connection_names", "connection_expressions",
         "module-instantiation port names and values must have equal lengths"),
    ],
}

HEAD = '''//! %s.
//!
//! Written by tools/bindings_from_calls from the table of calls; not to be edited.

%s
impl VastFile {
'''

# The groups of calls, as `vast_script` has them.
GROUPS = {
    "operators": "Calls that make an expression of one or two operands",
    "expressions": "Calls that make any other expression",
    "types": "Calls that make a type",
    "modules": "Calls of the file's items, and of modules with their ports, declarations and parameters",
    "loops": "Calls of generate loops and their members",
    "statements": "Calls of functions, always blocks, conditionals and statements",
    "artifacts": "Calls of parts that are made beforehand, and that add them to modules",
}


# Calls that the original has none of, which are those of a trait: what it has stays its own. `make_name` and
# `block_add_casex` came before the trait.
OWN = {"make_packed_array_type_expr", "make_unpacked_array_type_expr", "block_add_task_call", "block_add_for", "make_member",
       "add_import", "add_file_import",
       "add_enum_typedef", "add_struct_typedef", "add_file_enum_typedef", "add_file_struct_typedef", "add_variable"} | {
    f"{scope}add_{block}"
    for scope in ("", "generate_")
    for block in ("always_star", "always_latch", "initial")
}
EXTENSION = "bindings/rust/src/extension.rs"
TRAIT = "VastFileExtension"
EXTENSION_HEAD = f'''//! Calls that the original has none of.
//!
//! Written by tools/bindings_from_calls from the table of calls; not to be edited.

%s
/// Calls that the original has none of, as methods of a [`VastFile`] where this trait is in scope.
pub trait {TRAIT} {{
%s}}

impl {TRAIT} for VastFile {{
%s}}
'''


class Method:
    """A method of crates/xlsynth_vast: its comment's first paragraph, its parameters, its result."""

    def __init__(self, words, parameters, result):
        self.words = words
        self.parameters = parameters
        self.result = result

    @property
    def can_be_refused(self):
        return self.result.endswith(", VastFault>")

    @property
    def answer(self):
        found = re.fullmatch(r"Result<(.*), \w+>", self.result)
        return found[1] if found else self.result


def methods():
    """Each public method of VastFile by its name."""
    found = {}
    head = r"((?:^    ///[^\n]*\n)+)(?:^    #\[[^\n]*\n)*^    pub fn (\w+)\((.*?)\)(?: -> ([^{]*?))?"
    tail = r"\s*(?=^\s+(?:requires|ensures)|\{|^    \{)"
    for path in sorted((ROOT / "crates/xlsynth_vast/src").rglob("*.rt")):
        for match in re.finditer(head + tail, path.read_text(), re.M | re.S):
            lines = [line.strip().removeprefix("///").strip() for line in match[1].strip().split("\n")]
            words = " ".join(lines[: lines.index("") if "" in lines else None])
            parameters = [part.strip() for part in re.split(r",(?=\s*\w+:|\s*$)", match[3]) if part.strip()]
            split = [tuple(part.split(": ", 1)) for part in parameters if ": " in part]
            found.setdefault(match[2], (Method(words, split, (match[4] or "()").strip()), parameters[0]))
    return found


def argument(name, kind, form):
    """What is looked up before the call is written, and what writes it."""
    if kind == "&IndexableExpr":
        return f"let {name}_step = self.own_indexable({name});", f".step({name}_step)"
    if form == "handle":
        return f"let {name}_step = self.own({name}.0);", f".step({name}_step)"
    if kind == "&str":
        return None, f".text({name})"
    if kind == "bool":
        return None, f".truth({name})"
    if kind in ("i64", "i32"):
        return None, f".number({name})"
    if kind == "usize":
        return None, f".count({name})"
    if kind in ("DataKind", "&LiteralFormat"):
        return None, f".count({name}.place())"
    if kind == "Option<&str>":
        return None, f".option({name}, Calls::text)"
    if kind == "&[i64]":
        return None, f".numbers({name})"
    if kind == "&[&str]":
        return None, f".texts({name})"
    if kind == "&[&Expr]":
        return f"let {name}_steps = self.own_all({name});", f".steps(&{name}_steps)"
    if kind == "&[Option<&Expr>]":
        return f"let {name}_steps = self.own_any({name});", f".optional_steps(&{name}_steps)"
    if kind == "&[Def]":
        return f"let {name}_steps = self.own_definitions({name});", f".steps(&{name}_steps)"
    raise SystemExit(f"no argument of a call is known for {name}: {kind}")


def wrapped(words, margin):
    """The words as a comment of lines that are not too long."""
    lines, line = [], margin + "///"
    for word in words.split():
        if len(line) + 1 + len(word) > 110:
            lines.append(line)
            line = margin + "///"
        line += " " + word
    return "\n".join(lines + [line])


def comment(name, method):
    """The method's comment."""
    # A handle that is another's is no matter of a comment: each call panics there.
    words = method.words.replace(", which is the file's", "")
    parts = [wrapped(words, "    ")]
    if method.can_be_refused:
        parts.append("    ///\n    /// # Errors\n" + wrapped("Where the library refuses the call, in its words.", "    "))
    if name in CONDITIONS or name in LOOKS or name in PORTS or name in PAIRS:
        said = CONDITIONS.get(name) or ("module ports must have unique names" if name in PORTS else None)
        text = f"With `{said}`, where that is not so." if said else "Where a condition of the call isn't met, with its words."
        parts.append("    ///\n    /// # Panics\n" + wrapped(text, "    "))
    return "\n".join(parts)


def signature(name, method, receiver, result):
    """The method's first lines, up to the brace."""
    parameters = ", ".join([receiver] + [f"{label}: {kind}" for label, kind in method.parameters])
    arrow = "" if result == "()" else f" -> {result}"
    line = f"    pub fn {name}({parameters}){arrow} {{"
    if len(line) <= 100:
        return line
    inner = "".join(f"        {part},\n" for part in [receiver] + [f"{label}: {kind}" for label, kind in method.parameters])
    return f"    pub fn {name}(\n{inner}    ){arrow} {{"


def asked_once(call, method):
    """The body of a call that answers the same handle each time."""
    label = method.parameters[0][0]
    looks = "answered_next" if call.method == "conditional_then_block" else "answered"
    step = f"self.{looks}({variant(call)}, {label}.0)"
    if method.answer == "IndexableExpr":
        return (f"        let step = {step}.step;\n        let expression = {label}.0;\n"
                "        IndexableExpr { expression, step }")
    return f"        {method.answer}({step})"


def certainty(entry):
    """What tells for certain that nothing refuses the call: `true`, `false` or an expression of Rust."""
    told = tests(entry, TELLS)
    if told is None:
        return "false"
    return " && ".join(test for test in told if test != "true") or "true"


def made_by(entry, written):
    """The expression that makes the call, whose arguments are written so: by a closure, or whole where they are steps."""
    write = written_by(written)
    steps = steps_of(written)
    name = entry.method
    told = certainty(entry)
    is_certain = told if told in ("true", "false") else "is_certain"
    if entry.is_refused:
        return f"self.allowed({is_certain}, {variant(entry)}, {write})?"
    if name in LOOKS:
        return f"self.made_or({is_certain}, {variant(entry)}, {write}, {LOOKS[name]})"
    if told == "true" and steps:
        return f"self.later_of({variant(entry)}, [{', '.join(steps)}])"
    if told == "true":
        return f"self.later({variant(entry)}, {write})"
    condition = "module ports must have unique names" if name in PORTS else CONDITIONS[name]
    return f'self.made({is_certain}, {variant(entry)}, "{condition}", {write})'


def body(entry, method):
    """The method's body."""
    name = entry.method
    forms = [parameter.type.form for parameter in entry.parameters]
    if name in ("make_indexable_expression", "generate_genvar", "function_body", "function_result",
                "statement_block", "conditional_then_block"):
        return asked_once(entry, method)
    lines = []
    for left, right, words in PAIRS.get(name, []):
        lines += ["assert_eq!(", f"    {left}.len(),", f"    {right}.len(),", f'    "{words}"', ");"]
    written = []
    for (label, kind), form in zip(method.parameters, forms, strict=True):
        looked, writes = argument(label, kind, form)
        lines += [looked] if looked else []
        written.append(writes)
    told = certainty(entry)
    if told not in ("true", "false"):
        lines.append(f"let is_certain = {told};")
    made = made_by(entry, written)
    answers = method.answer != "()" and name not in BLOCK_ANSWERS
    kept = [KEEPS[name]] if name in KEEPS else []
    if name in PORTS:
        kept.append(f"self.keep_port(owner_step, ModulePortDirection::{PORTS[name]}, data_type_step, made);")
    if name in WIDTHS:
        kept.append(f"self.keep_width(made, {WIDTHS[name]});")
    if kept:
        lines.append(f"let made = {made};")
    elif not answers:
        lines.append(f"{made};")
    lines += kept
    if name in BLOCK_ANSWERS:
        lines.append(f"VastStatement({method.parameters[0][0]}.0)")
    elif answers:
        value = f"{method.answer}({'made' if kept else made})"
        lines.append(f"Ok({value})" if method.can_be_refused else value)
    elif method.can_be_refused:
        lines.append("Ok(())")
    return "\n".join("        " + line for line in lines if line)


def written_by(written):
    """The closure that writes the arguments."""
    return "|calls| calls" + "".join(written)


def steps_of(written):
    """The steps that are all arguments; `None` where another is among them."""
    steps = [re.fullmatch(r"\.step\((\w+)\)", it) for it in written]
    return None if None in steps else [step[1] for step in steps]


def result_of(name, method):
    """The result's type, as the original's."""
    answer = "VastStatement" if name in BLOCK_ANSWERS else method.answer
    return f"Result<{answer}, VastError>" if method.can_be_refused else answer


def method_parts(entry, found):
    """The method's comment, its first lines, and its body."""
    name = entry.method
    method, receiver = found[name]
    return comment(name, method), signature(name, method, receiver, result_of(name, method)), body(entry, method)


def text(table, group):
    """The file of a group's methods."""
    found = methods()
    parts = []
    for entry in table.calls:
        if entry.group == group and entry.method not in OWN:
            parts.append("\n".join([*method_parts(entry, found), "    }"]))
    code = "\n\n".join(parts)
    return rustfmt(HEAD % (GROUPS[group], uses(code)) + code + "\n}\n")


def extension_text(table):
    """The file of the trait, with what its methods do."""
    found = methods()
    said, done = [], []
    for entry in table.calls:
        if entry.method in OWN:
            words, head, does = method_parts(entry, found)
            head = head.replace("pub fn", "fn")
            said.append(f"{words}\n{head.removesuffix(' {')};\n")
            done.append(f"{head}\n{does}\n    }}\n")
    code = "\n".join(done)
    return rustfmt(EXTENSION_HEAD % (uses(code), "\n".join(said), code))


# Where what the methods name stands.
PLACES = {
    "calls": ["Call"],
    "conditions": ["are_dimensions", "cast_condition", "packed_condition", "unpacked_condition"],
    "error": ["VastError"],
    "file": ["VastFile"],
    "handles": ["BlankLine", "CaseStatement", "Comment", "Conditional", "ContinuousAssignment", "Def", "Expr",
                "GenerateLoop", "Index", "IndexableExpr", "InlineVerilogStatement", "Instantiation", "LocalparamRef",
                "LogicRef", "MacroRef", "MacroStatement", "ParameterRef", "Slice", "VastAlwaysBase", "VastDataType",
                "VastFunction", "VastModule", "VastStatement", "VastStatementBlock"],
    "kinds": ["DataKind", "LiteralFormat", "ModulePortDirection", "VastFileType"],
    "known": ["Width"],
    "literal": ["is_pattern", "is_small_literal"],
    "packed": ["Calls"],
}


def uses(code):
    """The `use` lines of the code."""
    plain = re.sub(r'"[^"\n]*"|///[^\n]*', "", code)
    lines = []
    for place, names in PLACES.items():
        named = [name for name in names if name == "VastFile" or re.search(rf"\b{name}\b", plain)]
        if named:
            lines.append(f"use crate::{place}::{{{', '.join(named)}}};\n")
    return "".join(lines)


class RustBinding:
    """What is written for Rust."""

    def __init__(self, table):
        self.table = table

    def files(self):
        """The texts of all files by their paths; none where rustfmt, which lays them out, is not there."""
        if shutil.which("rustfmt") is None:
            print("bindings_from_calls: no rustfmt, Rust is left out")
            return {}
        files = {f"{METHODS}/{group}.rs": text(self.table, group) for group in GROUPS}
        files[EXTENSION] = extension_text(self.table)
        files[CALLS] = test_text(self.table, methods())
        files.update(table_files(self.table))
        return files
