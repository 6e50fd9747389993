"""`tests/lists/calls.rs` of the Rust binding, which makes a list's calls by its methods."""
from rust_text import rustfmt

CALLS = "bindings/rust/tests/lists/calls.rs"

CALLS_HEAD = '''//! One arm for each call of a list.
//!
//! Written by tools/bindings_from_calls from the table of calls; not to be edited.

use crate::answers::{format_of, kind_of, Answer, Answers, Fault};
use crate::form::{Argument, Line};
use xlsynth_vast::{Def, Expr, VastFile, VastFileExtension};

/// Makes the call of the line.
pub fn make(file: &mut VastFile, answers: &Answers, line: &Line) -> Result<Answer, Fault> {
    let words = line.arguments.as_slice();
    match line.call.as_str() {
'''

CALLS_TAIL = '''        other => panic!("no call: {other}"),
    }
}
'''


def test_argument(place, name, kind, form):
    """What reads an argument of a line, and what stands for it in the call."""
    word = f"&words[{place}]"
    if form == "handle":
        return f"let {name} = answers.handle({word})?;", f"&{name}" if kind.startswith("&") else name
    if kind == "&str":
        return f"let {name} = words[{place}].text();", name
    if kind == "bool":
        return f"let {name} = words[{place}].truth();", name
    if kind in ("i64", "i32", "usize"):
        return f"let {name} = words[{place}].number();", name
    if kind == "DataKind":
        return f"let {name} = kind_of({word});", name
    if kind == "&LiteralFormat":
        return f"let {name} = format_of({word});", f"&{name}"
    if kind == "Option<&str>":
        return f"let {name} = words[{place}].option().map(Argument::text);", name
    if kind == "&[i64]":
        return f"let {name}: Vec<i64> = words[{place}].list().iter().map(Argument::number).collect();", f"&{name}"
    if kind == "&[&str]":
        return f"let {name}: Vec<&str> = words[{place}].list().iter().map(Argument::text).collect();", f"&{name}"
    if kind == "&[Def]":
        return f"let {name}: Vec<Def> = answers.handles({word})?;", f"&{name}"
    if kind == "&[&Expr]":
        return (f"let {name}: Vec<Expr> = answers.handles({word})?;\n"
                f"let {name}: Vec<&Expr> = {name}.iter().collect();"), f"&{name}"
    return (f"let {name}: Vec<Option<Expr>> = answers.options({word})?;\n"
            f"let {name}: Vec<Option<&Expr>> = {name}.iter().map(Option::as_ref).collect();"), f"&{name}"


def arm(entry, method):
    """The arm of a call."""
    name = entry.method
    lines, values = [], []
    for place, ((label, kind), parameter) in enumerate(zip(method.parameters, entry.parameters, strict=True)):
        read, value = test_argument(place, label, kind, parameter.type.form)
        lines += read.split("\n")
        values.append(value)
    call = f"file.{name}({', '.join(values)})" + ("?" if method.can_be_refused else "")
    answer = method.answer
    if answer == "()":
        lines += [f"{call};", "Ok(Answer::Nothing)"]
    else:
        lines.append(f"Ok(Answer::{answer}({call}))")
    inner = "\n".join("            " + line for line in lines)
    return f'        "{entry.call}" => {{\n{inner}\n        }}\n'


def test_text(table, methods):
    """The whole file of arms, by the methods of crates/xlsynth_vast."""
    steps = [entry for entry in table.calls if entry.group not in ("questions", "helpers")]
    arms = "".join(arm(entry, methods[entry.method][0]) for entry in steps)
    return rustfmt(CALLS_HEAD + arms + CALLS_TAIL)
