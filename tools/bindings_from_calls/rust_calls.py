"""`src/calls.rs` of the Rust binding, the calls by their numbers, and `src/rows.rs`, what stands for their arguments."""
from rust_text import rustfmt

FOLDER = "bindings/rust/src"

CALLS = """//! The calls by their numbers in packed lists.
//!
//! Written by tools/bindings_from_calls from the table of calls; not to be edited.

use crate::kinds::{%s};

/// A call and its number.
// Some questions are answered by this crate itself, and the names are those of lists.
#[allow(dead_code, clippy::enum_variant_names)]
#[derive(Clone, Copy, Debug, PartialEq, Eq)]
#[repr(u16)]
pub(crate) enum Call {
%s}
"""

ROWS = """//! The calls, with what stands for their arguments.
//!
//! Written by tools/bindings_from_calls from the table of calls; not to be edited.

use crate::unpacked::Form::{self, %s};

/// A call's number, its name in lists, and its arguments in order.
pub(crate) struct Row(pub(crate) usize, pub(crate) &'static str, pub(crate) &'static [Form]);

pub(crate) static ROWS: [Row; %d] = [
%s];
"""

PLACES = """
impl {name} {{
    /// Its place among the words that may stand there.
    pub(crate) fn place(self) -> usize {{
        match self {{
{arms}        }}
    }}
}}
"""

# The forms that have a name alone.
PLAIN = {"handle": "Step", "text": "Text"}


def variant(call):
    """The name of a call in Rust."""
    return f"Call::{call.call.lstrip('?!')}"


def form(type):
    """The `Form` of a type."""
    if type.form in PLAIN:
        return PLAIN[type.form]
    if type.form == "integer":
        return "Count" if type.least == 0 else "Number"
    if type.form in ("truth", "word"):
        words = type.words or ("false", "true")
        return f"Word(&[{', '.join(quoted(word) for word in words)}])"
    if type.form == "group":
        return f"Group(&[{', '.join(form(field.type) for field in type.fields)}])"
    return f"{type.form.capitalize()}(&{form(type.of)})"


def quoted(word):
    """A literal of Rust; no word needs an escape."""
    return f'"{word}"'


def argument_words(table):
    """The types of words that some call takes, by their names."""
    taken = {parameter.type.of for call in table.calls for parameter in call.parameters}
    return [type for type in table.named_types("word") if type.of in taken]


def places(type):
    """The method that tells the place of a word."""
    arms = "".join(f"            {type.of}::{word} => {place},\n" for place, word in enumerate(type.words))
    return PLACES.format(name=type.of, arms=arms)


def calls_text(table):
    """The calls by their numbers."""
    words = argument_words(table)
    names = ", ".join(type.of for type in words)
    variants = "".join(f"    {call.call.lstrip('?!')} = {call.number},\n" for call in table.calls)
    return rustfmt(CALLS % (names, variants) + "".join(places(type) for type in words))


def rows_text(table):
    """What stands for their arguments."""
    rows = "".join(
        f"    Row({call.number}, {quoted(call.call)}, &[{', '.join(form(it.type) for it in call.parameters)}]),\n" for call in table.calls
    )
    return rustfmt(ROWS % ("Count, Group, List, Number, Optional, Step, Text, Word", len(table.calls), rows))


def table_files(table):
    """The texts of both by their paths."""
    return {f"{FOLDER}/calls.rs": calls_text(table), f"{FOLDER}/rows.rs": rows_text(table)}
