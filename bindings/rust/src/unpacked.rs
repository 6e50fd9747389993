//! Packed calls as lines of a list, which the lint takes.

use crate::packed::take_number;
use crate::rows::{Row, ROWS};

/// What stands for an argument.
pub(crate) enum Form {
    /// The number of a step.
    Step,
    Text,
    /// A number without a sign.
    Count,
    /// A number that may have one.
    Number,
    /// One of these words.
    Word(&'static [&'static str]),
    Optional(&'static Form),
    List(&'static Form),
    Group(&'static [Form]),
}

/// The lines of packed calls, which this crate wrote; a line feed ends each.
pub(crate) fn lines_of(calls: &[u8]) -> String {
    let mut lines = String::new();
    let mut left = calls;
    while !left.is_empty() {
        let length = take_number(&mut left);
        let (mut call, behind) = left.split_at(length);
        let number = take_number(&mut call);
        let row = ROWS.iter().find(|row| row.0 == number);
        let Row(_, name, arguments) = row.expect("each call that is packed has a row");
        lines.push_str(name);
        for form in *arguments {
            push_argument(&mut lines, form, &mut call);
        }
        lines.push('\n');
        left = behind;
    }
    lines
}

/// Appends the argument at the front, after a space.
fn push_argument(lines: &mut String, form: &Form, left: &mut &[u8]) {
    match form {
        Form::Step | Form::Count => push_word(lines, &take_number(left).to_string()),
        Form::Number => push_word(lines, &unfolded(take_number(left)).to_string()),
        Form::Word(words) => push_word(lines, words[take_number(left)]),
        Form::Text => push_text(lines, take_text(left)),
        Form::Optional(value) => match take_number(left) {
            0 => push_word(lines, "-"),
            _ => {
                push_word(lines, "+");
                push_argument(lines, value, left);
            }
        },
        Form::List(item) => {
            push_word(lines, "[");
            for _ in 0..take_number(left) {
                push_argument(lines, item, left);
            }
            push_word(lines, "]");
        }
        Form::Group(parts) => {
            push_word(lines, "[");
            for part in *parts {
                push_argument(lines, part, left);
            }
            push_word(lines, "]");
        }
    }
}

/// The number with a sign that this one stands for.
fn unfolded(number: usize) -> i64 {
    (number >> 1) as i64 ^ -((number & 1) as i64)
}

fn take_text<'a>(left: &mut &'a [u8]) -> &'a str {
    let length = take_number(left);
    let (text, behind) = left.split_at(length);
    *left = behind;
    std::str::from_utf8(text).expect("a text that this crate wrote")
}

fn push_word(lines: &mut String, word: &str) {
    lines.push(' ');
    lines.push_str(word);
}

/// Appends the text between quotes, with the escapes that it needs.
fn push_text(lines: &mut String, text: &str) {
    lines.push_str(" \"");
    for character in text.chars() {
        match character {
            '"' => lines.push_str("\\\""),
            '\\' => lines.push_str("\\\\"),
            '\n' => lines.push_str("\\n"),
            '\r' => lines.push_str("\\r"),
            plain => lines.push(plain),
        }
    }
    lines.push('"');
}

#[cfg(test)]
mod tests {
    use super::lines_of;
    use crate::calls::Call;
    use crate::kinds::DataKind;
    use crate::packed::Calls;

    #[test]
    fn each_form_is_as_lines_have_it() {
        let mut calls = Calls::default();
        calls.begin(Call::MakeScalarType).end();
        calls.begin(Call::MakeAdd).step(127).step(128).end();
        calls.begin(Call::MakeIndex).step(16_383).number(-1).end();
        calls.begin(Call::MakeSlice).step(16_384);
        calls.number(i64::MIN).number(i64::MAX).end();
        calls.begin(Call::HoistModuleDeclarations).step(0);
        calls.count(usize::MAX).end();
        calls.begin(Call::MakeDef).text("\"a\\b\"\r\n\té");
        calls.count(DataKind::Genvar.place()).step(1).end();
        calls.begin(Call::MakePackedArrayType).step(1);
        calls.numbers(&[2, -3]).end();
        calls.begin(Call::MakeConcat).steps(&[]).end();
        calls.begin(Call::MakeInstantiation).text("m").text("i");
        calls.texts(&["p"]).steps(&[4]).texts(&["a", "b"]);
        calls.optional_steps(&[Some(5), None]).end();
        calls.begin(Call::BitwiseOrReduce).steps(&[6, 7]).end();
        let lines = [
            "MakeScalarType",
            "MakeAdd 127 128",
            "MakeIndex 16383 -1",
            "MakeSlice 16384 -9223372036854775808 9223372036854775807",
            "HoistModuleDeclarations 0 18446744073709551615",
            "MakeDef \"\\\"a\\\\b\\\"\\r\\n\té\" Genvar 1",
            "MakePackedArrayType 1 [ 2 -3 ]",
            "MakeConcat [ ]",
            "MakeInstantiation \"m\" \"i\" [ \"p\" ] [ 4 ] [ \"a\" \"b\" ] [ + 5 - ]",
            "!BitwiseOrReduce [ 6 7 ]",
        ];
        assert_eq!(lines_of(calls.as_bytes()), lines.join("\n") + "\n");
    }

    #[test]
    fn groups_options_and_long_calls_are_too() {
        let mut calls = Calls::default();
        let text = "x".repeat(20_000);
        calls.begin(Call::AddCommentText).text(&text).end();
        let one = calls.as_bytes().len();
        calls.begin(Call::AddRegisters).step(1);
        calls.option(Some(2), |calls, signal| calls.step(signal).truth(false));
        calls.list([3], |calls, reg| {
            calls
                .step(reg)
                .step(4)
                .option(Some(5), Calls::step)
                .option(None, Calls::step)
        });
        calls.step(6).end();
        let comment = format!("AddCommentText \"{text}\"\n");
        let registers = "!AddRegisters 1 + [ 2 false ] [ [ 3 4 + 5 - ] ] 6\n";
        assert_eq!(lines_of(calls.as_bytes()), comment.clone() + registers);
        assert_eq!(calls.first(1).len(), one);
        calls.forget_front(one);
        assert_eq!(lines_of(calls.as_bytes()), registers);
        calls.forget_last();
        assert!(calls.is_empty());
    }
}
