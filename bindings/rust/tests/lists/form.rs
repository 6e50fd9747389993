//! Lines of lists, as `docs/use/LISTS.md` has them, so far as the stored lists need it.

use std::collections::HashMap;
use std::iter::Peekable;
use std::str::Chars;

/// An argument of a call.
#[derive(Clone, Debug)]
pub enum Argument {
    Word(String),
    Text(String),
    List(Vec<Argument>),
    Nothing,
    Some(Box<Argument>),
}

/// A line: the name that it gives, the call and its arguments.
pub struct Line {
    pub name: Option<String>,
    pub call: String,
    pub arguments: Vec<Argument>,
}

impl Line {
    pub fn read(line: &str) -> Line {
        let (first, rest) = line.split_once(' ').unwrap_or((line, ""));
        if let Some(call) = rest.strip_prefix("= ") {
            return Line {
                name: Some(first.to_owned()),
                ..Line::read(call)
            };
        }
        let mut chars = rest.chars().peekable();
        let mut arguments = Vec::new();
        while let Some(argument) = read_argument(&mut chars) {
            arguments.push(argument);
        }
        Line {
            name: None,
            call: first.to_owned(),
            arguments,
        }
    }
}

fn read_argument(chars: &mut Peekable<Chars<'_>>) -> Option<Argument> {
    while chars.next_if_eq(&' ').is_some() {}
    if chars.next_if_eq(&'"').is_some() {
        return Some(Argument::Text(read_text(chars)));
    }
    let mut word = String::new();
    while let Some(c) = chars.next_if(|c| *c != ' ') {
        word.push(c);
    }
    match word.as_str() {
        "" | "]" => None,
        "[" => {
            let mut items = Vec::new();
            while let Some(item) = read_argument(chars) {
                items.push(item);
            }
            Some(Argument::List(items))
        }
        "-" => Some(Argument::Nothing),
        "+" => Some(Argument::Some(Box::new(read_argument(chars)?))),
        _ => Some(Argument::Word(word)),
    }
}

fn read_text(chars: &mut Peekable<Chars<'_>>) -> String {
    let mut units: Vec<u16> = Vec::new();
    let mut buffer = [0; 2];
    while let Some(c) = chars.next() {
        let read = match c {
            '"' => break,
            '\\' => match chars.next() {
                Some('n') => '\n',
                Some('t') => '\t',
                Some('r') => '\r',
                Some('b') => '\u{8}',
                Some('f') => '\u{c}',
                Some('u') => {
                    let digits: String = chars.take(4).collect();
                    units.push(u16::from_str_radix(&digits, 16).unwrap_or_default());
                    continue;
                }
                Some(escaped) => escaped,
                None => break,
            },
            _ => c,
        };
        units.extend_from_slice(read.encode_utf16(&mut buffer));
    }
    String::from_utf16_lossy(&units)
}

impl Argument {
    /// Puts what named questions answered in the place of their names.
    pub fn resolve(&mut self, values: &HashMap<String, String>) {
        match self {
            Argument::Word(word) => {
                if let Some(value) = word.strip_prefix('?').and_then(|name| values.get(name)) {
                    *word = value.clone();
                }
            }
            Argument::List(items) => items.iter_mut().for_each(|item| item.resolve(values)),
            Argument::Some(item) => item.resolve(values),
            Argument::Text(_) | Argument::Nothing => {}
        }
    }

    pub fn word(&self) -> &str {
        match self {
            Argument::Word(word) => word,
            other => panic!("no word: {other:?}"),
        }
    }

    pub fn text(&self) -> &str {
        match self {
            Argument::Text(text) => text,
            other => panic!("no text: {other:?}"),
        }
    }

    pub fn list(&self) -> &[Argument] {
        match self {
            Argument::List(items) => items,
            other => panic!("no list: {other:?}"),
        }
    }

    pub fn option(&self) -> Option<&Argument> {
        match self {
            Argument::Nothing => None,
            Argument::Some(argument) => Some(argument),
            other => panic!("no option: {other:?}"),
        }
    }

    pub fn truth(&self) -> bool {
        self.word() == "true"
    }

    pub fn number<N: std::str::FromStr>(&self) -> N {
        match self.word().parse() {
            Ok(number) => number,
            Err(_) => panic!("no number: {}", self.word()),
        }
    }

    /// The number of a step, or of the step that has the name.
    pub fn step(&self, names: &HashMap<String, usize>) -> usize {
        match names.get(self.word()) {
            Some(step) => *step,
            None => self.number(),
        }
    }
}
