//! The stored lists of calls, made through this crate, print what is stored.
//!
//! The lists make each call, with each refusal and each condition; the answers of the first 253 are those of the
//! original crate.

mod answers;
mod calls;
mod form;
mod questions;

use answers::{Answers, Fault};
use calls::make;
use form::Line;
use questions::{ask, helped};
use std::fs;
use std::panic::{self, AssertUnwindSafe};
use std::path::Path;
use xlsynth_vast::{VastFile, VastFileType};

/// Questions of the library's own, which the original's API has not.
const OWN: [&str; 6] = [
    "?ConditionalHasElse",
    "?NameIsFree",
    "?TypeCanBeCast",
    "?TypeCanBePacked",
    "?WidthIsUsable",
    "?FileIsPlain",
];

#[test]
fn stored_lists_print_what_is_stored() {
    let folder = Path::new(env!("CARGO_MANIFEST_DIR")).join("../../crates/vast_replay");
    let lists = fs::read_to_string(folder.join("stdin")).unwrap();
    let printed = fs::read_to_string(folder.join("stdout")).unwrap();
    let mut wanted = printed.as_str();
    let mut made = 0;
    for list in lists.split("== ").skip(1) {
        let (title, body) = list.split_once('\n').unwrap();
        let mut lines = body.lines().filter(|line| !is_empty(line));
        let dialect = lines.next().unwrap_or_default();
        let lines: Vec<&str> = lines.collect();
        let header = format!("== {title}\n");
        wanted = wanted.strip_prefix(header.as_str()).unwrap_or_else(|| {
            panic!(
                "another list than {title} is stored: {}",
                &wanted[..wanted.len().min(60)]
            )
        });
        let end = match wanted.find("\n== ") {
            _ if wanted.starts_with("== ") => 0,
            Some(at) => at + 1,
            None => wanted.len(),
        };
        let (own, rest) = wanted.split_at(end);
        assert_eq!(
            output(dialect, &lines),
            without_own(own),
            "the list {title}"
        );
        wanted = rest;
        made += 1;
    }
    assert_eq!(wanted, "");
    assert!(made > 253);
}

/// The stored output without answers to questions that the original's API has not.
fn without_own(stored: &str) -> String {
    let kept = stored.split_inclusive('\n');
    kept.filter(|line| !OWN.iter().any(|question| line.starts_with(question)))
        .collect()
}

/// Whether the line is blank or a comment.
fn is_empty(line: &str) -> bool {
    let words = line.trim_start();
    words.is_empty() || words.starts_with('#')
}

/// What the list gives.
fn output(dialect: &str, lines: &[&str]) -> String {
    let mut file = VastFile::new(match dialect {
        "verilog" => VastFileType::Verilog,
        _ => VastFileType::SystemVerilog,
    });
    let mut answers = Answers::default();
    let mut output = String::new();
    let mut is_stopped = false;
    for line in lines {
        let mut line = Line::read(line);
        line.arguments
            .iter_mut()
            .for_each(|argument| argument.resolve(&answers.values));
        if line.call.starts_with('?') {
            if !OWN.contains(&line.call.as_str()) {
                let answer = quietly(|| ask(&file, &answers, &line));
                output += &said(&line.call, &answer);
                if let (Some(name), Ok(value)) = (line.name, answer) {
                    answers.values.insert(name, value);
                }
            }
        } else if line.call.starts_with('!') {
            match quietly(|| helped(&mut file, &answers, &line)) {
                Ok((answer, text)) => {
                    answers.keep(line.name, answer);
                    output += &said(&line.call, &Ok(text));
                }
                Err(fault) => output += &said(&line.call, &Err(fault)),
            }
        } else if !is_stopped {
            match quietly(|| make(&mut file, &answers, &line)) {
                Ok(answer) => answers.keep(line.name, answer),
                Err(fault) => {
                    is_stopped = true;
                    let step = answers.items.len();
                    output += &format!("refused: step {step}: {}\n", words(&fault));
                }
            }
        }
    }
    match quietly(|| Ok(file.emit())) {
        Ok(text) => output + &text,
        Err(fault) => output + &format!("refused: {}\n", words(&fault)),
    }
}

fn said(call: &str, answer: &Result<String, Fault>) -> String {
    match answer {
        Ok(text) => format!("{call}: {text}\n"),
        Err(fault) => format!("{call}: refused: {}\n", words(fault)),
    }
}

fn words(fault: &Fault) -> String {
    match fault {
        Fault::NoAnswer => "no such answer".to_owned(),
        Fault::WrongKind => "answer of another kind".to_owned(),
        Fault::Condition => "condition not met".to_owned(),
        Fault::Refused(words) => words.clone(),
    }
}

/// What it answers; a panic is a condition that isn't met, or the words of a text that is refused.
fn quietly<T>(call: impl FnOnce() -> Result<T, Fault>) -> Result<T, Fault> {
    let hook = panic::take_hook();
    panic::set_hook(Box::new(|_| {}));
    let made = panic::catch_unwind(AssertUnwindSafe(call));
    panic::set_hook(hook);
    match made {
        Ok(answer) => answer,
        Err(payload) => match payload.downcast_ref::<String>() {
            Some(words) if is_text_refusal(words) => Err(Fault::Refused(words.clone())),
            _ => Err(Fault::Condition),
        },
    }
}

/// Whether the words are those of a text that is refused: a select of a scalar, or a width or a dialect that forbids it.
fn is_text_refusal(words: &str) -> bool {
    words.starts_with("a scalar signal")
}
