//! What calls print that tools refuse.

use std::fmt;

/// A form that a call prints, and which is no SystemVerilog or Verilog, or which some tool refuses.
#[derive(Clone, Debug, PartialEq, Eq)]
pub struct VastWarning {
    /// Which call of the file it is, from 1; questions and inspections are not counted.
    pub line: usize,
    /// The call as lists of calls write it, as `MakeIndex` for `make_index`.
    pub call: String,
    /// The text of the expression that shows it, where there is one; control characters are written `\u000a`.
    pub text: Option<String>,
    /// What is wrong with it.
    pub why: String,
    /// What Icarus, Verilator and Yosys do with it, in words.
    pub tools: String,
}

impl VastWarning {
    /// The warning of a line that the library tells: `12: MakeIndex: prints "(a + b)[1]": WHY (TOOLS)`.
    ///
    /// No reason has a quote before a colon, and no tools' words a parenthesis, so each part is found whatever the text is.
    pub(crate) fn read(line: &str) -> Option<VastWarning> {
        let (number, rest) = line.split_once(": ")?;
        let (call, rest) = rest.split_once(": ")?;
        let (text, rest) = match rest.strip_prefix("prints \"") {
            Some(shown) => {
                let (text, rest) = shown.rsplit_once("\": ")?;
                (Some(text.to_owned()), rest)
            }
            None => (None, rest),
        };
        let (why, tools) = rest.strip_suffix(')')?.rsplit_once(" (")?;
        Some(VastWarning {
            line: number.parse().ok()?,
            call: call.to_owned(),
            text,
            why: why.to_owned(),
            tools: tools.to_owned(),
        })
    }
}

impl fmt::Display for VastWarning {
    fn fmt(&self, formatter: &mut fmt::Formatter<'_>) -> fmt::Result {
        write!(formatter, "{}: ", self.call)?;
        if let Some(text) = &self.text {
            write!(formatter, "prints \"{text}\": ")?;
        }
        write!(formatter, "{} ({})", self.why, self.tools)
    }
}
