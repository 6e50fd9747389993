//! What this crate keeps of a file beside the library: handles of ports and widths as expressions, which no call answers;
//! what calls return that return the same each time; and what tells that a call won't be refused, so that it may wait.

use crate::calls::Call;
use crate::kinds::ModulePortDirection;
use crate::mixer::Mixing;
use std::collections::{HashMap, HashSet};
use std::hash::{Hash, Hasher};

/// A port of a module; types and names by the steps that answered them.
pub(crate) struct Port {
    pub(crate) owner: usize,
    pub(crate) direction: ModulePortDirection,
    pub(crate) data_type: usize,
    pub(crate) logic_ref: usize,
}

/// What the width of a type is.
#[derive(Clone, Copy)]
pub(crate) enum Width {
    /// That of its element, a type.
    Element(usize),
    /// A number of bits.
    Bits(i64),
    /// An expression.
    Expression(usize),
}

/// A call of a handle, by its step, which returns the same each time.
#[derive(PartialEq, Eq)]
struct Asked {
    of: usize,
    call: Call,
}

impl Hash for Asked {
    fn hash<H: Hasher>(&self, state: &mut H) {
        // Few handles are asked by two calls.
        self.of.hash(state);
    }
}

#[derive(Default)]
pub(crate) struct Known {
    /// All ports of the file, in the order of their calls.
    pub(crate) ports: Vec<Port>,
    /// The types that have a width of their own or their element's.
    pub(crate) widths: HashMap<usize, Width, Mixing>,
    /// What such a call returned, by its step.
    answers: HashMap<Asked, usize, Mixing>,
    /// The conditionals that have their `else`.
    with_else: HashSet<usize, Mixing>,
}

impl Known {
    /// Keeps the width of a type; of one bit there is no vector.
    pub(crate) fn keep_width(&mut self, data_type: usize, width: Width) {
        if !matches!(width, Width::Bits(1)) {
            self.widths.insert(data_type, width);
        }
    }

    pub(crate) fn is_array(&self, data_type: usize) -> bool {
        matches!(self.widths.get(&data_type), Some(Width::Element(_)))
    }

    pub(crate) fn answer(&self, call: Call, of: usize) -> Option<usize> {
        self.answers.get(&Asked { of, call }).copied()
    }

    pub(crate) fn keep_answer(&mut self, call: Call, of: usize, answer: usize) {
        self.answers.insert(Asked { of, call }, answer);
    }

    /// Keeps that the conditional has its `else`.
    pub(crate) fn keep_else(&mut self, conditional: usize) {
        self.with_else.insert(conditional);
    }

    pub(crate) fn has_else(&self, conditional: usize) -> bool {
        self.with_else.contains(&conditional)
    }

    /// The places of the module's ports.
    pub(crate) fn ports_of(&self, owner: usize) -> impl Iterator<Item = usize> + '_ {
        self.ports
            .iter()
            .enumerate()
            .filter(move |(_, port)| port.owner == owner)
            .map(|(place, _)| place)
    }
}
