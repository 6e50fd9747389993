//! One file in the making.

use crate::calls::Call;
use crate::error::VastError;
use crate::handles::{Def, Expr, Id, IndexableExpr};
use crate::kinds::{ModulePortDirection, VastFileType};
use crate::known::{Known, Port, Width};
use crate::packed::Calls;
use crate::session::Fault;
use crate::state::{give_up, State};
use crate::warning::VastWarning;
use std::fmt;
use std::sync::atomic::{AtomicU64, Ordering};
use std::sync::{Mutex, MutexGuard, PoisonError};

static NEXT_FILE: AtomicU64 = AtomicU64::new(1);

/// A file of Verilog or SystemVerilog, which owns all that its handles name.
///
/// Calls that nothing can refuse wait, and are made with the next call that may be refused, asks or prints, or when 16 KB of
/// them wait. What waits when the file is dropped is let go.
///
/// # Panics
/// Each call panics where a handle is another file's, and where memory is refused, to it or to one that waited.
pub struct VastFile {
    pub(crate) file_type: VastFileType,
    pub(crate) file_id: u64,
    has_lint: bool,
    state: Mutex<State>,
}

impl fmt::Debug for VastFile {
    fn fmt(&self, formatter: &mut fmt::Formatter<'_>) -> fmt::Result {
        formatter
            .debug_struct("VastFile")
            .field("file_type", &self.file_type)
            .field("file_id", &self.file_id)
            .finish_non_exhaustive()
    }
}

impl VastFile {
    /// An empty file of the dialect.
    ///
    /// # Panics
    /// Where memory is refused.
    pub fn new(file_type: VastFileType) -> VastFile {
        let state = match State::open(file_type) {
            Ok(state) => state,
            Err(fault) => panic!("a session can't be opened: {fault:?}"),
        };
        VastFile {
            file_type,
            file_id: NEXT_FILE.fetch_add(1, Ordering::Relaxed),
            has_lint: false,
            state: Mutex::new(state),
        }
    }

    /// An empty file of the dialect, which tells [`warnings`](VastFile::warnings); its calls are kept for that.
    ///
    /// # Panics
    /// Where memory is refused.
    pub fn with_lint(file_type: VastFileType) -> VastFile {
        let mut file = VastFile::new(file_type);
        file.has_lint = true;
        file.state().keep_calls();
        file
    }

    /// What the calls so far print that is no SystemVerilog or Verilog, or that Icarus, Verilator or Yosys refuses: those
    /// of the calls in order, and after them those that only the end tells, as a case without arms. The calls are made
    /// anew, on a file of their own, so it takes as long as they did.
    ///
    /// # Panics
    /// Where the file is not made by [`with_lint`](VastFile::with_lint), and where memory is refused.
    pub fn warnings(&self) -> Vec<VastWarning> {
        match self.locked().warned(self.file_type) {
            Some(Ok(told)) => told.lines().filter_map(VastWarning::read).collect(),
            Some(Err(fault)) => give_up(fault, ""),
            None => panic!("warnings are told of a file that `with_lint` makes"),
        }
    }

    /// The file's dialect.
    pub fn file_type(&self) -> VastFileType {
        self.file_type
    }

    /// The file's text.
    ///
    /// # Panics
    /// With the library's words where the file has no text, as for an index other than 0 of a scalar.
    pub fn emit(&self) -> String {
        let printed = self.locked().print();
        printed.unwrap_or_else(|fault| give_up(fault, ""))
    }

    /// The step of the handle.
    ///
    /// # Panics
    /// Where it is another file's.
    #[inline]
    pub(crate) fn own(&self, id: Id) -> usize {
        assert_eq!(
            id.file, self.file_id,
            "VAST handle belongs to a different file"
        );
        id.step
    }

    /// The step whose answer stands where something to be indexed is wanted.
    ///
    /// # Panics
    /// Where it is another file's.
    pub(crate) fn own_indexable(&self, indexable: &IndexableExpr) -> usize {
        self.own(indexable.expression);
        indexable.step
    }

    /// The steps of the handles.
    pub(crate) fn own_all(&self, expressions: &[&Expr]) -> Vec<usize> {
        expressions
            .iter()
            .map(|expression| self.own(expression.0))
            .collect()
    }

    /// The steps of the definitions' handles.
    pub(crate) fn own_definitions(&self, definitions: &[Def]) -> Vec<usize> {
        definitions
            .iter()
            .map(|definition| self.own(definition.0))
            .collect()
    }

    /// The steps of the handles that are there.
    pub(crate) fn own_any(&self, expressions: &[Option<&Expr>]) -> Vec<Option<usize>> {
        expressions
            .iter()
            .map(|expression| expression.map(|expression| self.own(expression.0)))
            .collect()
    }

    /// What a call returns for the handle, where it returns the same each time. Nothing refuses it, so it waits.
    pub(crate) fn answered(&self, call: Call, of: Id) -> Id {
        let of = self.own(of);
        let mut state = self.locked();
        if let Some(answer) = state.known.answer(call, of) {
            return self.id(answer);
        }
        let made = state.step(true, call, |calls| calls.step(of));
        let answer = made.unwrap_or_else(|fault| give_up(fault, ""));
        state.known.keep_answer(call, of, answer);
        self.id(answer)
    }

    /// Asks at once what the call returns for the handle that was made last, in the next step. A file with a lint asks where
    /// its user does, since warnings count calls.
    #[inline]
    pub(crate) fn answer_next(&mut self, call: Call, of: Id) {
        if !self.has_lint {
            self.later_of(call, [of.step]);
        }
    }

    /// What a call returns for the handle, that was asked with it ([`answer_next`](VastFile::answer_next)).
    #[inline]
    pub(crate) fn answered_next(&self, call: Call, of: Id) -> Id {
        if self.has_lint {
            return self.answered(call, of);
        }
        self.id(self.own(of) + 1)
    }

    /// Makes the call, which nothing refuses, with the arguments that `write` writes; it waits.
    #[inline]
    pub(crate) fn later(&mut self, call: Call, write: impl FnOnce(&mut Calls) -> &mut Calls) -> Id {
        self.made(true, call, "", write)
    }

    /// The same for a call whose arguments are these steps.
    #[inline]
    pub(crate) fn later_of<const COUNT: usize>(&mut self, call: Call, steps: [usize; COUNT]) -> Id {
        let step = self.state().later(call, steps);
        self.id(step)
    }

    /// Makes the call; it waits where its conditions are met for certain.
    ///
    /// # Panics
    /// At a fault, with `condition` before the library's words where a condition isn't met.
    #[inline]
    pub(crate) fn made(
        &mut self,
        is_certain: bool,
        call: Call,
        condition: &str,
        write: impl FnOnce(&mut Calls) -> &mut Calls,
    ) -> Id {
        self.made_or(is_certain, call, write, |_| condition)
    }

    /// The same, with what `condition` finds before the library's words.
    #[inline]
    pub(crate) fn made_or<'c>(
        &mut self,
        is_certain: bool,
        call: Call,
        write: impl FnOnce(&mut Calls) -> &mut Calls,
        condition: impl FnOnce(&mut State) -> &'c str,
    ) -> Id {
        let state = self.state();
        match state.step(is_certain, call, write) {
            Ok(step) => self.id(step),
            Err(fault) => give_up(fault, condition(state)),
        }
    }

    /// The same for a call that may be refused; it waits where it is not, for certain.
    ///
    /// # Errors
    /// Where the library refuses it.
    ///
    /// # Panics
    /// At any other fault.
    #[inline]
    pub(crate) fn allowed(
        &mut self,
        is_certain: bool,
        call: Call,
        write: impl FnOnce(&mut Calls) -> &mut Calls,
    ) -> Result<Id, VastError> {
        match self.state().step(is_certain, call, write) {
            Ok(step) => Ok(self.id(step)),
            Err(fault) => Err(refusal(fault, "")),
        }
    }

    /// What is known of the file beside the library.
    #[inline]
    pub(crate) fn known(&mut self) -> &mut Known {
        &mut self.state().known
    }

    /// Keeps a port for the calls that answer ports.
    pub(crate) fn keep_port(
        &mut self,
        owner: usize,
        direction: ModulePortDirection,
        data_type: usize,
        logic_ref: Id,
    ) {
        self.known().ports.push(Port {
            owner,
            direction,
            data_type,
            logic_ref: logic_ref.step,
        });
    }

    /// Keeps the width of a type for the call that answers it.
    pub(crate) fn keep_width(&mut self, data_type: Id, width: Width) {
        self.known().keep_width(data_type.step, width);
    }

    #[inline]
    pub(crate) fn id(&self, step: usize) -> Id {
        Id {
            file: self.file_id,
            step,
        }
    }

    /// The state, where the file is borrowed for writing.
    #[inline]
    pub(crate) fn state(&mut self) -> &mut State {
        self.state.get_mut().unwrap_or_else(PoisonError::into_inner)
    }

    /// The state, where the file is shared.
    pub(crate) fn locked(&self) -> MutexGuard<'_, State> {
        self.state.lock().unwrap_or_else(PoisonError::into_inner)
    }
}

/// The refusal of a call that may be refused.
///
/// # Panics
/// At any other fault, with `condition` and the library's words.
#[cold]
pub(crate) fn refusal(fault: Fault, condition: &str) -> VastError {
    match fault {
        Fault::Refused(words) => VastError(words),
        other => give_up(other, condition),
    }
}

/// Whether the word is a keyword of Verilog or SystemVerilog; letters' case counts.
///
/// # Panics
/// Where memory is refused.
pub fn is_system_verilog_keyword(identifier: &str) -> bool {
    let mut file = VastFile::new(VastFileType::SystemVerilog);
    let question = Call::IsSystemVerilogKeyword;
    match file.state().ask(question, |calls| calls.text(identifier)) {
        Ok(answer) => answer == "true",
        Err(fault) => give_up(fault, ""),
    }
}
