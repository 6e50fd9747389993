//! The library's session of a file, the calls that wait to be sent to it, and what is kept beside it.
//!
//! A call that nothing can refuse waits: its conditions are met by what its arguments' types say and by what is known here,
//! and the number of its answer is known, since answers are counted. What may be refused, asks or prints is sent at once,
//! after those that wait, so that each refusal comes from the call that is refused.

use crate::calls::Call;
use crate::kinds::VastFileType;
use crate::known::Known;
use crate::packed::Calls;
use crate::session::{warned, Fault, Session};
use crate::unpacked::lines_of;

pub(crate) struct State {
    session: Session,
    /// How many steps are made or wait, which is the number of the next.
    steps: usize,
    /// The calls that are not sent yet.
    calls: Calls,
    /// The calls that were made, of a file with a lint.
    made: Option<Vec<u8>>,
    pub(crate) known: Known,
}

impl State {
    /// That of an empty file of the dialect.
    pub(crate) fn open(dialect: VastFileType) -> Result<State, Fault> {
        Ok(State {
            session: Session::open(dialect)?,
            steps: 0,
            calls: Calls::default(),
            made: None,
            known: Known::default(),
        })
    }

    /// Keeps the calls that are made from now on, for the lint.
    pub(crate) fn keep_calls(&mut self) {
        self.made = Some(Vec::new());
    }

    /// The number of the step that the call makes whose arguments `write` writes. It waits where nothing can refuse it, which
    /// `is_certain` tells; else it is made at once.
    ///
    /// # Panics
    /// Where memory is refused to a call that waited.
    #[inline]
    pub(crate) fn step(
        &mut self,
        is_certain: bool,
        call: Call,
        write: impl FnOnce(&mut Calls) -> &mut Calls,
    ) -> Result<usize, Fault> {
        if self.calls.are_many() {
            self.flush();
        }
        write(self.calls.begin(call)).end();
        if !is_certain {
            self.send_last()?;
        }
        let step = self.steps;
        self.steps += 1;
        Ok(step)
    }

    /// The same for a call of steps that nothing refuses; it waits.
    ///
    /// # Panics
    /// Where memory is refused to a call that waited.
    #[inline]
    pub(crate) fn later<const COUNT: usize>(&mut self, call: Call, steps: [usize; COUNT]) -> usize {
        if self.calls.are_many() {
            self.flush();
        }
        self.calls.push(call, steps);
        let step = self.steps;
        self.steps += 1;
        step
    }

    /// Makes the calls that wait and the last, whose fault it returns.
    ///
    /// # Panics
    /// Where one that waited is at fault; the last is then let go.
    fn send_last(&mut self) -> Result<(), Fault> {
        let Err(fault) = self.send() else {
            return Ok(());
        };
        let is_its_own = self.calls.is_last_first();
        self.calls.forget_last();
        if is_its_own {
            return Err(fault);
        }
        give_up(fault, "")
    }

    /// Makes the calls that wait.
    ///
    /// # Panics
    /// Where memory is refused to one; it and those after it wait on.
    pub(crate) fn flush(&mut self) {
        if self.calls.is_empty() {
            return;
        }
        if let Err(fault) = self.send() {
            give_up(fault, "");
        }
    }

    /// Sends the calls; those that are made wait no more.
    fn send(&mut self) -> Result<(), Fault> {
        let sent = self.session.make(self.calls.as_bytes());
        let made = match &sent {
            Ok(()) => self.calls.as_bytes(),
            Err(stop) => self.calls.first(stop.taken),
        };
        if let Some(kept) = &mut self.made {
            kept.extend_from_slice(made);
        }
        match sent {
            Ok(()) => {
                self.calls.clear();
                Ok(())
            }
            Err(stop) => {
                let length = made.len();
                self.calls.forget_front(length);
                Err(stop.fault)
            }
        }
    }

    /// What the question answers, over the calls so far.
    ///
    /// # Panics
    /// Where memory is refused to a call that waited.
    pub(crate) fn ask(
        &mut self,
        question: Call,
        write: impl FnOnce(&mut Calls) -> &mut Calls,
    ) -> Result<String, Fault> {
        self.flush();
        write(self.calls.begin(question)).end();
        let asked = self.session.make(self.calls.as_bytes());
        self.calls.clear();
        match asked {
            Ok(()) => Ok(self.session.answer()),
            Err(stop) => Err(stop.fault),
        }
    }

    /// Whether the question of the handle is answered with `true`.
    pub(crate) fn holds(&mut self, question: Call, step: usize) -> bool {
        let answer = self.ask(question, |calls| calls.step(step));
        matches!(answer.as_deref(), Ok("true"))
    }

    /// The file's text.
    ///
    /// # Panics
    /// Where memory is refused to a call that waited.
    pub(crate) fn print(&mut self) -> Result<String, Fault> {
        self.flush();
        self.session.print()
    }

    /// What the calls so far print that tools refuse, a line for each form; `None` of a file without a lint.
    ///
    /// # Panics
    /// Where memory is refused to a call that waited.
    pub(crate) fn warned(&mut self, dialect: VastFileType) -> Option<Result<String, Fault>> {
        self.flush();
        let made = self.made.as_ref()?;
        Some(warned(dialect, lines_of(made).as_bytes()).ok_or(Fault::Memory))
    }
}

/// Panics as the call does.
#[cold]
pub(crate) fn give_up(fault: Fault, condition: &str) -> ! {
    match fault {
        Fault::Condition(words) if condition.is_empty() => panic!("{words}"),
        Fault::Condition(words) => panic!("{condition}: {words}"),
        Fault::Refused(words) => panic!("{words}"),
        Fault::Memory => panic!("out of memory"),
        Fault::Form(words) => panic!("a call of this crate's is not in the form: {words}"),
    }
}
