//! A session of the library, which is given packed calls and answers texts.
//!
//! The functions of the library are those of `bindings/c/vast.h`, which says what each does, who owns the memory, and
//! that a session may go from thread to thread while no two calls on it overlap.

use crate::kinds::VastFileType;
use std::ffi::c_void;
use std::ptr;

extern "C" {
    fn vast_open(session: *mut *mut c_void, dialect: i32) -> i32;
    fn vast_packed(
        session: *mut *mut c_void,
        calls: *const u8,
        length: usize,
        taken: *mut usize,
    ) -> i32;
    fn vast_print(session: *mut *mut c_void) -> i32;
    fn vast_text(session: *mut *mut c_void, text: i32, out: *mut u8, capacity: usize) -> usize;
    fn vast_warnings(
        dialect: i32,
        lines: *const u8,
        length: usize,
        out: *mut u8,
        capacity: usize,
        all: *mut usize,
    ) -> i32;
    fn vast_close(session: *mut *mut c_void);
}

const OK: i32 = 0;
const REFUSED: i32 = 1;
const CONDITION: i32 = 2;
const MEMORY: i32 = 4;

const VERILOG: i32 = 0;
const SYSTEM_VERILOG: i32 = 1;

const ANSWER: i32 = 0;
const WORDS: i32 = 2;
const FILE: i32 = 4;

// Texts of so many bytes, as most answers are, are copied by one call.
const SHORT: usize = 256;

/// Why a call or a printing gave nothing.
#[derive(Debug)]
pub(crate) enum Fault {
    /// The library refuses it, in these words.
    Refused(String),
    /// A condition of the call is not met, in these words.
    Condition(String),
    /// Memory was refused.
    Memory,
    /// What this crate must never meet: a call that is not in the form.
    Form(String),
}

/// The first call at fault.
pub(crate) struct Stop {
    /// How many calls before it were made.
    pub(crate) taken: usize,
    pub(crate) fault: Fault,
}

/// One file of the library's, open until it is dropped.
pub(crate) struct Session {
    // The library's memory, which it alone reads and writes, by this pointer's address.
    state: *mut c_void,
}

// SAFETY: a session may be used by any thread, one call at a time (`vast.h`, "Threads"), and each method that calls the
// library takes `&mut self`.
unsafe impl Send for Session {}

impl Session {
    /// An empty file of the dialect.
    pub(crate) fn open(dialect: VastFileType) -> Result<Session, Fault> {
        let mut session = Session {
            state: ptr::null_mut(),
        };
        // SAFETY: the pointer is null before its first use.
        let status = unsafe { vast_open(&mut session.state, number_of(dialect)) };
        session.checked(status)?;
        Ok(session)
    }

    /// Makes the packed calls up to the first at fault.
    pub(crate) fn make(&mut self, calls: &[u8]) -> Result<(), Stop> {
        let mut taken = 0;
        // SAFETY: the calls are `length` bytes that live until the call returns, and `taken` can be written.
        let status =
            unsafe { vast_packed(&mut self.state, calls.as_ptr(), calls.len(), &mut taken) };
        self.checked(status).map_err(|fault| Stop { taken, fault })
    }

    /// What the last call answered.
    pub(crate) fn answer(&mut self) -> String {
        self.text(ANSWER)
    }

    /// The file's text.
    pub(crate) fn print(&mut self) -> Result<String, Fault> {
        // SAFETY: the session is open.
        let status = unsafe { vast_print(&mut self.state) };
        self.checked(status)?;
        Ok(self.text(FILE))
    }

    fn checked(&mut self, status: i32) -> Result<(), Fault> {
        match status {
            OK => Ok(()),
            REFUSED => Err(Fault::Refused(self.text(WORDS))),
            CONDITION => Err(Fault::Condition(self.text(WORDS))),
            MEMORY => Err(Fault::Memory),
            _ => Err(Fault::Form(self.text(WORDS))),
        }
    }

    fn text(&mut self, which: i32) -> String {
        whole_text(|out, capacity| {
            // SAFETY: `out` has room for as many bytes as are told.
            unsafe { vast_text(&mut self.state, which, out, capacity) }
        })
    }
}

/// The text whose start `copy` writes, as much as the room of so many bytes holds, and whose whole length it returns.
fn whole_text(mut copy: impl FnMut(*mut u8, usize) -> usize) -> String {
    let mut bytes = Vec::with_capacity(SHORT);
    let mut length = copy(bytes.as_mut_ptr(), bytes.capacity());
    if length > bytes.capacity() {
        bytes.reserve_exact(length);
        length = copy(bytes.as_mut_ptr(), bytes.capacity());
    }
    // SAFETY: so many bytes were written, as far as there is room.
    unsafe { bytes.set_len(length.min(bytes.capacity())) };
    String::from_utf8(bytes)
        .unwrap_or_else(|error| String::from_utf8_lossy(error.as_bytes()).into_owned())
}

fn number_of(dialect: VastFileType) -> i32 {
    match dialect {
        VastFileType::Verilog => VERILOG,
        VastFileType::SystemVerilog => SYSTEM_VERILOG,
    }
}

/// What a list of these lines prints that tools refuse, a line for each form; `None` where memory is refused.
pub(crate) fn warned(dialect: VastFileType, lines: &[u8]) -> Option<String> {
    let mut status = OK;
    let told = whole_text(|out, capacity| {
        let mut all = 0;
        // SAFETY: the lines and `out` are as many bytes as are told, which live until the call returns, and `all` can be
        // written.
        status = unsafe {
            vast_warnings(
                number_of(dialect),
                lines.as_ptr(),
                lines.len(),
                out,
                capacity,
                &mut all,
            )
        };
        all
    });
    (status == OK).then_some(told)
}

impl Drop for Session {
    fn drop(&mut self) {
        // SAFETY: it frees what `vast_open` took, once, since it makes the pointer null.
        unsafe { vast_close(&mut self.state) }
    }
}
