//! Packed calls, which are written one after another and wait to be sent.

use crate::calls::Call;

/// Bytes from which on no further call waits.
const ROOM: usize = 1 << 14;

/// The most digits of a number.
const MOST_DIGITS: usize = 10;

/// The most steps of a call that is written whole, whose length is one digit.
const MOST_STEPS: usize = 11;

/// Calls that wait, the last of which may be in the making: of each its length, its number and its arguments.
#[derive(Default)]
pub(crate) struct Calls {
    bytes: Vec<u8>,
    /// Where the last call begins.
    last: usize,
}

impl Calls {
    /// Writes the call of these steps whole, which takes less time than to write it by parts.
    #[inline]
    pub(crate) fn push<const COUNT: usize>(&mut self, call: Call, steps: [usize; COUNT]) {
        assert!(COUNT <= MOST_STEPS);
        self.bytes.reserve((2 + COUNT) * MOST_DIGITS);
        self.last = self.bytes.len();
        // SAFETY: there is room for the length, the number of the call and the steps, as many digits as each has at most.
        unsafe {
            let start = self.bytes.as_mut_ptr().add(self.last);
            let mut end = write_number(start.add(1), call as usize);
            for step in steps {
                end = write_number(end, step);
            }
            let length = end.offset_from(start) as usize;
            // Fewer than 128 bytes follow.
            start.write((length - 1) as u8);
            self.bytes.set_len(self.last + length);
        }
    }

    /// Begins a call.
    #[inline]
    pub(crate) fn begin(&mut self, call: Call) -> &mut Calls {
        self.last = self.bytes.len();
        // The length, which `end` writes.
        self.bytes.push(0);
        self.count(call as usize)
    }

    /// Ends the last call.
    #[inline]
    pub(crate) fn end(&mut self) {
        let length = self.bytes.len() - self.last - 1;
        if length < 128 {
            self.bytes[self.last] = length as u8;
        } else {
            self.end_long(length);
        }
    }

    /// The same of a call whose length is no single digit.
    #[cold]
    fn end_long(&mut self, length: usize) {
        let mut digits = Calls::default();
        digits.count(length);
        self.bytes.splice(self.last..=self.last, digits.bytes);
    }

    pub(crate) fn as_bytes(&self) -> &[u8] {
        &self.bytes
    }

    pub(crate) fn is_empty(&self) -> bool {
        self.bytes.is_empty()
    }

    /// Whether they are to be sent before another waits.
    #[inline]
    pub(crate) fn are_many(&self) -> bool {
        self.bytes.len() >= ROOM
    }

    /// Whether no call stands before the last.
    pub(crate) fn is_last_first(&self) -> bool {
        self.last == 0
    }

    /// The first so many calls, which are all ended.
    pub(crate) fn first(&self, count: usize) -> &[u8] {
        let mut left = self.as_bytes();
        for _ in 0..count {
            let length = take_number(&mut left);
            left = &left[length..];
        }
        &self.bytes[..self.bytes.len() - left.len()]
    }

    /// Lets go of so many bytes at the front, which are whole calls.
    pub(crate) fn forget_front(&mut self, length: usize) {
        self.bytes.drain(..length);
        self.last = self.last.saturating_sub(length);
    }

    pub(crate) fn forget_last(&mut self) {
        self.bytes.truncate(self.last);
    }

    pub(crate) fn clear(&mut self) {
        self.bytes.clear();
        self.last = 0;
    }

    /// The number of a step.
    #[inline]
    pub(crate) fn step(&mut self, step: usize) -> &mut Calls {
        self.count(step)
    }

    /// A number without a sign: its digits in base 128, the least first, with 128 added to all but the last.
    #[inline]
    pub(crate) fn count(&mut self, number: usize) -> &mut Calls {
        let mut left = number;
        while left >= 128 {
            self.bytes.push(left as u8 | 128);
            left /= 128;
        }
        self.bytes.push(left as u8);
        self
    }

    /// A number that may have a sign: 0, -1, 1, -2 are 0, 1, 2, 3.
    pub(crate) fn number(&mut self, number: impl Into<i64>) -> &mut Calls {
        let number = number.into();
        self.count(((number << 1) ^ (number >> 63)) as usize)
    }

    pub(crate) fn truth(&mut self, truth: bool) -> &mut Calls {
        self.count(truth.into())
    }

    #[inline]
    pub(crate) fn text(&mut self, text: &str) -> &mut Calls {
        self.count(text.len());
        self.bytes.extend_from_slice(text.as_bytes());
        self
    }

    /// A list of what `each` writes of each item.
    pub(crate) fn list<I>(
        &mut self,
        items: I,
        each: impl Fn(&mut Calls, I::Item) -> &mut Calls,
    ) -> &mut Calls
    where
        I: IntoIterator,
        I::IntoIter: ExactSizeIterator,
    {
        let items = items.into_iter();
        self.count(items.len());
        for item in items {
            each(self, item);
        }
        self
    }

    pub(crate) fn steps(&mut self, steps: &[usize]) -> &mut Calls {
        self.list(steps, |calls, step| calls.step(*step))
    }

    pub(crate) fn optional_steps(&mut self, steps: &[Option<usize>]) -> &mut Calls {
        self.list(steps, |calls, step| calls.option(*step, Calls::step))
    }

    pub(crate) fn numbers(&mut self, numbers: &[i64]) -> &mut Calls {
        self.list(numbers, |calls, number| calls.number(*number))
    }

    pub(crate) fn texts(&mut self, texts: &[&str]) -> &mut Calls {
        self.list(texts, |calls, text| calls.text(text))
    }

    /// What `write` writes of the value, or that there is none.
    pub(crate) fn option<T>(
        &mut self,
        value: Option<T>,
        write: impl FnOnce(&mut Calls, T) -> &mut Calls,
    ) -> &mut Calls {
        self.truth(value.is_some());
        match value {
            None => self,
            Some(value) => write(self, value),
        }
    }
}

/// Writes the number, and returns where it ends.
///
/// # Safety
/// There is room for ten bytes.
#[inline]
unsafe fn write_number(start: *mut u8, number: usize) -> *mut u8 {
    let mut at = start;
    let mut left = number;
    while left >= 128 {
        at.write(left as u8 | 128);
        at = at.add(1);
        left /= 128;
    }
    at.write(left as u8);
    at.add(1)
}

/// Takes a number from the front, where one stands.
pub(crate) fn take_number(bytes: &mut &[u8]) -> usize {
    let mut number = 0;
    for place in 0.. {
        let digit = take_byte(bytes);
        number |= usize::from(digit % 128) << (7 * place);
        if digit < 128 {
            break;
        }
    }
    number
}

fn take_byte(bytes: &mut &[u8]) -> u8 {
    let (first, left) = bytes.split_first().expect("a call that this crate wrote");
    *bytes = left;
    *first
}
