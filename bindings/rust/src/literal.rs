//! Which texts of literals are taken for certain; the library tells it of all others.

/// The most digits of a binary pattern.
const MOST_DIGITS: usize = 1_048_576;

/// Whether the text is `bits[WIDTH]:NUMBER` in decimal digits alone, of at most 64 bits and a number of at most
/// `i32::MAX` which they hold, so that each format takes it.
pub(crate) fn is_small_literal(text: &str) -> bool {
    let parts = text
        .as_bytes()
        .strip_prefix(b"bits[")
        .and_then(small_number)
        .and_then(|(width, behind)| Some((width, behind.strip_prefix(b"]:")?)))
        .and_then(|(width, behind)| Some((width, small_number(behind)?)));
    match parts {
        Some((width @ 1..=64, (number, []))) => number.checked_shr(width).unwrap_or(0) == 0,
        _ => false,
    }
}

/// The number of at most `i32::MAX` whose decimal digits stand at the front, of which the first is no 0 unless it stands
/// alone, and what stands after them.
fn small_number(text: &[u8]) -> Option<(u32, &[u8])> {
    let mut number = 0u32;
    let mut behind = text;
    while let [digit @ b'0'..=b'9', rest @ ..] = behind {
        number = number
            .checked_mul(10)?
            .checked_add(u32::from(digit - b'0'))?;
        behind = rest;
    }
    let count = text.len() - behind.len();
    let is_plain = count == 1 || (count > 1 && text[0] != b'0');
    (is_plain && i32::try_from(number).is_ok()).then_some((number, behind))
}

/// Whether the text is some digits `0`, `1` and `?`, no more than a pattern has.
pub(crate) fn is_pattern(digits: &str) -> bool {
    !digits.is_empty()
        && digits.len() <= MOST_DIGITS
        && digits
            .bytes()
            .all(|digit| matches!(digit, b'0' | b'1' | b'?'))
}
