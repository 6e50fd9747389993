//! Conditions that depend on what a call is given, and what it panics with where they are not met.

use crate::calls::Call;
use crate::known::Width;
use crate::state::State;

/// Why an element of this type, or these dimensions, make no packed array.
#[cold]
pub(crate) fn packed_condition(
    state: &mut State,
    element: usize,
    dimensions: &[i64],
) -> &'static str {
    if !state.holds(Call::TypeCanBePacked, element) {
        return match state.known.widths.get(&element) {
            Some(Width::Element(_)) => "packed arrays cannot contain unpacked array elements",
            _ => "packed arrays cannot contain integer or int elements",
        };
    }
    if dimensions.is_empty() {
        "packed array requires at least one dimension"
    } else {
        "packed-array dimensions must be greater than zero"
    }
}

/// Whether these dimensions make an array.
pub(crate) fn are_dimensions(dimensions: &[i64]) -> bool {
    !dimensions.is_empty() && dimensions.iter().all(|dimension| *dimension >= 1)
}

/// Why these dimensions make no unpacked array.
#[cold]
pub(crate) fn unpacked_condition(dimensions: &[i64]) -> &'static str {
    if dimensions.is_empty() {
        "unpacked array requires at least one dimension"
    } else {
        "unpacked-array dimensions must be greater than zero"
    }
}

/// Why nothing can be cast to this type.
#[cold]
pub(crate) fn cast_condition(state: &mut State, data_type: usize) -> &'static str {
    if state.holds(Call::TypeCanBePacked, data_type) {
        "packed array types cannot be used in type casts; use a named typedef instead"
    } else {
        "unpacked array types cannot be used in type casts"
    }
}
