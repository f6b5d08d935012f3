//! What the tests ask and say, in one place.

use bib_syntax::raw::ParseError;
use std::alloc::AllocError;
use std::process::Abort;

// Whether a call gave the right value, or its refusal.
pub(crate) type Answer = Result<bool, AllocError>;

// Whether a call gave the right value, or its error.
pub(crate) type Reading = Result<bool, ParseError>;

// Each of these calls, named beside it, gave the right value.
pub(crate) fn are_right(rt: &impl Abort, calls: &[(&str, Answer)]) {
    for (call, answer) in calls {
        assert!(rt; matches!(answer, Ok(true)), "{call}");
    }
}

// Each of these readings, with the call's name beside it, gave the right value.
pub(crate) fn are_read(rt: &impl Abort, calls: &[(&str, Reading)]) {
    for (call, answer) in calls {
        assert!(rt; matches!(answer, Ok(true)), "{call}");
    }
}

// The text that was found is the wanted one.
pub(crate) fn agrees(rt: &impl Abort, found: &str, want: &str) {
    assert!(rt; found == want, "{found:?}, and not {want:?}");
}
