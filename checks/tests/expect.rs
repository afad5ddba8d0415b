//! Rattle, not Rust: checks/unproved compiles it without a proof, checks/try-tests runs it, and rt doesn't read it.
//! What a test expects.
use std::fmt::Debug;
use std::test::Fail;

/// Fails unless the value that was found is the one that is wanted.
pub(crate) fn expect_same<T: PartialEq + Debug>(found: &T, wanted: &T) -> Result<(), Fail> {
    if found == wanted {
        Ok(())
    } else {
        Err(Fail::new(format_args!("{found:?} in the place of {wanted:?}")))
    }
}
