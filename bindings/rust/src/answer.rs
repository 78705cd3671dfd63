//! An answer is one number: its low 8 bits the refusal number, the values above.

use crate::Refusal;

/// The values of an answer, shifted down; or its refusal.
#[inline]
pub(crate) fn values(answer: u64) -> Result<u64, Refusal> {
    match answer as u8 {
        0 => Ok(answer >> 8),
        number => Err(Refusal::from_number(number).unwrap_or_else(|| unknown(answer))),
    }
}

/// The library keeps to its header, so this is not reached; it is no reason to go on either.
#[cold]
pub(crate) fn unknown(answer: u64) -> ! {
    panic!("the library answered {answer:#x}, which its header does not name")
}
