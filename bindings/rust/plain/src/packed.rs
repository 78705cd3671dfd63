//! Answers as the interface packs them into one number: the refusal's number in the low 8 bits, 0
//! for done, and the call's values in the bits above, which are 0 after a refusal.

use crate::message::Cut;
use crate::packet::Packet;
use crate::resequencer::Answer;
use crate::Refusal;

/// How the interface writes that no code was used before.
pub const NO_CODE: u16 = 0xFFFF;

/// The last-used code that the interface writes as this number.
pub fn last_used(last: u16) -> Option<u16> {
    (last != NO_CODE).then_some(last)
}

/// The answer of a call, of whose result `values` makes the bits above the low 8.
pub fn answer<T>(result: &Result<T, Refusal>, values: impl FnOnce(&T) -> u64) -> u64 {
    match result {
        Ok(done) => values(done) << 8,
        Err(refusal) => refusal.number().into(),
    }
}

/// An event of the resequencer: the outcome, then how many tickets left.
pub fn event(result: &Result<Answer, Refusal>) -> u64 {
    answer(result, |answer| {
        answer.outcome as u64 | u64::from(answer.count) << 8
    })
}

/// A frame read: where its user data starts, then how long it is; of a ROUTE, what follows RTL.
pub fn reading(result: &Result<(Packet, &[u8]), Refusal>) -> u64 {
    answer(result, |(packet, user)| {
        packet.header_len() as u64 | (user.len() as u64) << 8
    })
}

/// A message cut: the number of frames, then their bytes.
pub fn cutting(result: &Result<Cut, Refusal>) -> u64 {
    answer(result, |made| {
        made.frames as u64 | (made.bytes as u64) << 24
    })
}
