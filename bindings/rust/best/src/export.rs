//! A CLEAR REQUEST without user data fills no more than a segment, and all of it but its fields is
//! known: it is looked at as a whole, and read only where it is another frame.

use plain::export::{EXPORT_BYTES, HIGHEST_CHANNEL};
use plain::frame::Form;
use plain::packet::Packet;
use plain::Refusal;

use crate::frame::{self, LONG, SHORT};

/// Exports the CLEAR REQUEST of a frame.
#[inline]
pub fn clear(form: Form, channel: u16, frame: &[u8]) -> Result<[u8; EXPORT_BYTES], Refusal> {
    let number = form.number()?;
    if channel > HIGHEST_CHANNEL {
        return Err(Refusal::OutOfRange);
    }
    let codes = match (number, <&[u8; LONG]>::try_from(frame)) {
        (0, _) => <&[u8; SHORT]>::try_from(frame).ok().and_then(short_codes),
        (_, Ok(&[0x58, _, _, _, cc, dc, last, 0, 0, 0])) => codes(cc, dc, last),
        _ => None,
    };
    let Some((cc, dc)) = codes else {
        return Err(why_not_exported(form, frame));
    };
    let [high, low] = (channel | 0x1000).to_be_bytes();
    Ok([high, low, 0x13, cc, dc])
}

#[inline]
fn short_codes(&[first, _, _, _, cc, dc, last]: &[u8; SHORT]) -> Option<(u8, u8)> {
    codes(cc, dc, last).filter(|_| first == 0x58)
}

/// The codes, if LV is that of the header alone and the fill is 0; S and F do not matter.
#[inline]
fn codes(cc: u8, dc: u8, last: u8) -> Option<(u8, u8)> {
    (last & 0x6F == 7).then_some((cc, dc))
}

/// A frame that reads and comes here is another one, or has user data.
#[cold]
fn why_not_exported(form: Form, frame: &[u8]) -> Refusal {
    let read: Result<(Packet, &[u8]), Refusal> = frame::read(form, frame);
    read.err().unwrap_or(Refusal::NotExported)
}
