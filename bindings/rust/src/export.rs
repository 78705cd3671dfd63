use crate::answer::values;
use crate::{raw, Form, Refusal, Refused};

/// Exports the CLEAR REQUEST of a frame as a packet of ISO 8208 on a logical channel of 0 to 4,095:
/// five bytes, modulo 8, without address fields. CC and DC are copied; S and F are not looked at.
/// Refused with 1 (the form, or a channel over 4,095), then as [`read_frame`](crate::read_frame)
/// refuses the frame (2, 3, 13), then 24 (another packet, or user data). The position is that of
/// the read, and 0 beside 1 and 24.
///
/// ```
/// use pepperknoll::{export_clear, Form, Refusal, Refused};
///
/// let mut frame = [0x58, 0x09, 0x32, 0x41, 0x8D, 0xA2, 0x07, 0, 0, 0];
/// let packet = export_clear(Form::LongUplink, 4095, &frame)?;
/// assert_eq!(packet, [0x1F, 0xFF, 0x13, 0x8D, 0xA2]);
///
/// let refused = export_clear(Form::LongUplink, 4096, &frame).unwrap_err();
/// assert_eq!(refused, Refused { why: Refusal::OutOfRange, at: 0 });
/// frame[6] = 0x06; // LV below the header
/// let refused = export_clear(Form::LongUplink, 4095, &frame).unwrap_err();
/// assert_eq!(refused, Refused { why: Refusal::FormatError, at: 6 });
/// frame[6] = 0x08; // a byte of user data
/// let refused = export_clear(Form::LongUplink, 4095, &frame).unwrap_err();
/// assert_eq!(refused, Refused { why: Refusal::NotExported, at: 0 });
/// # Ok::<(), Refused>(())
/// ```
#[inline]
pub fn export_clear(form: Form, channel: u16, frame: &[u8]) -> Result<[u8; 5], Refused> {
    // SAFETY: the list is lent whole with its own length.
    let answer =
        unsafe { raw::pk_clear_export(form.number(), channel, frame.as_ptr(), frame.len()) };
    let values = values(answer).map_err(|why| refused(why, form, channel, frame))?;
    let [first, second, third, fourth, fifth, ..] = values.to_le_bytes();
    Ok([first, second, third, fourth, fifth])
}

/// The position is asked for here alone, so that a frame that is exported does not pay for it.
#[cold]
fn refused(why: Refusal, form: Form, channel: u16, frame: &[u8]) -> Refused {
    // SAFETY: the list is lent whole with its own length.
    let at =
        unsafe { raw::pk_clear_export_fault(form.number(), channel, frame.as_ptr(), frame.len()) };
    Refused { why, at }
}
