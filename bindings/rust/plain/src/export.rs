//! A CLEAR REQUEST as the packet of ISO 8208 that asks for the same: five bytes, sequence numbers
//! modulo 8, the two address fields left out.

use crate::frame::{self, Form};
use crate::packet::Packet;
use crate::{Fault, Refusal};

/// The bytes of an exported packet.
pub const EXPORT_BYTES: usize = 5;

/// The highest logical channel: it has 12 bits.
pub const HIGHEST_CHANNEL: u16 = 4095;

/// The general format identifier of packets whose sequence numbers count modulo 8, in the high half
/// of the first byte; the channel takes the low half and the second byte.
const MODULO_8: u8 = 1 << 4;
/// The type of a clear request.
const CLEAR_REQUEST: u8 = 0x13;

/// Exports the CLEAR REQUEST of a frame, whose S and F do not matter. Checks 1 (the form and the
/// channel), then what reading checks, then that it is one without user data (24).
#[inline]
pub fn clear(form: Form, channel: u16, frame: &[u8]) -> Result<[u8; EXPORT_BYTES], Fault> {
    form.sizes()?;
    if channel > HIGHEST_CHANNEL {
        return Err(Refusal::OutOfRange.into());
    }
    let (Packet::ClearRequest(request), []) = frame::read(form, frame)? else {
        return Err(Refusal::NotExported.into());
    };
    let [high, low] = channel.to_be_bytes();
    Ok([MODULO_8 | high, low, CLEAR_REQUEST, request.cc, request.dc])
}

/// Where reading finds the first fault of a frame that is to be exported; 0 if it is exported, and
/// for what exporting itself refuses.
#[inline]
pub fn fault(form: Form, channel: u16, frame: &[u8]) -> usize {
    clear(form, channel, frame).map_or_else(|fault| fault.at, |_| 0)
}

#[cfg(test)]
mod tests {
    use super::*;

    const LONG: Form = Form::LongUplink;
    const REQUEST: [u8; 10] = [0x58, 0x09, 0x32, 0x41, 0x8D, 0xA2, 0x07, 0, 0, 0];

    fn told(form: Form, channel: u16, frame: &[u8]) -> Result<[u8; 5], (u8, usize)> {
        let exported = clear(form, channel, frame);
        let at = exported.map_or_else(|fault| fault.at, |_| 0);
        assert_eq!(fault(form, channel, frame), at);
        exported.map_err(|fault| (fault.refusal.number(), fault.at))
    }

    #[test]
    fn the_worked_bytes() {
        let exported = told(LONG, 4095, &REQUEST);
        assert_eq!(exported, Ok([0x1F, 0xFF, 0x13, 0x8D, 0xA2]));
        let exported = told(LONG, 0, &REQUEST);
        assert_eq!(exported, Ok([0x10, 0x00, 0x13, 0x8D, 0xA2]));
        let exported = told(LONG, 0x0ABC, &REQUEST);
        assert_eq!(exported, Ok([0x1A, 0xBC, 0x13, 0x8D, 0xA2]));
    }

    #[test]
    fn s_and_f_are_not_looked_at() {
        for last in [0x07, 0x17, 0x87, 0x97] {
            let mut frame = REQUEST;
            frame[6] = last;
            let exported = told(LONG, 1, &frame);
            assert_eq!(exported, Ok([0x10, 0x01, 0x13, 0x8D, 0xA2]));
        }
    }

    #[test]
    fn every_form() {
        for number in 0..=17 {
            let form = Form::from_number(number).unwrap();
            let frame = &REQUEST[..form.sizes().unwrap().segment];
            assert_eq!(told(form, 0, frame), Ok([0x10, 0, 0x13, 0x8D, 0xA2]));
        }
    }

    /// Each refusal with all later ones beside it.
    #[test]
    fn exporting_order() {
        let none = Form::LongDownlink(17);
        assert_eq!(told(none, 0, &REQUEST), Err((1, 0)));
        assert_eq!(told(LONG, 4096, &REQUEST), Err((1, 0)));
        assert_eq!(told(LONG, u16::MAX, &REQUEST[..9]), Err((1, 0)));
        assert_eq!(told(none, 4096, &[]), Err((1, 0)));
        assert_eq!(told(LONG, 0, &[]), Err((2, 0)));
        assert_eq!(told(LONG, 0, &REQUEST[..9]), Err((2, 9)));
        let mut lv_below = REQUEST;
        lv_below[6] = 6;
        assert_eq!(told(LONG, 0, &lv_below), Err((3, 6)));
        let mut two = [REQUEST, [0; 10]].concat();
        assert_eq!(told(Form::LongDownlink(1), 0, &two), Err((13, 10)));
        two[6] = 1; // user data, none of it wrong
        assert_eq!(told(LONG, 0, &two), Err((24, 0)));
        let mut with_user = REQUEST;
        with_user[6] = 8;
        assert_eq!(told(LONG, 0, &with_user), Err((24, 0)));
    }

    #[test]
    fn no_other_kind() {
        for front in [
            [0x80, 0, 3, 0, 0],
            [0x5C, 9, 0x32, 0x41, 0],
            [0x50, 0x85, 0x12, 0x41, 5],
            [0x54, 0x05, 0x32, 0x41, 5],
            [0x60, 5, 0x37, 0, 0],
            [0x64, 5, 0x37, 0, 0],
            [0x7D, 5, 0x37, 0, 0],
            [0x74, 5, 0x33, 0, 0],
            [0x7C, 5, 0x30, 0, 0],
            [0x68, 5, 0x30, 1, 2],
            [0x6C, 5, 0x30, 0, 0],
            [0x71, 3, 0x59, 0x12, 0x40],
        ] {
            let frame = [&front[..], &[0; 5]].concat();
            assert_eq!(told(LONG, 4095, &frame), Err((24, 0)), "{frame:x?}");
        }
    }
}
