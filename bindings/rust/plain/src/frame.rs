//! Frames: one packet each, padded to whole segments.

use crate::header::{
    Headed, Way, CALL_ACCEPT, CALL_REQUEST, CLEAR_CONFIRMATION, CLEAR_REQUEST, DATA, FRONT,
    INTERRUPT, INTERRUPT_CONFIRMATION, RECEIVE_NOT_READY, RECEIVE_READY, REJECT, RESET,
    RESET_CONFIRMATION, ROUTE, ROUTE_LAST,
};
use crate::packet::{
    CallAccept, CallRequest, ClearConfirmation, ClearRequest, Confirmation, Data, Interrupt,
    Packet, Receipt, Reset,
};
use crate::route_packet;
use crate::{Fault, Refusal};

/// The form of a frame.
#[derive(Clone, Copy, Debug, PartialEq, Eq)]
pub enum Form {
    /// Read and joined, no longer written or cut.
    ShortUplink,
    LongUplink,
    /// With its number of segments, 1 to 16.
    LongDownlink(u8),
}

/// The sizes that a form sets, in bytes.
#[derive(Clone, Copy, Debug, PartialEq, Eq)]
pub struct Sizes {
    pub segment: usize,
    /// The largest packet.
    pub largest: usize,
}

impl Form {
    /// The form that the interface writes as this number; one that is none is refused.
    pub fn from_number(number: u8) -> Result<Self, Refusal> {
        match number {
            0 => Ok(Form::ShortUplink),
            segments @ 1..=16 => Ok(Form::LongDownlink(segments)),
            17 => Ok(Form::LongUplink),
            _ => Err(Refusal::OutOfRange),
        }
    }

    #[inline]
    pub fn sizes(self) -> Result<Sizes, Refusal> {
        let (segment, largest) = match self {
            Form::ShortUplink => (7, 28),
            Form::LongUplink => (10, 152),
            Form::LongDownlink(segments @ 1..=16) => (10, 10 * usize::from(segments)),
            Form::LongDownlink(_) => return Err(Refusal::OutOfRange),
        };
        Ok(Sizes { segment, largest })
    }

    #[inline]
    pub(crate) fn way(self) -> Way {
        match self {
            Form::ShortUplink | Form::LongUplink => Way::Up,
            Form::LongDownlink(_) => Way::Down,
        }
    }

    /// Refuses the form that is read, but no longer written.
    #[inline]
    pub(crate) fn still_written(self) -> Result<(), Refusal> {
        match self {
            Form::ShortUplink => Err(Refusal::ShortForm),
            Form::LongUplink | Form::LongDownlink(_) => Ok(()),
        }
    }
}

/// Writes a packet and its user data as one frame to the front of `out`; answers its length. Checks
/// 1, then the short form (23), then 13 and 5. A ROUTE is not written so: 1.
#[inline]
pub fn write(form: Form, packet: &Packet, user: &[u8], out: &mut [u8]) -> Result<usize, Refusal> {
    let sizes = in_range(form, packet, user)?;
    form.still_written()?;
    put(form.way(), sizes, packet, user, out)
}

/// The frame by the layout, for every form; the writer refuses the short one. Checks 1, 13, 5.
///
/// Frames of the short form are still read, so good ones are needed wherever reading is tried.
#[inline]
pub fn lay_out(form: Form, packet: &Packet, user: &[u8], out: &mut [u8]) -> Result<usize, Refusal> {
    let sizes = in_range(form, packet, user)?;
    put(form.way(), sizes, packet, user, out)
}

/// All that is refused with 1; answers the sizes of the form.
#[inline]
fn in_range(form: Form, packet: &Packet, user: &[u8]) -> Result<Sizes, Refusal> {
    let sizes = form.sizes()?;
    if !packet.fits(form.way()) || !(packet.has_user() || user.is_empty()) {
        return Err(Refusal::OutOfRange);
    }
    Ok(sizes)
}

/// Puts a packet that is in range to the front of `out`, as a frame with segments of this size.
#[inline(always)] // into each of the two callers: writing has one size of segments only
fn put(
    way: Way,
    sizes: Sizes,
    packet: &Packet,
    user: &[u8],
    out: &mut [u8],
) -> Result<usize, Refusal> {
    let header = packet.header_len();
    let length = header + user.len();
    if length > sizes.largest {
        return Err(Refusal::PacketTooLong);
    }
    let segments = length.div_ceil(sizes.segment);
    let frame = out
        .get_mut(..segments * sizes.segment)
        .ok_or(Refusal::OutputTooShort)?;
    let lv = length - (segments - 1) * sizes.segment;
    packet.put_header(way, lv as u8, frame);
    frame[header..length].copy_from_slice(user);
    frame[length..].fill(0);
    Ok(frame.len())
}

/// Reads a frame: the packet, and its user data where it stands in the frame; of a ROUTE all that
/// follows RTL. Checks 1, 2, 3, 13.
///
/// The position of a fault is the frame's length for 2, the first wrong byte for 3, and the form's
/// largest size for 13.
#[inline(always)] // into every caller, those that ask for the position alone too
pub fn read(form: Form, frame: &[u8]) -> Result<(Packet, &[u8]), Fault> {
    let sizes = form.sizes()?;
    let (Some(front), 0) = (frame.first_chunk::<FRONT>(), frame.len() % sizes.segment) else {
        return Err(Refusal::Malformed.at(frame.len()));
    };
    let (way, whole) = (form.way(), Whole { sizes, frame });
    match front[0] {
        DATA.. => whole.with_user(Packet::Data, Ok(Data::read(front))),
        INTERRUPT => whole.with_user(Packet::Interrupt, Ok(Interrupt::read(front))),
        CLEAR_REQUEST => whole.with_user(Packet::ClearRequest, ClearRequest::read(front)),
        CALL_REQUEST => whole.with_user(Packet::CallRequest, CallRequest::read(way, front)),
        CALL_ACCEPT => whole.with_user(Packet::CallAccept, CallAccept::read(way, front)),
        CLEAR_CONFIRMATION => whole.alone(
            Packet::ClearConfirmation,
            Ok(ClearConfirmation::read(front)),
        ),
        RECEIVE_READY => whole.alone(Packet::ReceiveReady, Receipt::read(front)),
        RECEIVE_NOT_READY => whole.alone(Packet::ReceiveNotReady, Receipt::read(front)),
        REJECT => whole.alone(Packet::Reject, Receipt::read(front)),
        INTERRUPT_CONFIRMATION => {
            whole.alone(Packet::InterruptConfirmation, Confirmation::read(front))
        }
        RESET => whole.alone(Packet::Reset, Reset::read(front)),
        RESET_CONFIRMATION => whole.alone(Packet::ResetConfirmation, Confirmation::read(front)),
        ROUTE..=ROUTE_LAST => route_packet::read(sizes, frame),
        _ => Err(Refusal::FormatError.at(0)),
    }
}

/// A frame in whole segments.
struct Whole<'a> {
    sizes: Sizes,
    frame: &'a [u8],
}

/// Each takes what the header says, or its first byte that is wrong, which is told before all that
/// comes after the header.
impl<'a> Whole<'a> {
    /// A packet whose header ends with LV, and its user data.
    #[inline]
    fn with_user<T: Headed>(
        &self,
        packet: fn(T) -> Packet,
        read: Result<T, usize>,
    ) -> Result<(Packet, &'a [u8]), Fault> {
        let read = read.map_err(|at| Refusal::FormatError.at(at))?;
        let user = user_data(self.sizes, self.frame, T::HEADER)?;
        Ok((packet(read), user))
    }

    /// A packet that ends with its header, in one segment.
    #[inline]
    fn alone<T: Headed>(
        &self,
        packet: fn(T) -> Packet,
        read: Result<T, usize>,
    ) -> Result<(Packet, &'a [u8]), Fault> {
        let read = read.map_err(|at| Refusal::FormatError.at(at))?;
        check_end(self.frame, T::HEADER, self.sizes.segment)?;
        Ok((packet(read), &self.frame[T::HEADER..T::HEADER]))
    }
}

/// Where reading finds the first fault of a frame; 0 if the frame reads.
#[inline]
pub fn fault(form: Form, frame: &[u8]) -> usize {
    read(form, frame).map_or_else(|fault| fault.at, |_| 0)
}

/// Checks what comes after a packet of this length that has no LV: its segments are the fewest and
/// end here, with padding to their end. The first byte past them is wrong whatever it holds, and
/// padding comes before it.
#[inline]
pub(crate) fn check_end(frame: &[u8], length: usize, segments_end: usize) -> Result<(), Fault> {
    let at = end_of_zeros(&frame[..segments_end], length);
    if at < frame.len() {
        return Err(Refusal::FormatError.at(at));
    }
    Ok(())
}

/// The user data of a frame whose header ends with LV; checks LV and padding (3), then the
/// packet's size (13). Where LV is wrong no byte can be told to be padding.
#[inline]
fn user_data(sizes: Sizes, frame: &[u8], header: usize) -> Result<&[u8], Fault> {
    let lv = usize::from(frame[header - 1] & 0x0F);
    let length = frame.len() - sizes.segment + lv;
    if lv == 0 || lv > sizes.segment || length < header {
        return Err(Refusal::FormatError.at(header - 1));
    }
    let at = end_of_zeros(frame, length);
    if at < frame.len() {
        return Err(Refusal::FormatError.at(at));
    }
    if length > sizes.largest {
        return Err(Refusal::PacketTooLong.at(sizes.largest));
    }
    Ok(&frame[header..length])
}

/// The first byte from here on that is not 0, or the end of all.
#[inline]
fn end_of_zeros(bytes: &[u8], start: usize) -> usize {
    let mut at = start;
    while at < bytes.len() && bytes[at] == 0 {
        at += 1;
    }
    at
}

#[cfg(test)]
mod tests {
    use super::*;

    const NO_DATA: Packet = Packet::Data(Data {
        m: false,
        sn: 0,
        ps: 0,
        pr: 0,
        ch: 0,
    });
    const CONFIRMATION: Packet = Packet::ClearConfirmation(ClearConfirmation {
        tc: 0,
        sn: 9,
        ch: 3,
        am: 2,
        ag: 0x41,
    });
    const LONG: Form = Form::LongUplink;

    /// A frame that begins so and goes on with zeros.
    fn zeros_after(front: &[u8], length: usize) -> Vec<u8> {
        let mut frame = vec![0; length];
        frame[..front.len()].copy_from_slice(front);
        frame
    }

    #[test]
    fn lv_of_a_full_segment_is_its_size() {
        let mut out = [0xEE; 20];
        assert_eq!(write(LONG, &NO_DATA, &[1; 7], &mut out), Ok(10));
        assert_eq!(out[2], 0x0A);
        assert_eq!(out[10..], [0xEE; 10]);
        assert_eq!(write(LONG, &NO_DATA, &[1; 8], &mut out), Ok(20));
        assert_eq!((out[2], &out[11..]), (1, &[0; 9][..]));
        assert_eq!(
            lay_out(Form::ShortUplink, &NO_DATA, &[1; 4], &mut out),
            Ok(7)
        );
        assert_eq!(out[2], 7);
    }

    #[test]
    fn the_largest_long_uplink_packet_fills_160_bytes_in_part() {
        let mut out = [0xEE; 160];
        assert_eq!(write(LONG, &NO_DATA, &[7; 149], &mut out), Ok(160));
        assert_eq!(read(LONG, &out), Ok((NO_DATA, &[7; 149][..])));
        for lv in 3..=10 {
            let frame = zeros_after(&[0x80, 0, lv], 160);
            assert_eq!(read(LONG, &frame), Err(Refusal::PacketTooLong.at(152)));
        }
        assert_eq!(
            write(LONG, &NO_DATA, &[7; 150], &mut out),
            Err(Refusal::PacketTooLong)
        );
    }

    #[test]
    fn too_long_comes_after_padding() {
        let form = Form::LongDownlink(1);
        let mut frame = zeros_after(&[0x80, 0, 3], 20);
        assert_eq!(read(form, &frame), Err(Refusal::PacketTooLong.at(10)));
        frame[19] = 1;
        assert_eq!(read(form, &frame), Err(Refusal::FormatError.at(19)));
    }

    #[test]
    fn writing_order() {
        let wide = Packet::Data(Data {
            m: false,
            sn: 64,
            ps: 0,
            pr: 0,
            ch: 0,
        });
        assert_eq!(
            write(LONG, &wide, &[0; 200], &mut []),
            Err(Refusal::OutOfRange)
        );
        assert_eq!(
            write(LONG, &NO_DATA, &[0; 200], &mut []),
            Err(Refusal::PacketTooLong)
        );
        let mut out = [0xEE; 9];
        assert_eq!(
            write(LONG, &NO_DATA, &[], &mut out),
            Err(Refusal::OutputTooShort)
        );
        assert_eq!(out, [0xEE; 9]);
        assert_eq!(
            write(LONG, &CONFIRMATION, &[1], &mut out),
            Err(Refusal::OutOfRange)
        );
    }

    #[test]
    fn reading_order() {
        let none = Form::LongDownlink(17);
        assert_eq!(read(none, &[]), Err(Refusal::OutOfRange.at(0)));
        assert_eq!(read(LONG, &[]), Err(Refusal::Malformed.at(0)));
        assert_eq!(read(LONG, &[0xFF; 11]), Err(Refusal::Malformed.at(11)));
        assert_eq!(read(LONG, &[0x00; 10]), Err(Refusal::FormatError.at(0)));
    }

    #[test]
    fn lv_below_the_header_counts_with_one_segment_only() {
        assert_eq!(
            read(LONG, &zeros_after(&[0x80, 0, 2], 10)),
            Err(Refusal::FormatError.at(2))
        );
        let two = zeros_after(&[0x80, 0, 2], 20);
        assert_eq!(read(LONG, &two), Ok((NO_DATA, &[0; 9][..])));
        let short = zeros_after(&[0x80, 0, 8], 14);
        assert_eq!(
            read(Form::ShortUplink, &short),
            Err(Refusal::FormatError.at(2))
        );
    }

    #[test]
    fn a_confirmation_has_one_segment() {
        let frame = zeros_after(&[0x5C, 9, 0x32, 0x41], 20);
        assert_eq!(read(LONG, &frame), Err(Refusal::FormatError.at(10)));
        assert_eq!(read(LONG, &frame[..10]), Ok((CONFIRMATION, &[][..])));
        for at in 4..10 {
            let mut frame = frame[..10].to_vec();
            frame[at] = 1;
            assert_eq!(read(LONG, &frame), Err(Refusal::FormatError.at(at)));
        }
    }

    #[test]
    fn numbers_of_forms() {
        assert_eq!(Form::from_number(0), Ok(Form::ShortUplink));
        assert_eq!(Form::from_number(17), Ok(LONG));
        for number in 1..=16 {
            assert_eq!(Form::from_number(number), Ok(Form::LongDownlink(number)));
        }
        for number in 18..=255 {
            assert_eq!(Form::from_number(number), Err(Refusal::OutOfRange));
        }
    }
}
