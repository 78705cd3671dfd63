//! Frames, with the segment's size known when this is compiled. Only frames with long segments are
//! written.

use plain::frame::Form;
use plain::packet::{
    CallAccept, CallRequest, ClearConfirmation, ClearRequest, Confirmation, Data, Interrupt,
    Packet, Receipt, Reset, Route,
};
use plain::Refusal;

pub(crate) const SHORT: usize = 7;
pub(crate) const LONG: usize = 10;
pub(crate) const SHORT_LARGEST: usize = 28;
pub(crate) const UPLINK_LARGEST: usize = 152;

const CALL_REQUEST: u8 = 0x50;
const CALL_ACCEPT: u8 = 0x54;
const CLEAR_REQUEST: u8 = 0x58;
const CLEAR_CONFIRMATION: u8 = 0x5C;
const RECEIVE_READY: u8 = 0x60;
const RECEIVE_NOT_READY: u8 = 0x64;
const RESET: u8 = 0x68;
const RESET_CONFIRMATION: u8 = 0x6C;
const ROUTE: u8 = 0x70;
const ROUTE_LAST: u8 = 0x73;
const INTERRUPT: u8 = 0x74;
const INTERRUPT_CONFIRMATION: u8 = 0x7C;
const REJECT: u8 = 0x7D;

/// The largest packet of a form with long segments; none for the one with short ones.
#[inline]
pub(crate) fn long_largest(form: Form) -> Result<Option<usize>, Refusal> {
    match form {
        Form::ShortUplink => Ok(None),
        Form::LongUplink => Ok(Some(UPLINK_LARGEST)),
        Form::LongDownlink(segments @ 1..=16) => Ok(Some(10 * usize::from(segments))),
        Form::LongDownlink(_) => Err(Refusal::OutOfRange),
    }
}

/// The largest packet of a form that is written, or why it is not: 1 and 23 are both the form's, so
/// that one look at it finds either, once all else that is refused with 1 has been looked at.
#[inline]
pub(crate) fn written_largest(form: Form) -> Result<usize, Refusal> {
    long_largest(form)?.ok_or(Refusal::ShortForm)
}

/// Whether a form is an uplink one, by its largest packet: in a downlink form that is a multiple of
/// ten. The two CALL packets have a layout for each direction.
#[inline]
fn is_uplink(largest: usize) -> bool {
    largest == UPLINK_LARGEST || largest == SHORT_LARGEST
}

/// Writes a packet and its user data as one frame to the front of `out`; answers its length.
#[inline]
pub fn write(form: Form, packet: &Packet, user: &[u8], out: &mut [u8]) -> Result<usize, Refusal> {
    let uplink = !matches!(form, Form::LongDownlink(_));
    match packet {
        Packet::Data(packet) => put_with(data(packet)?, form, user, out),
        Packet::ClearRequest(packet) => put_with(clear_request(packet)?, form, user, out),
        Packet::CallRequest(packet) => put_with(call_request(packet, uplink)?, form, user, out),
        Packet::CallAccept(packet) => put_with(call_accept(packet, uplink)?, form, user, out),
        Packet::Interrupt(packet) => put_with(interrupt(packet)?, form, user, out),
        Packet::ClearConfirmation(packet) => {
            put_alone(clear_confirmation(packet)?, form, user, out)
        }
        Packet::ReceiveReady(packet) => put_alone(receipt(RECEIVE_READY, packet)?, form, user, out),
        Packet::ReceiveNotReady(packet) => {
            put_alone(receipt(RECEIVE_NOT_READY, packet)?, form, user, out)
        }
        Packet::Reject(packet) => put_alone(receipt(REJECT, packet)?, form, user, out),
        Packet::InterruptConfirmation(packet) => put_alone(
            confirmation(INTERRUPT_CONFIRMATION, packet)?,
            form,
            user,
            out,
        ),
        Packet::Reset(packet) => put_alone(reset(packet)?, form, user, out),
        Packet::ResetConfirmation(packet) => {
            put_alone(confirmation(RESET_CONFIRMATION, packet)?, form, user, out)
        }
        Packet::Route(_) => Err(Refusal::OutOfRange),
    }
}

/// The header without LV, or the refusal of a value that does not fit.
#[inline]
fn data(packet: &Data) -> Result<[u8; 3], Refusal> {
    let Data { m, sn, ps, pr, ch } = *packet;
    if sn > 63 || ps | pr | ch > 15 {
        return Err(Refusal::OutOfRange);
    }
    Ok([0x80 | u8::from(m) << 6 | sn, ps << 4 | pr, ch << 4])
}

#[inline]
fn clear_request(packet: &ClearRequest) -> Result<[u8; 7], Refusal> {
    let [tc, sn, ch, am] = [packet.tc, packet.sn, packet.ch, packet.am];
    if tc > 3 || sn > 63 || ch | am > 15 {
        return Err(Refusal::OutOfRange);
    }
    let flags = u8::from(packet.s) << 7 | u8::from(packet.f) << 4;
    let [ag, cc, dc] = [packet.ag, packet.cc, packet.dc];
    Ok([CLEAR_REQUEST, tc << 6 | sn, ch << 4 | am, ag, cc, dc, flags])
}

#[inline]
fn call_request(packet: &CallRequest, uplink: bool) -> Result<[u8; 5], Refusal> {
    let [tc, ch, am] = [packet.tc, packet.ch, packet.am];
    let (none, channel, most) = if uplink { (ch, tc, 3) } else { (tc, ch, 15) };
    if none != 0 || channel > most || packet.sn > 63 || am > 15 || packet.fs > 3 {
        return Err(Refusal::OutOfRange);
    }
    let flags = u8::from(packet.s) << 7 | packet.fs << 5 | u8::from(packet.f) << 4;
    let second = u8::from(packet.p) << 7 | packet.sn;
    Ok([CALL_REQUEST, second, channel << 4 | am, packet.ag, flags])
}

#[inline]
fn call_accept(packet: &CallAccept, uplink: bool) -> Result<[u8; 5], Refusal> {
    let [tc, sn, ch, am] = [packet.tc, packet.sn, packet.ch, packet.am];
    let most = if uplink { 0 } else { 3 };
    if tc > most || sn > 63 || ch | am > 15 {
        return Err(Refusal::OutOfRange);
    }
    let flags = u8::from(packet.s) << 7 | u8::from(packet.f) << 4;
    Ok([CALL_ACCEPT, tc << 6 | sn, ch << 4 | am, packet.ag, flags])
}

#[inline]
fn interrupt(packet: &Interrupt) -> Result<[u8; 3], Refusal> {
    let Interrupt { s, f, sn, ch } = *packet;
    if sn > 63 || ch > 15 {
        return Err(Refusal::OutOfRange);
    }
    let second = u8::from(s) << 7 | u8::from(f) << 6 | sn;
    Ok([INTERRUPT, second, ch << 4])
}

#[inline]
fn clear_confirmation(packet: &ClearConfirmation) -> Result<[u8; 5], Refusal> {
    let ClearConfirmation { tc, sn, ch, am, ag } = *packet;
    if tc > 3 || sn > 63 || ch | am > 15 {
        return Err(Refusal::OutOfRange);
    }
    Ok([CLEAR_CONFIRMATION, tc << 6 | sn, ch << 4 | am, ag, 0])
}

#[inline]
fn receipt(first: u8, packet: &Receipt) -> Result<[u8; 5], Refusal> {
    let Receipt { sn, ch, pr } = *packet;
    if sn > 63 || ch | pr > 15 {
        return Err(Refusal::OutOfRange);
    }
    Ok([first, sn, ch << 4 | pr, 0, 0])
}

#[inline]
fn confirmation(first: u8, packet: &Confirmation) -> Result<[u8; 5], Refusal> {
    let Confirmation { sn, ch } = *packet;
    if sn > 63 || ch > 15 {
        return Err(Refusal::OutOfRange);
    }
    Ok([first, sn, ch << 4, 0, 0])
}

#[inline]
fn reset(packet: &Reset) -> Result<[u8; 5], Refusal> {
    let Reset { sn, ch, rc, dc } = *packet;
    if sn > 63 || ch > 15 {
        return Err(Refusal::OutOfRange);
    }
    Ok([RESET, sn, ch << 4, rc, dc])
}

#[inline]
fn put_with<const HEADER: usize>(
    header: [u8; HEADER],
    form: Form,
    user: &[u8],
    out: &mut [u8],
) -> Result<usize, Refusal> {
    put(header, written_largest(form)?, user, out)
}

/// Puts a header that ends with LV, user data and padding.
#[inline]
pub(crate) fn put<const HEADER: usize>(
    mut header: [u8; HEADER],
    largest: usize,
    user: &[u8],
    out: &mut [u8],
) -> Result<usize, Refusal> {
    let length = HEADER + user.len();
    if length > largest {
        return Err(Refusal::PacketTooLong);
    }
    // At most 160 bytes, so the division is a short one.
    let segments = (length as u32).div_ceil(LONG as u32);
    let end = segments as usize * LONG;
    let frame = out.get_mut(..end).ok_or(Refusal::OutputTooShort)?;
    // The last segment is cleared whole, before anything is put: a store of fixed size.
    if let Some(last) = frame.last_chunk_mut::<LONG>() {
        *last = [0; LONG];
    }
    header[HEADER - 1] |= (length + LONG - end) as u8;
    frame[..HEADER].copy_from_slice(&header);
    frame[HEADER..length].copy_from_slice(user);
    Ok(end)
}

/// Puts a packet without user data, which fills one segment of every form; zeros follow it.
#[inline]
fn put_alone(front: [u8; 5], form: Form, user: &[u8], out: &mut [u8]) -> Result<usize, Refusal> {
    if !user.is_empty() {
        return Err(Refusal::OutOfRange);
    }
    written_largest(form)?;
    let frame = out.first_chunk_mut().ok_or(Refusal::OutputTooShort)?;
    let [b0, b1, b2, b3, b4] = front;
    *frame = [b0, b1, b2, b3, b4, 0, 0, 0, 0, 0];
    Ok(LONG)
}

/// Writes a ROUTE with its table and with optional data or without; answers the frame's length.
#[inline]
pub fn write_route(
    form: Form,
    init: bool,
    table: &[u8],
    data: Option<&[u8]>,
    out: &mut [u8],
) -> Result<usize, Refusal> {
    let largest = written_largest(form)?;
    let table_end = 2 + table.len();
    let length = table_end + data.map_or(0, |data| 1 + data.len());
    if length > largest {
        return Err(Refusal::PacketTooLong);
    }
    let end = (length as u32).div_ceil(LONG as u32) as usize * LONG;
    let frame = out.get_mut(..end).ok_or(Refusal::OutputTooShort)?;
    if let Some(last) = frame.last_chunk_mut::<LONG>() {
        *last = [0; LONG];
    }
    frame[0] = ROUTE | u8::from(data.is_some()) << 1 | u8::from(init);
    frame[1] = table.len() as u8;
    frame[2..table_end].copy_from_slice(table);
    if let Some(data) = data {
        frame[table_end] = data.len() as u8;
        frame[table_end + 1..length].copy_from_slice(data);
    }
    Ok(end)
}

/// Reads a frame: the packet, and its user data where it stands in the frame.
#[inline]
pub fn read(form: Form, frame: &[u8]) -> Result<(Packet, &[u8]), Refusal> {
    match long_largest(form)? {
        Some(largest) => read_in::<LONG>(largest, frame),
        None => read_in::<SHORT>(SHORT_LARGEST, frame),
    }
}

/// The first bytes of a frame: they hold every header.
type Front = [u8; 7];

#[inline(always)] // into every caller, that which asks for the position too
pub(crate) fn read_in<const SEGMENT: usize>(
    largest: usize,
    frame: &[u8],
) -> Result<(Packet, &[u8]), Refusal> {
    let (Some(front), Some(last)) = (frame.first_chunk::<7>(), frame.last_chunk::<SEGMENT>())
    else {
        return Err(Refusal::Malformed);
    };
    if !frame.len().is_multiple_of(SEGMENT) {
        return Err(Refusal::Malformed);
    }
    match front[0] {
        0x80.. => {
            let user = user_data::<SEGMENT, 3>(front[2] & 15, largest, frame, last)?;
            Ok((read_data(front), user))
        }
        INTERRUPT => {
            let user = user_data::<SEGMENT, 3>(front[2] & 15, largest, frame, last)?;
            Ok((read_interrupt(front), user))
        }
        CLEAR_REQUEST => {
            let packet = read_clear_request(front)?;
            let user = user_data::<SEGMENT, 7>(front[6] & 15, largest, frame, last)?;
            Ok((packet, user))
        }
        CALL_REQUEST | CALL_ACCEPT => {
            let packet = read_call(front, is_uplink(largest))?;
            let user = user_data::<SEGMENT, 5>(front[4] & 15, largest, frame, last)?;
            Ok((packet, user))
        }
        ROUTE..=ROUTE_LAST => read_route::<SEGMENT>(largest, frame, last),
        _ => read_alone::<SEGMENT>(front, frame, last),
    }
}

/// A packet that has neither LV nor lengths of its own.
#[inline(always)]
fn read_alone<'a, const SEGMENT: usize>(
    front: &Front,
    frame: &'a [u8],
    last: &[u8; SEGMENT],
) -> Result<(Packet, &'a [u8]), Refusal> {
    match front[0] {
        CLEAR_CONFIRMATION => {
            let none = alone::<SEGMENT, 4>(frame, last)?;
            Ok((read_clear_confirmation(front), none))
        }
        RESET => Ok((read_reset(front)?, alone::<SEGMENT, 5>(frame, last)?)),
        RECEIVE_READY | RECEIVE_NOT_READY | REJECT => {
            Ok((read_receipt(front)?, alone::<SEGMENT, 3>(frame, last)?))
        }
        INTERRUPT_CONFIRMATION | RESET_CONFIRMATION => {
            Ok((read_confirmation(front)?, alone::<SEGMENT, 3>(frame, last)?))
        }
        _ => Err(Refusal::FormatError),
    }
}

/// What follows a packet without LV that fits one segment: zeros to its end, and no other segment.
#[inline]
fn alone<'a, const SEGMENT: usize, const HEADER: usize>(
    frame: &'a [u8],
    last: &[u8; SEGMENT],
) -> Result<&'a [u8], Refusal> {
    if frame.len() != SEGMENT || as_word(last) >> (8 * HEADER) != 0 {
        return Err(Refusal::FormatError);
    }
    Ok(&frame[HEADER..HEADER])
}

#[inline]
fn read_data(front: &Front) -> Packet {
    let [b0, b1, b2, ..] = *front;
    Packet::Data(Data {
        m: b0 & 0x40 != 0,
        sn: b0 & 63,
        ps: b1 >> 4,
        pr: b1 & 15,
        ch: b2 >> 4,
    })
}

#[inline]
fn read_interrupt(front: &Front) -> Packet {
    let [_, b1, b2, ..] = *front;
    Packet::Interrupt(Interrupt {
        s: b1 & 0x80 != 0,
        f: b1 & 0x40 != 0,
        sn: b1 & 63,
        ch: b2 >> 4,
    })
}

#[inline]
fn read_clear_request(front: &Front) -> Result<Packet, Refusal> {
    let [_, b1, b2, ag, cc, dc, b6] = *front;
    if b6 & 0x60 != 0 {
        return Err(Refusal::FormatError);
    }
    Ok(Packet::ClearRequest(ClearRequest {
        tc: b1 >> 6,
        sn: b1 & 63,
        ch: b2 >> 4,
        am: b2 & 15,
        ag,
        cc,
        dc,
        s: b6 & 0x80 != 0,
        f: b6 & 0x10 != 0,
    }))
}

/// The fill of a CALL packet's second, third and last byte.
#[inline]
fn call_fill(first: u8, uplink: bool) -> [u8; 3] {
    match (first, uplink) {
        (CALL_REQUEST, true) => [0x40, 0xC0, 0],
        (CALL_REQUEST, false) => [0x40, 0, 0],
        (_, true) => [0xC0, 0, 0x60],
        (_, false) => [0, 0, 0x60],
    }
}

#[inline]
fn read_call(front: &Front, uplink: bool) -> Result<Packet, Refusal> {
    let [b0, b1, b2, ag, b4, ..] = *front;
    let [fill1, fill2, fill4] = call_fill(b0, uplink);
    if b1 & fill1 | b2 & fill2 | b4 & fill4 != 0 {
        return Err(Refusal::FormatError);
    }
    let (sn, am, s, f) = (b1 & 63, b2 & 15, b4 & 0x80 != 0, b4 & 0x10 != 0);
    if b0 == CALL_REQUEST {
        let (tc, ch) = if uplink { (b2 >> 4, 0) } else { (0, b2 >> 4) };
        return Ok(Packet::CallRequest(CallRequest {
            p: b1 & 0x80 != 0,
            sn,
            tc,
            ch,
            am,
            ag,
            s,
            fs: b4 >> 5 & 3,
            f,
        }));
    }
    Ok(Packet::CallAccept(CallAccept {
        tc: b1 >> 6,
        sn,
        ch: b2 >> 4,
        am,
        ag,
        s,
        f,
    }))
}

#[inline]
fn read_clear_confirmation(front: &Front) -> Packet {
    let [_, b1, b2, ag, ..] = *front;
    let (tc, sn, ch, am) = (b1 >> 6, b1 & 63, b2 >> 4, b2 & 15);
    Packet::ClearConfirmation(ClearConfirmation { tc, sn, ch, am, ag })
}

#[inline]
fn read_receipt(front: &Front) -> Result<Packet, Refusal> {
    let [b0, sn, b2, ..] = *front;
    if sn & 0xC0 != 0 {
        return Err(Refusal::FormatError);
    }
    let (ch, pr) = (b2 >> 4, b2 & 15);
    let receipt = Receipt { sn, ch, pr };
    Ok(match b0 {
        RECEIVE_READY => Packet::ReceiveReady(receipt),
        RECEIVE_NOT_READY => Packet::ReceiveNotReady(receipt),
        _ => Packet::Reject(receipt),
    })
}

#[inline]
fn read_confirmation(front: &Front) -> Result<Packet, Refusal> {
    let [b0, sn, b2, ..] = *front;
    if sn & 0xC0 | b2 & 15 != 0 {
        return Err(Refusal::FormatError);
    }
    let confirmation = Confirmation { sn, ch: b2 >> 4 };
    Ok(match b0 {
        INTERRUPT_CONFIRMATION => Packet::InterruptConfirmation(confirmation),
        _ => Packet::ResetConfirmation(confirmation),
    })
}

#[inline]
fn read_reset(front: &Front) -> Result<Packet, Refusal> {
    let [_, sn, b2, rc, dc, ..] = *front;
    if sn & 0xC0 | b2 & 15 != 0 {
        return Err(Refusal::FormatError);
    }
    let ch = b2 >> 4;
    Ok(Packet::Reset(Reset { sn, ch, rc, dc }))
}

/// The fill of the third byte: none where PR stands in it.
#[inline]
fn third_fill(first: u8) -> u8 {
    match first {
        RECEIVE_READY | RECEIVE_NOT_READY | REJECT => 0,
        _ => 0x0F,
    }
}

/// Where a ROUTE ends, or the position of its wrong length.
#[inline]
fn route_end(frame: &[u8]) -> Result<usize, usize> {
    let table_end = 2 + usize::from(frame[1]);
    if frame[0] & 2 == 0 {
        return (table_end <= frame.len()).then_some(table_end).ok_or(1);
    }
    let odl = *frame.get(table_end).ok_or(1usize)?;
    let end = table_end + 1 + usize::from(odl);
    (end <= frame.len()).then_some(end).ok_or(table_end)
}

#[inline]
fn read_route<'a, const SEGMENT: usize>(
    largest: usize,
    frame: &'a [u8],
    last: &[u8; SEGMENT],
) -> Result<(Packet, &'a [u8]), Refusal> {
    let end = route_end(frame).map_err(|_| Refusal::FormatError)?;
    // It ends in the last segment, and zeros follow it there.
    let lv = (end + SEGMENT).wrapping_sub(frame.len());
    if lv == 0 || lv > SEGMENT || as_word(last) >> (8 * lv) != 0 {
        return Err(Refusal::FormatError);
    }
    if end > largest {
        return Err(Refusal::PacketTooLong);
    }
    let route = Route {
        of: frame[0] & 2 != 0,
        init: frame[0] & 1 != 0,
        rtl: frame[1],
    };
    Ok((Packet::Route(route), &frame[2..end]))
}

/// The user data between a header and its padding; checks LV and padding, then the size.
#[inline]
pub(crate) fn user_data<'a, const SEGMENT: usize, const HEADER: usize>(
    lv: u8,
    largest: usize,
    frame: &'a [u8],
    last: &[u8; SEGMENT],
) -> Result<&'a [u8], Refusal> {
    let lv = usize::from(lv);
    let length = frame.len() - SEGMENT + lv;
    if lv == 0 || lv > SEGMENT || as_word(last) >> (8 * lv) != 0 {
        return Err(Refusal::FormatError);
    }
    if length > largest {
        return Err(Refusal::PacketTooLong);
    }
    // Only a frame of one segment can end before its header does.
    frame.get(HEADER..length).ok_or(Refusal::FormatError)
}

/// Where a frame is bad; 0 if it reads. Only one that is refused is looked at again.
#[inline]
pub fn fault(form: Form, frame: &[u8]) -> usize {
    match long_largest(form) {
        Ok(Some(largest)) => fault_in::<LONG>(largest, frame),
        Ok(None) => fault_in::<SHORT>(SHORT_LARGEST, frame),
        Err(_) => 0,
    }
}

#[inline]
pub(crate) fn fault_in<const SEGMENT: usize>(largest: usize, frame: &[u8]) -> usize {
    match read_in::<SEGMENT>(largest, frame) {
        Ok(_) => 0,
        Err(Refusal::Malformed) => frame.len(),
        Err(Refusal::PacketTooLong) => largest,
        Err(_) => first_wrong::<SEGMENT>(is_uplink(largest), frame),
    }
}

/// The first wrong byte of a frame in whole segments that has one.
#[inline]
fn first_wrong<const SEGMENT: usize>(uplink: bool, frame: &[u8]) -> usize {
    let (Some(first), Some(last)) = (frame.first_chunk(), frame.last_chunk()) else {
        return 0;
    };
    let length = frame.len();
    match first[0] {
        0x80.. | INTERRUPT => lv_or_padding::<SEGMENT, 3>(first[2], length, last),
        CLEAR_REQUEST if first[6] & 0x60 != 0 => 6,
        CLEAR_REQUEST => lv_or_padding::<SEGMENT, 7>(first[6], length, last),
        CALL_REQUEST | CALL_ACCEPT => {
            let [fill1, fill2, fill4] = call_fill(first[0], uplink);
            match [first[1] & fill1, first[2] & fill2, first[4] & fill4] {
                [0, 0, 0] => lv_or_padding::<SEGMENT, 5>(first[4], length, last),
                [0, 0, _] => 4,
                [0, _, _] => 2,
                _ => 1,
            }
        }
        // What lies past the segments is wrong whatever it holds.
        CLEAR_CONFIRMATION => not_zero_from::<SEGMENT>(4, first),
        ROUTE..=ROUTE_LAST => first_wrong_of_route::<SEGMENT>(frame),
        RECEIVE_READY
        | RECEIVE_NOT_READY
        | REJECT
        | INTERRUPT_CONFIRMATION
        | RESET
        | RESET_CONFIRMATION => {
            let header = if first[0] == RESET { 5 } else { 3 };
            match [first[1] & 0xC0, first[2] & third_fill(first[0])] {
                [0, 0] => not_zero_from::<SEGMENT>(header, first),
                [0, _] => 2,
                _ => 1,
            }
        }
        _ => 0,
    }
}

/// A wrong length, else padding that is not 0, else the byte past the fewest segments.
#[inline]
fn first_wrong_of_route<const SEGMENT: usize>(frame: &[u8]) -> usize {
    match route_end(frame) {
        Ok(end) => {
            let segments = end.next_multiple_of(SEGMENT);
            let padding = frame[end..segments].iter().position(|&byte| byte != 0);
            padding.map_or(segments, |at| end + at)
        }
        Err(at) => at,
    }
}

/// The header's last byte if the LV in it is wrong, else the first padding byte that is not 0.
#[inline]
fn lv_or_padding<const SEGMENT: usize, const HEADER: usize>(
    header_end: u8,
    length: usize,
    last: &[u8; SEGMENT],
) -> usize {
    let (lv, early) = (usize::from(header_end & 15), length - SEGMENT);
    if lv == 0 || lv > SEGMENT || early + lv < HEADER {
        return HEADER - 1;
    }
    early + not_zero_from(lv, last)
}

/// The first byte of a segment from this one on that is not 0, or where the segment ends.
#[inline]
fn not_zero_from<const SEGMENT: usize>(start: usize, segment: &[u8; SEGMENT]) -> usize {
    let zeros = (as_word(segment) >> (8 * start)).trailing_zeros() as usize / 8;
    SEGMENT.min(start + zeros)
}

/// A segment as one word, its first byte lowest.
#[inline]
pub(crate) fn as_word<const SEGMENT: usize>(segment: &[u8; SEGMENT]) -> u128 {
    let mut bytes = [0; 16];
    bytes[..SEGMENT].copy_from_slice(segment);
    u128::from_le_bytes(bytes)
}
