use crate::answer::values;
use crate::packet::{Packet, PACKET_BYTES};
use crate::{raw, Refusal, Refused, Route};

/// The form of a frame: it sets the segment's size and the largest packet.
///
/// ```
/// use pepperknoll::{read_frame, Form, Refusal};
///
/// // No form has 17 segments: refused with 1, before anything is said of the frame.
/// let refused = read_frame(Form::LongDownlink(17), &[]).unwrap_err();
/// assert_eq!(refused.why, Refusal::OutOfRange);
/// let refused = read_frame(Form::LongDownlink(16), &[]).unwrap_err();
/// assert_eq!(refused.why, Refusal::Malformed);
/// ```
#[derive(Clone, Copy, Debug, PartialEq, Eq, Hash)]
pub enum Form {
    /// Segments of 7 bytes, packets of at most 28. It is read and joined; writing and cutting
    /// refuse it with 23.
    ShortUplink,
    /// Segments of 10 bytes, packets of at most 152.
    LongUplink,
    /// With its number of segments, 1 to 16: segments of 10 bytes, packets of at most 10 times
    /// that number. Every call refuses another number with 1.
    LongDownlink(u8),
}

impl Form {
    /// The number by which the library knows the form; 255 is none and refused by every call.
    #[inline]
    pub(crate) const fn number(self) -> u8 {
        match self {
            Form::ShortUplink => 0,
            Form::LongDownlink(segments @ 1..=16) => segments,
            Form::LongDownlink(_) => 255,
            Form::LongUplink => 17,
        }
    }
}

/// Writes a packet and its user data as one frame to the front of `out`; answers the frame's
/// length. Bytes beyond the frame keep what they held. Refused with 1 (also for a field that the
/// form has no place for, and for user data with a kind that has none), 23 (the short uplink form),
/// 13, 5.
///
/// ```
/// use pepperknoll::{write_frame, Form, LinkNumber, Packet, PacketNumber, Refusal};
///
/// let packet = Packet::Data {
///     m: true,
///     sn: LinkNumber(5),
///     ps: PacketNumber(3),
///     pr: PacketNumber(2),
///     ch: 4,
/// };
/// let mut out = [0xEE; 12];
/// assert_eq!(write_frame(Form::LongUplink, &packet, b"four", &mut out), Ok(10));
/// assert_eq!(&out, b"\xC5\x32\x47four\0\0\0\xEE\xEE");
/// let refused = write_frame(Form::LongUplink, &packet, &[0; 150], &mut out);
/// assert_eq!(refused, Err(Refusal::PacketTooLong));
/// let refused = write_frame(Form::ShortUplink, &packet, b"four", &mut out);
/// assert_eq!(refused, Err(Refusal::ShortForm));
///
/// let packet = Packet::ReceiveReady {
///     sn: LinkNumber(5),
///     ch: 3,
///     pr: PacketNumber(7),
/// };
/// assert_eq!(write_frame(Form::LongUplink, &packet, &[], &mut out), Ok(10));
/// assert_eq!(out[..4], [0x60, 0x05, 0x37, 0]);
/// let refused = write_frame(Form::LongUplink, &packet, b"four", &mut out);
/// assert_eq!(refused, Err(Refusal::OutOfRange));
/// ```
#[inline]
pub fn write_frame(
    form: Form,
    packet: &Packet,
    user: &[u8],
    out: &mut [u8],
) -> Result<usize, Refusal> {
    let packet = packet.to_bytes();
    // SAFETY: each list is lent whole with its own length; `out` is borrowed alone, so it
    // overlaps neither the packet's array nor `user`.
    let answer = unsafe {
        raw::pk_frame_write(
            form.number(),
            packet.as_ptr(),
            packet.len(),
            user.as_ptr(),
            user.len(),
            out.as_mut_ptr(),
            out.len(),
        )
    };
    values(answer).map(|length| length as usize)
}

/// What a frame holds.
#[derive(Clone, Copy, Debug, PartialEq, Eq, Hash)]
pub enum Read<'a> {
    /// A packet, and its user data as a part of the frame; empty where the kind has none.
    Packet(Packet, &'a [u8]),
    /// A ROUTE, whose table and optional data are parts of the frame.
    Route(Route<'a>),
}

/// Reads a frame: its packet, and its user data as a part of the frame, or a ROUTE with its table
/// and data. Refused with 1, 2, 3, 13; the position is that of the first wrong byte for 3, the
/// frame's length for 2, and the form's largest size for 13.
///
/// ```
/// use pepperknoll::{read_frame, Form, LinkNumber, Packet, Read, Refusal, Refused};
///
/// let mut frame = *b"\x58\x09\x32\x41\x8D\xA2\x09hi\0";
/// let Read::Packet(packet, user) = read_frame(Form::LongUplink, &frame)? else {
///     panic!("a ROUTE");
/// };
/// assert!(matches!(packet, Packet::ClearRequest { sn: LinkNumber(9), cc: 141, .. }));
/// assert_eq!(user, b"hi");
/// frame[9] = 1; // padding is 0
/// let refused = Refused { why: Refusal::FormatError, at: 9 };
/// assert_eq!(read_frame(Form::LongUplink, &frame), Err(refused));
/// # Ok::<(), Refused>(())
/// ```
#[inline]
pub fn read_frame(form: Form, frame: &[u8]) -> Result<Read<'_>, Refused> {
    let mut packet = [0; PACKET_BYTES];
    // SAFETY: each list is lent whole with its own length; the packet's array is new.
    let answer = unsafe {
        raw::pk_frame_read(
            form.number(),
            frame.as_ptr(),
            frame.len(),
            packet.as_mut_ptr(),
            packet.len(),
        )
    };
    let values = values(answer).map_err(|why| refused(why, form, frame))?;
    let (start, length) = (usize::from(values as u8), (values >> 8) as usize);
    let user = &frame[start..][..length];
    Ok(match packet[0] {
        Route::KIND => Read::Route(Route::of(packet, user)),
        _ => Read::Packet(Packet::from_bytes(packet), user),
    })
}

/// The position is asked for here alone, so that a frame that reads does not pay for it.
#[cold]
fn refused(why: Refusal, form: Form, frame: &[u8]) -> Refused {
    // SAFETY: the list is lent whole with its own length.
    let at = unsafe { raw::pk_frame_fault(form.number(), frame.as_ptr(), frame.len()) };
    Refused { why, at }
}
