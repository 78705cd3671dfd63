use crate::answer::values;
use crate::{raw, Form, LinkNumber, PacketNumber, Refusal, Refused};

/// The longest message, in bytes.
pub const LONGEST_MESSAGE: usize = 4096;

/// What the frames of a message carry beside it.
#[derive(Clone, Copy, Debug, PartialEq, Eq, Hash)]
pub struct Start {
    /// SN of the first frame; it counts up from there.
    pub sn: LinkNumber,
    /// PS of the first frame; it counts up from there.
    pub ps: PacketNumber,
    /// PR of all frames.
    pub pr: PacketNumber,
    /// Channel of all frames, at most 15.
    pub ch: u8,
}

/// What cutting made.
#[derive(Clone, Copy, Debug, PartialEq, Eq, Hash)]
pub struct Cut {
    /// How many frames.
    pub frames: usize,
    /// How many bytes they have together.
    pub bytes: usize,
}

/// Cuts a message into as few DATA frames as can be, one after the other in `out`, their lengths
/// in `lengths`. Places beyond keep what they held. Refused with 1, 23 (the short uplink form), 4,
/// 5.
///
/// ```
/// use pepperknoll::{cut, join, Cut, Form, LinkNumber, PacketNumber, Refusal, Start};
///
/// let start = Start {
///     sn: LinkNumber(63),
///     ps: PacketNumber(15),
///     pr: PacketNumber(2),
///     ch: 4,
/// };
/// let message = [7; 150];
/// let (mut frames, mut lengths) = ([0; 200], [0; 3]);
/// let made = cut(Form::LongUplink, start, &message, &mut frames, &mut lengths)?;
/// assert_eq!(made, Cut { frames: 2, bytes: 170 });
/// assert_eq!(lengths, [160, 10, 0]);
///
/// let mut back = [0; 150];
/// let (lengths, frames) = (&lengths[..made.frames], &frames[..made.bytes]);
/// assert_eq!(join(Form::LongUplink, lengths, frames, &mut back), Ok(150));
/// assert_eq!(back, message);
/// # Ok::<(), Refusal>(())
/// ```
#[inline]
pub fn cut(
    form: Form,
    start: Start,
    message: &[u8],
    out: &mut [u8],
    lengths: &mut [usize],
) -> Result<Cut, Refusal> {
    // SAFETY: each list is lent whole with its own length; the two written to are borrowed
    // alone, so they overlap nothing.
    let answer = unsafe {
        raw::pk_message_cut(
            form.number(),
            start.sn.0,
            start.ps.0,
            start.pr.0,
            start.ch,
            message.as_ptr(),
            message.len(),
            out.as_mut_ptr(),
            out.len(),
            lengths.as_mut_ptr(),
            lengths.len(),
        )
    };
    values(answer).map(|values| Cut {
        frames: (values & 0xFF_FFFF) as usize,
        bytes: (values >> 24) as usize,
    })
}

/// Joins the DATA frames that `frames` holds one after the other, of these lengths, to the
/// message that they carry; answers its length. Bytes of `out` beyond keep what they held.
/// Refused with 1, 2, then frame by frame 2, 3, 13, 3, 17, 2, then 4, 5.
///
/// The position is one in all of `frames`. For what a frame's reading is refused for, it is that
/// of the read, counted from the frame's start; for a frame that reads it is the frame's first
/// byte (not DATA, a wrong M, 17); for a wrong sum of lengths, no frames, 4 and 5 it is the length
/// of `frames`.
///
/// ```
/// use pepperknoll::{join, Form, Refusal, Refused};
///
/// let frames = *b"\xC5\x30\x05hi\0\0\0\0\0\x86\x40\x04!\0\0\0\0\0\0";
/// let mut message = [0; 3];
/// assert_eq!(join(Form::LongUplink, &[10, 10], &frames, &mut message), Ok(3));
/// assert_eq!(&message, b"hi!");
/// let first_only = join(Form::LongUplink, &[10], &frames[..10], &mut message);
/// let more_to_come = Refused { why: Refusal::Malformed, at: 0 }; // M = 1, in byte 0
/// assert_eq!(first_only, Err(more_to_come));
///
/// let mut damaged = frames;
/// damaged[19] = 1; // padding of the second frame
/// let refused = join(Form::LongUplink, &[10, 10], &damaged, &mut message);
/// assert_eq!(refused, Err(Refused { why: Refusal::FormatError, at: 19 }));
/// ```
#[inline]
pub fn join(
    form: Form,
    lengths: &[usize],
    frames: &[u8],
    out: &mut [u8],
) -> Result<usize, Refused> {
    // SAFETY: each list is lent whole with its own length; `out` is borrowed alone, so it
    // overlaps nothing.
    let answer = unsafe {
        raw::pk_message_join(
            form.number(),
            lengths.as_ptr(),
            lengths.len(),
            frames.as_ptr(),
            frames.len(),
            out.as_mut_ptr(),
            out.len(),
        )
    };
    values(answer)
        .map(|length| length as usize)
        .map_err(|why| refused(why, form, lengths, frames, out.len()))
}

/// The position is asked for here alone, so that frames that are joined do not pay for it.
#[cold]
fn refused(why: Refusal, form: Form, lengths: &[usize], frames: &[u8], out_len: usize) -> Refused {
    // SAFETY: each list is lent whole with its own length.
    let at = unsafe {
        raw::pk_message_fault(
            form.number(),
            lengths.as_ptr(),
            lengths.len(),
            frames.as_ptr(),
            frames.len(),
            out_len,
        )
    };
    Refused { why, at }
}
