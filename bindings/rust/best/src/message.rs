//! Cutting and joining, with the segment's size known when this is compiled. Only long segments are
//! cut.

use crate::frame::{
    as_word, fault_in, long_largest, put, read_in, user_data, written_largest, LONG, SHORT,
    SHORT_LARGEST, UPLINK_LARGEST,
};
use plain::frame::Form;
use plain::message::{Cut, Start, LONGEST};
use plain::{Fault, Refusal};

const HEADER: usize = 3;

/// The frame that the largest packet of the long uplink fills, and the user data in it.
const UPLINK_WHOLE: usize = UPLINK_LARGEST.next_multiple_of(LONG);
const UPLINK_SHARE: usize = UPLINK_LARGEST - HEADER;

/// Cuts a message into frames, one after the other in `out`, their lengths in `lengths`.
#[inline]
pub fn cut(
    form: Form,
    start: Start,
    message: &[u8],
    out: &mut [u8],
    lengths: &mut [usize],
) -> Result<Cut, Refusal> {
    if start.sn > 63 || start.ps | start.pr | start.ch > 15 {
        return Err(Refusal::OutOfRange);
    }
    let largest = written_largest(form)?;
    if message.len() > LONGEST {
        return Err(Refusal::MessageTooLong);
    }
    let (share, whole) = (largest - HEADER, largest.next_multiple_of(LONG));
    // All frames but the last are full; 4,096 fits 32 bits, so the division is a short one.
    let full = (message.len() as u32).saturating_sub(1) / share as u32;
    let (early, rest) = message.split_at(full as usize * share);
    let last = (HEADER + rest.len()).next_multiple_of(LONG);
    let (frames, bytes) = (full as usize + 1, full as usize * whole + last);
    let (Some(out), Some(lengths)) = (out.get_mut(..bytes), lengths.get_mut(..frames)) else {
        return Err(Refusal::OutputTooShort);
    };
    lengths.fill(whole);
    lengths[frames - 1] = last;
    let (room, end) = out.split_at_mut(bytes - last);
    let mut header = Header::new(start);
    if largest == UPLINK_LARGEST {
        for (frame, user) in room.as_chunks_mut().0.iter_mut().zip(early.as_chunks().0) {
            header.put_uplink(user, frame);
        }
    } else {
        for (frame, user) in room.chunks_exact_mut(whole).zip(early.chunks_exact(share)) {
            header.put_full(user, frame);
        }
    }
    put(header.bytes(0), largest, rest, end)?;
    Ok(Cut { frames, bytes })
}

/// The header that the next frame gets, SN and PS counting up.
struct Header(Start);

impl Header {
    #[inline]
    fn new(start: Start) -> Self {
        Header(start)
    }

    #[inline]
    fn bytes(&self, m: u8) -> [u8; HEADER] {
        let Start { sn, ps, pr, ch } = self.0;
        [0x80 | m << 6 | sn & 63, ps << 4 | pr, ch << 4]
    }

    /// The header of a frame that has more after it, and the next one's numbers.
    #[inline]
    fn take(&mut self, lv: u8) -> [u8; HEADER] {
        let mut header = self.bytes(1);
        header[HEADER - 1] |= lv;
        self.0.sn = self.0.sn.wrapping_add(1);
        self.0.ps = (self.0.ps + 1) & 15;
        header
    }

    /// A full frame: its user data ends inside the last segment, or fills it.
    #[inline]
    fn put_full(&mut self, user: &[u8], frame: &mut [u8]) {
        if let Some(last) = frame.last_chunk_mut::<LONG>() {
            *last = [0; LONG];
        }
        let length = HEADER + user.len();
        let lv = length + LONG - frame.len();
        frame[..HEADER].copy_from_slice(&self.take(lv as u8));
        frame[HEADER..length].copy_from_slice(user);
    }

    /// A full frame of the long uplink, of which all sizes are known when this is compiled. The
    /// user data is copied in two parts, each of them in line: the whole would be a call.
    #[inline]
    fn put_uplink(&mut self, user: &[u8; UPLINK_SHARE], frame: &mut [u8; UPLINK_WHOLE]) {
        const LV: usize = UPLINK_LARGEST + LONG - UPLINK_WHOLE;
        const FRONT: usize = 128;
        frame[..HEADER].copy_from_slice(&self.take(LV as u8));
        frame[HEADER..HEADER + FRONT].copy_from_slice(&user[..FRONT]);
        frame[HEADER + FRONT..UPLINK_LARGEST].copy_from_slice(&user[FRONT..]);
        frame[UPLINK_LARGEST..].fill(0);
    }
}

/// Joins DATA frames to their message; answers its length.
#[inline]
pub fn join(
    form: Form,
    lengths: &[usize],
    frames: &[u8],
    out: &mut [u8],
) -> Result<usize, Refusal> {
    match long_largest(form)? {
        Some(largest) => join_in::<LONG>(largest, lengths, frames, out),
        None => join_in::<SHORT>(SHORT_LARGEST, lengths, frames, out),
    }
}

#[inline]
fn join_in<const SEGMENT: usize>(
    largest: usize,
    lengths: &[usize],
    frames: &[u8],
    out: &mut [u8],
) -> Result<usize, Refusal> {
    let total = total_in::<SEGMENT>(largest, lengths, frames)?;
    if total > LONGEST {
        return Err(Refusal::MessageTooLong);
    }
    let message = out.get_mut(..total).ok_or(Refusal::OutputTooShort)?;
    gather::<SEGMENT>(lengths, frames, message);
    Ok(total)
}

/// Where joining into so many bytes finds the first fault; 0 if the frames are joined.
#[inline]
pub fn fault(form: Form, lengths: &[usize], frames: &[u8], room: usize) -> usize {
    let total = match long_largest(form) {
        Ok(Some(largest)) => total_in::<LONG>(largest, lengths, frames),
        Ok(None) => total_in::<SHORT>(SHORT_LARGEST, lengths, frames),
        Err(_) => return 0,
    };
    match total {
        Ok(total) if total <= LONGEST.min(room) => 0,
        Ok(_) => frames.len(),
        Err(fault) => fault.at,
    }
}

/// Checks the lengths and every frame; answers the length of the message.
#[inline]
fn total_in<const SEGMENT: usize>(
    largest: usize,
    lengths: &[usize],
    frames: &[u8],
) -> Result<usize, Fault> {
    let Some((&last, early)) = lengths.split_last() else {
        return Err(Refusal::Malformed.at(frames.len()));
    };
    let sum = early.iter().try_fold(last, |sum, &l| sum.checked_add(l));
    if sum != Some(frames.len()) {
        return Err(Refusal::Malformed.at(frames.len()));
    }
    // A frame that reads can only be wrong as a whole: its first byte, and `fault_in` gives 0.
    let told = |refusal: Refusal, frame: &[u8], start: usize| {
        refusal.at(start + fault_in::<SEGMENT>(largest, frame))
    };
    let full = Full::new(SEGMENT, largest);
    let (mut rest, mut total, mut due) = (frames, 0, None);
    for &length in early {
        let (frame, after) = rest.split_at(length);
        if full.is_due::<SEGMENT>(frame, &mut due) {
            total += largest - HEADER;
        } else {
            total += one_frame::<SEGMENT>(largest, frame, true, &mut due)
                .map_err(|refusal| told(refusal, frame, frames.len() - rest.len()))?;
        }
        rest = after;
    }
    total += one_frame::<SEGMENT>(largest, rest, false, &mut due)
        .map_err(|refusal| told(refusal, rest, frames.len() - rest.len()))?;
    Ok(total)
}

/// SN, PS and CH that the next frame has to carry.
type Due = Option<(u8, u8, u8)>;

/// A frame that carries as much as its form allows: almost all of a message's frames do.
struct Full {
    length: usize,
    lv: u8,
}

impl Full {
    #[inline]
    fn new(segment: usize, largest: usize) -> Self {
        let length = largest.next_multiple_of(segment);
        Full {
            length,
            lv: (largest + segment - length) as u8,
        }
    }

    /// Whether a frame is full, good, and the one that is due with M = 1; then the next one is
    /// due. Says no where it takes a closer look to tell.
    #[inline]
    fn is_due<const SEGMENT: usize>(&self, frame: &[u8], due: &mut Due) -> bool {
        let (Some((sn, ps, ch)), Some(last)) = (*due, frame.last_chunk::<SEGMENT>()) else {
            return false;
        };
        let good = frame.len() == self.length
            && frame[0] == 0xC0 | sn
            && frame[1] >> 4 == ps
            && frame[2] == ch << 4 | self.lv
            && as_word(last) >> (8 * self.lv) == 0;
        if good {
            *due = Some(((sn + 1) & 63, (ps + 1) & 15, ch));
        }
        good
    }
}

/// Checks one frame, which has more after it or not; answers the length of its user data.
#[inline]
fn one_frame<const SEGMENT: usize>(
    largest: usize,
    frame: &[u8],
    more: bool,
    due: &mut Due,
) -> Result<usize, Refusal> {
    let Some(last) = frame.last_chunk::<SEGMENT>() else {
        return Err(Refusal::Malformed);
    };
    let [b0, b1, b2] = [frame[0], frame[1], frame[2]];
    if !frame.len().is_multiple_of(SEGMENT) {
        return Err(Refusal::Malformed);
    }
    if b0 < 0x80 {
        return Err(not_data::<SEGMENT>(largest, frame));
    }
    let user = user_data::<SEGMENT, HEADER>(b2 & 15, largest, frame, last)?.len();
    let m = b0 & 0x40 != 0;
    if more && !m {
        return Err(Refusal::FormatError);
    }
    let (sn, ps, ch) = (b0 & 63, b1 >> 4, b2 >> 4);
    if due.is_some_and(|due| due != (sn, ps, ch)) {
        return Err(Refusal::RunBroken);
    }
    if m && !more {
        return Err(Refusal::Malformed);
    }
    *due = Some(((sn + 1) & 63, (ps + 1) & 15, ch));
    Ok(user)
}

/// A frame that is not DATA is refused by what its reading finds, else for not being DATA.
#[cold]
fn not_data<const SEGMENT: usize>(largest: usize, frame: &[u8]) -> Refusal {
    match read_in::<SEGMENT>(largest, frame) {
        Err(refusal) => refusal,
        Ok(_) => Refusal::FormatError,
    }
}

/// Copies the user data of frames that have been checked.
#[inline]
fn gather<const SEGMENT: usize>(lengths: &[usize], frames: &[u8], message: &mut [u8]) {
    let (mut rest, mut room) = (frames, message);
    for &length in lengths {
        let (frame, after) = rest.split_at(length);
        let lv = usize::from(frame[HEADER - 1] & 15);
        let user = &frame[HEADER..length - SEGMENT + lv];
        let (place, later) = room.split_at_mut(user.len());
        place.copy_from_slice(user);
        (rest, room) = (after, later);
    }
}
