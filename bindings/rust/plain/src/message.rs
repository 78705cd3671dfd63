//! Messages of up to 4,096 bytes, cut into DATA frames and joined again.

use crate::frame::{self, Form, Sizes};
use crate::header::Headed;
use crate::number::{link_next, packet_next};
use crate::packet::{Data, Packet};
use crate::{Fault, Refusal};

/// The header of each frame.
const DATA_HEADER: usize = Data::HEADER;

/// The longest message.
pub const LONGEST: usize = 4096;

/// What the frames of a message carry beside it: SN and PS of the first one, PR and CH of all.
#[derive(Clone, Copy, Debug, PartialEq, Eq)]
pub struct Start {
    pub sn: u8,
    pub ps: u8,
    pub pr: u8,
    pub ch: u8,
}

/// What cutting made.
#[derive(Clone, Copy, Debug, PartialEq, Eq)]
pub struct Cut {
    pub frames: usize,
    pub bytes: usize,
}

/// Cuts a message into frames, one after the other in `out`, their lengths in `lengths`. Checks 1,
/// then the short form (23), then 4 and 5.
#[inline]
pub fn cut(
    form: Form,
    start: Start,
    message: &[u8],
    out: &mut [u8],
    lengths: &mut [usize],
) -> Result<Cut, Refusal> {
    in_range(form, start)?;
    form.still_written()?;
    lay_out(form, start, message, out, lengths)
}

/// The frames of a message by the layout, for every form; cutting refuses the short one. Checks 1,
/// 4, 5.
///
/// Frames of the short form are still joined, so good runs are needed wherever joining is tried.
#[inline]
pub fn lay_out(
    form: Form,
    start: Start,
    message: &[u8],
    out: &mut [u8],
    lengths: &mut [usize],
) -> Result<Cut, Refusal> {
    let sizes = in_range(form, start)?;
    if message.len() > LONGEST {
        return Err(Refusal::MessageTooLong);
    }
    let needed = room_for(sizes, message.len());
    if out.len() < needed.bytes || lengths.len() < needed.frames {
        return Err(Refusal::OutputTooShort);
    }
    fill_frames(form, start, message, out, &mut lengths[..needed.frames])?;
    Ok(needed)
}

/// All that is refused with 1; answers the sizes of the form.
#[inline]
fn in_range(form: Form, start: Start) -> Result<Sizes, Refusal> {
    let sizes = form.sizes()?;
    let Start { sn, ps, pr, ch } = start;
    if sn > 63 || ps > 15 || pr > 15 || ch > 15 {
        return Err(Refusal::OutOfRange);
    }
    Ok(sizes)
}

/// How many frames a message makes, and their bytes.
#[inline]
fn room_for(sizes: Sizes, length: usize) -> Cut {
    let share = sizes.largest - DATA_HEADER;
    let frames = length.div_ceil(share).max(1);
    let last = length - (frames - 1) * share + DATA_HEADER;
    let whole_segments = |size: usize| size.next_multiple_of(sizes.segment);
    Cut {
        frames,
        bytes: (frames - 1) * whole_segments(sizes.largest) + whole_segments(last),
    }
}

#[inline]
fn fill_frames(
    form: Form,
    start: Start,
    message: &[u8],
    out: &mut [u8],
    lengths: &mut [usize],
) -> Result<(), Refusal> {
    let share = form.sizes()?.largest - DATA_HEADER;
    let Start {
        mut sn,
        mut ps,
        pr,
        ch,
    } = start;
    let (mut user, mut room) = (message, out);
    let last = lengths.len() - 1;
    for (index, length) in lengths.iter_mut().enumerate() {
        let (now, later) = user.split_at(user.len().min(share));
        let m = index < last;
        let packet = Packet::Data(Data { m, sn, ps, pr, ch });
        *length = frame::lay_out(form, &packet, now, room)?;
        (user, room) = (later, &mut room[*length..]);
        (sn, ps) = (link_next(sn), packet_next(ps));
    }
    Ok(())
}

/// SN, PS and CH, by which a frame follows the one before.
#[derive(Clone, Copy, PartialEq, Eq)]
struct Run {
    sn: u8,
    ps: u8,
    ch: u8,
}

/// Joins DATA frames, which stand one after the other and have these lengths; answers the
/// length of their message. The position of a fault is one in all of `frames`.
#[inline]
pub fn join(form: Form, lengths: &[usize], frames: &[u8], out: &mut [u8]) -> Result<usize, Fault> {
    let total = check(form, lengths, frames, out.len())?;
    gather(form.sizes()?, lengths, frames, &mut out[..total]);
    Ok(total)
}

/// Where joining into so many bytes finds the first fault; 0 if the frames are joined.
#[inline]
pub fn fault(form: Form, lengths: &[usize], frames: &[u8], room: usize) -> usize {
    check(form, lengths, frames, room).map_or_else(|fault| fault.at, |_| 0)
}

/// All that joining into so many bytes is refused for; answers the length of the message. What
/// concerns all frames together (their sum, 4 and 5) is told of the end of the data.
#[inline]
fn check(form: Form, lengths: &[usize], frames: &[u8], room: usize) -> Result<usize, Fault> {
    form.sizes()?;
    let sum = lengths
        .iter()
        .try_fold(0usize, |sum, &length| sum.checked_add(length));
    if lengths.is_empty() || sum != Some(frames.len()) {
        return Err(Refusal::Malformed.at(frames.len()));
    }
    let total = check_frames(form, lengths, frames)?;
    if total > LONGEST {
        return Err(Refusal::MessageTooLong.at(frames.len()));
    }
    if total > room {
        return Err(Refusal::OutputTooShort.at(frames.len()));
    }
    Ok(total)
}

/// Reads every frame and holds it against the one before; answers the length of the message.
#[inline]
fn check_frames(form: Form, lengths: &[usize], frames: &[u8]) -> Result<usize, Fault> {
    let mut rest = frames;
    let mut total = 0;
    let mut due: Option<Run> = None;
    for (index, &length) in lengths.iter().enumerate() {
        let (frame, after) = rest.split_at(length);
        let last = index + 1 == lengths.len();
        total += check_frame(form, frame, last, &mut due)
            .map_err(|fault| fault.in_frame_at(frames.len() - rest.len()))?;
        rest = after;
    }
    Ok(total)
}

/// Reads one frame and holds it against the one that is due; answers the length of its user data.
/// What is wrong with a frame that reads is told of its first byte.
#[inline]
fn check_frame(
    form: Form,
    frame: &[u8],
    last: bool,
    due: &mut Option<Run>,
) -> Result<usize, Fault> {
    let (packet, user) = frame::read(form, frame)?;
    let Packet::Data(Data { m, sn, ps, ch, .. }) = packet else {
        return Err(Refusal::FormatError.at(0));
    };
    if !m && !last {
        return Err(Refusal::FormatError.at(0));
    }
    if due.is_some_and(|due| due != Run { sn, ps, ch }) {
        return Err(Refusal::RunBroken.at(0));
    }
    if m && last {
        return Err(Refusal::Malformed.at(0));
    }
    *due = Some(Run {
        sn: link_next(sn),
        ps: packet_next(ps),
        ch,
    });
    Ok(user.len())
}

/// Copies the user data of frames that have been checked.
#[inline]
fn gather(sizes: Sizes, lengths: &[usize], frames: &[u8], message: &mut [u8]) {
    let (mut rest, mut room) = (frames, message);
    for &length in lengths {
        let (frame, after) = rest.split_at(length);
        rest = after;
        let lv = usize::from(frame[DATA_HEADER - 1] & 0x0F);
        let user = &frame[DATA_HEADER..length - sizes.segment + lv];
        let (place, later) = room.split_at_mut(user.len());
        place.copy_from_slice(user);
        room = later;
    }
}

#[cfg(test)]
mod tests {
    use super::*;

    const LONG: Form = Form::LongUplink;
    const START: Start = Start {
        sn: 62,
        ps: 14,
        pr: 3,
        ch: 9,
    };

    fn message(length: usize) -> Vec<u8> {
        (0..length).map(|at| (at * 7 + at / 256) as u8).collect()
    }

    /// Cut in a long form; the short one is only laid out.
    fn frames_of(form: Form, length: usize) -> (Vec<usize>, Vec<u8>) {
        let (mut out, mut lengths) = (vec![0xEE; 8192], vec![77; 600]);
        let make = match form {
            Form::ShortUplink => lay_out,
            _ => cut,
        };
        let made = make(form, START, &message(length), &mut out, &mut lengths).unwrap();
        assert!(out[made.bytes..].iter().all(|&byte| byte == 0xEE));
        assert!(lengths[made.frames..].iter().all(|&place| place == 77));
        out.truncate(made.bytes);
        lengths.truncate(made.frames);
        (lengths, out)
    }

    #[test]
    fn full_shares_make_no_empty_frame() {
        assert_eq!(frames_of(LONG, 0).0, [10]);
        assert_eq!(frames_of(LONG, 149).0, [160]);
        assert_eq!(frames_of(LONG, 150).0, [160, 10]);
        assert_eq!(frames_of(Form::LongDownlink(1), 4096).0.len(), 586);
        assert_eq!(frames_of(Form::ShortUplink, 50).0, [28, 28]);
    }

    #[test]
    fn every_length_comes_back_cut_in_long_forms_laid_out_in_the_short_one() {
        let downlinks = (1..=16).map(Form::LongDownlink);
        for form in downlinks.chain([Form::ShortUplink, LONG]) {
            for length in (0..400).chain(4080..=4096) {
                let (lengths, frames) = frames_of(form, length);
                let mut out = vec![0xEE; 5000];
                assert_eq!(join(form, &lengths, &frames, &mut out), Ok(length));
                assert_eq!(out[..length], message(length));
                assert!(out[length..].iter().all(|&byte| byte == 0xEE));
            }
        }
    }

    #[test]
    fn cutting_order() {
        let wide = Start { ch: 16, ..START };
        let long = vec![0; 4097];
        let cut_to = |start, message: &[u8], room, places| {
            let (mut out, mut lengths) = (vec![1; room], vec![2; places]);
            let answer = cut(LONG, start, message, &mut out, &mut lengths);
            assert!(out.iter().all(|&byte| byte == 1) && lengths.iter().all(|&l| l == 2));
            answer
        };
        assert_eq!(cut_to(wide, &long, 0, 0), Err(Refusal::OutOfRange));
        assert_eq!(cut_to(START, &long, 0, 0), Err(Refusal::MessageTooLong));
        assert_eq!(
            cut_to(START, &long[..150], 169, 2),
            Err(Refusal::OutputTooShort)
        );
        assert_eq!(
            cut_to(START, &long[..150], 170, 1),
            Err(Refusal::OutputTooShort)
        );
    }

    /// Three frames of 10 bytes, SN 63, 0, 1 and PS 15, 0, 1.
    fn three() -> Vec<u8> {
        let mut frames = vec![0; 30];
        for (index, front) in [[0xFF, 0xF0, 3], [0xC0, 0, 3], [0x81, 0x10, 3]]
            .iter()
            .enumerate()
        {
            frames[10 * index..][..3].copy_from_slice(front);
        }
        frames
    }

    fn join_of(lengths: &[usize], frames: &[u8]) -> Result<usize, Fault> {
        join(LONG, lengths, frames, &mut [0; 64])
    }

    #[test]
    fn joining_refuses_broken_runs() {
        let frames = three();
        assert_eq!(join_of(&[10; 3], &frames), Ok(0));
        let gap = [&frames[..10], &frames[20..]].concat();
        assert_eq!(join_of(&[10; 2], &gap), Err(Refusal::RunBroken.at(10)));
        assert_eq!(
            join_of(&[10; 2], &frames[..20]),
            Err(Refusal::Malformed.at(10))
        );
        assert_eq!(
            join_of(&[10, 10, 9], &frames[..29]),
            Err(Refusal::Malformed.at(29))
        );
        let mut other = frames.clone();
        other[20..24].copy_from_slice(&[0x5C, 9, 0x32, 0x41]);
        assert_eq!(join_of(&[10; 3], &other), Err(Refusal::FormatError.at(20)));
        let mut pr = frames;
        pr[11] |= 5;
        assert_eq!(join_of(&[10; 3], &pr), Ok(0));
    }

    #[test]
    fn joining_sums_truly() {
        assert_eq!(join_of(&[], &[]), Err(Refusal::Malformed.at(0)));
        assert_eq!(join_of(&[], &three()), Err(Refusal::Malformed.at(30)));
        assert_eq!(
            join_of(&[usize::MAX, 11], &three()[..10]),
            Err(Refusal::Malformed.at(10))
        );
        assert_eq!(
            join_of(&[10, 0, 10, 10], &three()),
            Err(Refusal::Malformed.at(10))
        );
    }

    #[test]
    fn joining_order_within_and_between_frames() {
        let mut frames = three();
        frames[10] = 0x85; // M 0 and a wrong SN: M first
        assert_eq!(join_of(&[10; 3], &frames), Err(Refusal::FormatError.at(10)));
        frames[10] = 0xC5; // a wrong SN beats the next frame's wrong padding
        frames[29] = 1;
        assert_eq!(join_of(&[10; 3], &frames), Err(Refusal::RunBroken.at(10)));
        let mut last = three();
        last[20] = 0xC5; // a wrong SN beats M 1 on the last
        assert_eq!(join_of(&[10; 3], &last), Err(Refusal::RunBroken.at(20)));
    }

    #[test]
    fn too_long_then_no_room() {
        let frame = |sn: u8, m: u8| {
            let mut frame = vec![0; 160];
            frame[..3].copy_from_slice(&[0x80 | m << 6 | (sn % 64), (sn % 16) << 4, 2]);
            frame
        };
        let frames: Vec<u8> = (0..28).flat_map(|sn| frame(sn, (sn < 27).into())).collect();
        assert_eq!(
            join(LONG, &[160; 28], &frames, &mut []),
            Err(Refusal::MessageTooLong.at(4480))
        );
        let fewer: Vec<u8> = (0..27).flat_map(|sn| frame(sn, (sn < 26).into())).collect();
        let mut out = [3; 4022];
        assert_eq!(
            join(LONG, &[160; 27], &fewer, &mut out),
            Err(Refusal::OutputTooShort.at(4320))
        );
        assert_eq!(out, [3; 4022]);
    }
}
