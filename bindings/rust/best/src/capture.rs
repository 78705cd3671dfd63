//! Captures: lengths and offsets are judged all at once, without a branch for each, and one by one
//! only where something is wrong.

use std::ops::Range;

use plain::capture::{LONGEST_FRAME, MOST_FRAMES};
use plain::frame::Form;
use plain::Refusal;

/// A number of the header, and the two before the offsets.
const NUMBER: usize = 4;
const FRONT: usize = 2 * NUMBER;

const LONGEST: u32 = LONGEST_FRAME as u32;

/// Saves frames to the front of `out`; answers the length of the file.
#[inline]
pub fn save(
    form: Form,
    lengths: &[usize],
    frames: &[u8],
    out: &mut [u8],
) -> Result<usize, Refusal> {
    let form = form.number()?;
    let (mut sum, mut over) = (0usize, 0usize);
    for &length in lengths {
        sum = sum.wrapping_add(length);
        over |= length | LONGEST_FRAME.wrapping_sub(length);
    }
    // A length past the longest frame sets the highest bit; without such a one nothing wraps.
    if lengths.len() > MOST_FRAMES || over >> (usize::BITS - 1) != 0 || sum != frames.len() {
        return Err(why_not_saved(lengths, frames));
    }
    let header = FRONT + NUMBER * (lengths.len() + 1);
    let file = out
        .get_mut(..header + frames.len())
        .ok_or(Refusal::OutputTooShort)?;
    let (numbers, places) = file.split_at_mut(header);
    places.copy_from_slice(frames);
    let (front, offsets) = numbers.split_at_mut(FRONT);
    let (offsets, last) = offsets.split_at_mut(NUMBER * lengths.len());
    front.copy_from_slice(&((lengths.len() as u64) << 32 | u64::from(form)).to_be_bytes());
    let mut end = header as u32;
    for (place, &length) in offsets.as_chunks_mut().0.iter_mut().zip(lengths) {
        *place = end.to_be_bytes();
        end += length as u32;
    }
    last.copy_from_slice(&end.to_be_bytes());
    Ok(file.len())
}

/// A wrong sum comes before what is too long.
#[cold]
fn why_not_saved(lengths: &[usize], frames: &[u8]) -> Refusal {
    let mut lengths = lengths.iter();
    match lengths.try_fold(0usize, |sum, &length| sum.checked_add(length)) {
        Some(sum) if sum == frames.len() => Refusal::MessageTooLong,
        _ => Refusal::Malformed,
    }
}

/// Judges all of a file; answers its form and the number of frames.
#[inline]
pub fn open(file: &[u8]) -> Result<(Form, usize), Refusal> {
    let front = file.first_chunk::<FRONT>().ok_or(Refusal::Malformed)?;
    let front = u64::from_be_bytes(*front);
    let (count, form) = ((front >> 32) as usize, front as u32);
    let number = u8::try_from(form).map_err(|_| Refusal::OutOfRange)?;
    let form = Form::from_number(number)?;
    if count > MOST_FRAMES {
        return Err(Refusal::MessageTooLong);
    }
    let header = FRONT + NUMBER * (count + 1);
    let offsets = file.get(FRONT..header).ok_or(Refusal::Malformed)?;
    let (starts, ends) = (&offsets[..NUMBER * count], &offsets[NUMBER..]);
    let mut over = 0;
    for (start, end) in starts.as_chunks().0.iter().zip(ends.as_chunks().0) {
        let length = u32::from_be_bytes(*end).wrapping_sub(u32::from_be_bytes(*start));
        over |= length | LONGEST.wrapping_sub(length);
    }
    let at = |place: usize| {
        offsets[place..]
            .first_chunk()
            .map(|n| u32::from_be_bytes(*n) as usize)
    };
    let whole = at(0) == Some(header) && at(NUMBER * count) == Some(file.len());
    // As in saving; an offset that falls is a length far past the longest.
    if over >> (u32::BITS - 1) != 0 || !whole {
        return Err(why_not_opened(whole, offsets));
    }
    Ok((form, count))
}

/// Wrong offsets come before a frame that is too long.
#[cold]
fn why_not_opened(whole: bool, offsets: &[u8]) -> Refusal {
    let offsets = offsets.as_chunks::<NUMBER>().0;
    match whole && offsets.is_sorted() {
        true => Refusal::MessageTooLong,
        false => Refusal::Malformed,
    }
}

/// Where a frame is in a file of any kind, or the empty part at its front.
#[inline]
pub fn place(file: &[u8], i: usize) -> Range<usize> {
    let none = 0..0;
    let Some((front, offsets)) = file.split_first_chunk::<FRONT>() else {
        return none;
    };
    if i >= (u64::from_be_bytes(*front) >> 32) as usize {
        return none;
    }
    let Some(pair) = offsets.get(NUMBER * i..).and_then(<[u8]>::first_chunk) else {
        return none;
    };
    let pair = u64::from_be_bytes(*pair);
    let (start, end) = ((pair >> 32) as usize, pair as u32 as usize);
    if start <= end && end <= file.len() {
        start..end
    } else {
        none
    }
}
