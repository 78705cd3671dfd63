//! Captures: frames in one file. Its header is numbers of 32 bits, the highest byte first: how many
//! frames there are, their form, the place of each in the file, and where the last one ends. Then
//! come the frames, without gaps.

use std::ops::Range;

use crate::frame::Form;
use crate::message::sum;
use crate::Refusal;

/// A number of the header.
const NUMBER: usize = 4;
/// The count and the form, which every capture has.
const FRONT: usize = 2 * NUMBER;

/// The most frames of a capture.
pub const MOST_FRAMES: usize = 512;
/// The longest frame in one.
pub const LONGEST_FRAME: usize = 160;
/// The longest capture.
pub const LONGEST: usize = header_len(MOST_FRAMES) + MOST_FRAMES * LONGEST_FRAME;

/// The header of a capture with so many frames: one offset more than there are frames.
#[inline]
const fn header_len(count: usize) -> usize {
    FRONT + NUMBER * (count + 1)
}

/// Saves frames, which stand one after the other and have these lengths, to the front of `out`;
/// answers the length of the file. The frames are not read, and any of them may be empty. Checks 1,
/// then the sum of the lengths (2), then 4 and 5.
#[inline]
pub fn save(
    form: Form,
    lengths: &[usize],
    frames: &[u8],
    out: &mut [u8],
) -> Result<usize, Refusal> {
    let form = form.number()?;
    if sum(lengths) != Some(frames.len()) {
        return Err(Refusal::Malformed);
    }
    if lengths.len() > MOST_FRAMES || lengths.iter().any(|&length| length > LONGEST_FRAME) {
        return Err(Refusal::MessageTooLong);
    }
    let header = header_len(lengths.len());
    let file = out
        .get_mut(..header + frames.len())
        .ok_or(Refusal::OutputTooShort)?;
    let (numbers, places) = file.split_at_mut(header);
    places.copy_from_slice(frames);
    let [count, form_place, offsets @ ..] = numbers.as_chunks_mut().0 else {
        unreachable!("every header has a count and a form");
    };
    *count = number(lengths.len());
    *form_place = number(form.into());
    let mut end = header;
    for (place, length) in offsets.iter_mut().zip(lengths.iter().chain([&0])) {
        *place = number(end);
        end += length;
    }
    Ok(file.len())
}

/// A number as the header has it; none is over the longest capture.
#[inline]
fn number(value: usize) -> [u8; NUMBER] {
    (value as u32).to_be_bytes()
}

/// A file that was opened and found good.
#[derive(Clone, Copy, Debug, PartialEq, Eq)]
pub struct Capture<'a> {
    pub form: Form,
    /// How many frames there are.
    pub count: usize,
    file: &'a [u8],
}

impl<'a> Capture<'a> {
    /// Judges all of a file. Checks that it has a count and a form (2), then the form (1), the
    /// count (4), the header's end and the offsets (2), then the lengths of the frames (4).
    #[inline]
    pub fn open(file: &'a [u8]) -> Result<Self, Refusal> {
        let Front { count, form } = Front::of(file).ok_or(Refusal::Malformed)?;
        let number = u8::try_from(form).map_err(|_| Refusal::OutOfRange)?;
        let form = Form::from_number(number)?;
        if count > MOST_FRAMES {
            return Err(Refusal::MessageTooLong);
        }
        check_offsets(file, count)?;
        Ok(Capture { form, count, file })
    }

    /// The frames, in order.
    pub fn frames(self) -> impl Iterator<Item = &'a [u8]> {
        (0..self.count).map(move |i| &self.file[place(self.file, i)])
    }
}

/// What a file says of itself in its first eight bytes.
struct Front {
    count: usize,
    form: usize,
}

impl Front {
    #[inline]
    fn of(file: &[u8]) -> Option<Self> {
        let (count, form) = (number_at(file, 0)?, number_at(file, NUMBER)?);
        Some(Front { count, form })
    }
}

/// The number at this place, all 32 bits of it, if the file has it whole.
#[inline]
fn number_at(file: &[u8], at: usize) -> Option<usize> {
    let bytes = file.get(at..)?.first_chunk::<NUMBER>()?;
    Some(u32::from_be_bytes(*bytes) as usize)
}

/// Checks that the offsets run from the header's end to the file's end and never fall (2), then
/// that no frame is too long (4).
#[inline]
fn check_offsets(file: &[u8], count: usize) -> Result<(), Refusal> {
    let header = header_len(count);
    let offsets = file.get(FRONT..header).ok_or(Refusal::Malformed)?;
    let offsets = offsets.as_chunks::<NUMBER>().0.iter();
    let mut offsets = offsets.map(|bytes| u32::from_be_bytes(*bytes) as usize);
    if offsets.next() != Some(header) {
        return Err(Refusal::Malformed);
    }
    let (mut end, mut longest) = (header, 0);
    for next in offsets {
        if next < end {
            return Err(Refusal::Malformed);
        }
        longest = longest.max(next - end);
        end = next;
    }
    if end != file.len() {
        return Err(Refusal::Malformed);
    }
    if longest > LONGEST_FRAME {
        return Err(Refusal::MessageTooLong);
    }
    Ok(())
}

/// Where a frame is in a file of any kind, by its two offsets alone: a part of the file. Where the
/// file counts no such frame, has not both offsets whole, or these are no part of it, the answer is
/// the empty part at its front.
#[inline]
pub fn place(file: &[u8], i: usize) -> Range<usize> {
    bounds(file, i).unwrap_or(0..0)
}

#[inline]
fn bounds(file: &[u8], i: usize) -> Option<Range<usize>> {
    if i >= Front::of(file)?.count {
        return None;
    }
    // A count is a number of 32 bits, so that nothing wraps here.
    let at = FRONT + NUMBER * i;
    let (start, end) = (number_at(file, at)?, number_at(file, at + NUMBER)?);
    (start <= end && end <= file.len()).then_some(start..end)
}

#[cfg(test)]
mod tests {
    use super::*;

    const LONG: Form = Form::LongUplink;

    /// A file of these numbers, with so many bytes after them.
    fn file(numbers: &[u32], bytes: usize) -> Vec<u8> {
        let numbers = numbers.iter().flat_map(|number| number.to_be_bytes());
        numbers.chain(vec![0x77; bytes]).collect()
    }

    fn refused(file: &[u8]) -> u8 {
        Capture::open(file).map_or_else(Refusal::number, |_| 0)
    }

    #[test]
    fn a_capture_by_its_bytes() {
        let mut out = [0xEE; 30];
        let frames = [0x60, 5, 0x37, 0x64, 5];
        assert_eq!(save(LONG, &[3, 0, 2], &frames, &mut out), Ok(29));
        let mut wanted = file(&[3, 17, 24, 27, 27, 29], 0);
        wanted.extend(frames);
        assert_eq!((&out[..29], out[29]), (&wanted[..], 0xEE));
        let capture = Capture::open(&wanted).unwrap();
        assert_eq!((capture.form, capture.count), (LONG, 3));
        let back: Vec<&[u8]> = capture.frames().collect();
        assert_eq!(back, [&frames[..3], &[], &frames[3..]]);
    }

    #[test]
    fn no_frames_and_empty_ones() {
        let mut out = [0xEE; 16];
        assert_eq!(save(Form::ShortUplink, &[], &[], &mut out), Ok(12));
        assert_eq!(out[..12], file(&[0, 0, 12], 0));
        assert_eq!(out[12..], [0xEE; 4]);
        assert_eq!(Capture::open(&out[..12]).unwrap().frames().count(), 0);
        assert_eq!(save(LONG, &[0], &[], &mut out), Ok(16));
        assert_eq!(out[..], file(&[1, 17, 16, 16], 0));
        let capture = Capture::open(&out).unwrap();
        assert!(capture.frames().eq([&[][..]]));
    }

    #[test]
    fn the_largest_capture() {
        let (lengths, frames) = ([160; 512], vec![0x77; 81_920]);
        let mut out = vec![0xEE; 83_980];
        assert_eq!(LONGEST, out.len());
        assert_eq!(save(LONG, &lengths, &frames, &mut out), Ok(83_980));
        let capture = Capture::open(&out).unwrap();
        assert!(capture.frames().all(|frame| frame == [0x77; 160]));
        assert_eq!(capture.count, 512);
    }

    /// Each refusal with all later ones beside it.
    #[test]
    fn saving_order() {
        let wide = [161; 513];
        let sum: usize = wide.iter().sum();
        let saved = |form, lengths: &[usize], bytes: usize| {
            let mut out = [0xEE; 12];
            let number = save(form, lengths, &vec![0; bytes], &mut out).map_err(Refusal::number);
            assert_eq!(out, [0xEE; 12]);
            number
        };
        assert_eq!(saved(Form::LongDownlink(0), &wide, 0), Err(1));
        assert_eq!(saved(Form::LongDownlink(17), &[], 0), Err(1));
        assert_eq!(saved(LONG, &wide, sum - 1), Err(2));
        assert_eq!(saved(LONG, &[], 1), Err(2));
        assert_eq!(saved(LONG, &[0; 513], 0), Err(4));
        assert_eq!(saved(LONG, &[1, 161], 162), Err(4));
        assert_eq!(saved(LONG, &[160], 160), Err(5));
        assert_eq!(saved(LONG, &[0], 0), Err(5));
    }

    /// A true sum: one that wraps to the right number is wrong.
    #[test]
    fn a_sum_that_wraps() {
        let mut out = [0xEE; 200];
        let refused = save(LONG, &[usize::MAX, 11], &[0; 10], &mut out);
        assert_eq!(refused, Err(Refusal::Malformed));
        assert_eq!(out, [0xEE; 200]);
    }

    #[test]
    fn opening_order() {
        let most = u32::MAX;
        for (bytes, number) in [
            (file(&[], 0), 2),
            (file(&[most], 3), 2), // no whole form, whatever the count
            (file(&[most, 18], 0), 1),
            (file(&[0, most], 0), 1),
            (file(&[0, 0x0100_0000], 0), 1), // a form by its low bits alone
            (file(&[0, 0x100], 0), 1),
            (file(&[513, 17], 0), 4),
            (file(&[most, 17], 0), 4), // a count that wraps if 1 is added
            (file(&[512, 17], 0), 2),
            (file(&[0, 17], 0), 2),
            (file(&[0, 17], 3), 2),
            (file(&[0, 17, 12], 0), 0),
            (file(&[0, 17, 12], 1), 2), // the last offset below the file's end
            (file(&[0, 17, 13], 1), 2), // the first past the header's
            (file(&[0, 17, 11], 0), 2),
            (file(&[1, 17, 16, 15], 0), 2),
            (file(&[2, 17, 20, 22, 21], 1), 2),
            (file(&[1, 17, 16, 17], 0), 2),
            (file(&[1, 17, 16, 176], 160), 0),
            (file(&[1, 17, 16, 177], 161), 4),
            (file(&[1, 17, 16, 177], 162), 2), // before the long frame
            (file(&[2, 17, 20, 190, 189], 169), 2),
        ] {
            assert_eq!(refused(&bytes), number, "{bytes:x?}");
        }
    }

    /// The limit of the program is none here: the file has no offset.
    #[test]
    fn a_file_over_the_longest() {
        assert_eq!(refused(&vec![0; 90_000]), 2);
    }

    #[test]
    fn every_cut() {
        let mut out = vec![0; 46];
        assert_eq!(save(LONG, &[10, 3, 9], &[0x77; 22], &mut out), Ok(46));
        for length in 0..46 {
            assert_eq!(refused(&out[..length]), 2);
        }
        assert_eq!(refused(&out), 0);
    }

    /// A place is told by two offsets, whatever else is wrong with the file.
    #[test]
    fn places() {
        let good = file(&[2, 17, 20, 23, 25], 5);
        assert_eq!((place(&good, 0), place(&good, 1)), (20..23, 23..25));
        for i in [2, 3, 1 << 32, usize::MAX / 4, usize::MAX - 1, usize::MAX] {
            assert_eq!(place(&good, i), 0..0);
        }
        let odd = file(&[u32::MAX, 99, 30, 8, 8, 9, 1000], 5);
        assert_eq!(place(&odd, 0), 0..0); // they fall
        assert_eq!((place(&odd, 1), place(&odd, 2)), (8..8, 8..9));
        assert_eq!(place(&odd, 3), 0..0); // past the file
        assert_eq!(place(&odd, 5), 0..0); // one whole offset, and a byte of the next
        assert_eq!(place(&odd, u32::MAX as usize - 1), 0..0);
        for length in 0..8 {
            assert_eq!(place(&odd[..length], 1), 0..0);
        }
        for length in [12, 16, 19] {
            assert_eq!(place(&odd[..length], 1), 0..0); // a cut offset
        }
        assert_eq!(place(&odd[..20], 1), 8..8);
        assert_eq!(place(&file(&[1, 17, 0, 16], 0), 0), 0..16);
        assert_eq!(place(&file(&[1, 17, 0, 17], 0), 0), 0..0);
    }
}
