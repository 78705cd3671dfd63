//! Captures: frames saved, opened, found one by one and saved again; and files that are cut, made
//! up or damaged, mostly in their counts and offsets. What opening has to say is told a third time
//! here, number by number of the header, so that each reason can be counted.

use pepperknoll::raw;
use plain::capture::{Capture, LONGEST, LONGEST_FRAME, MOST_FRAMES};
use plain::lent;

use crate::faults::{some_damaged_frame, some_frame};
use crate::frames::{safe_form, some_form};
use crate::support::{safe_by_number, say, Call, Lent, Random, Trial};

pub fn run(trial: &mut Trial) {
    let mut bed = Bed::new();
    several_refusals_of_saving(trial, &mut bed);
    sums_that_wrap(trial, &mut bed);
    several_refusals_of_opening(trial, &mut bed);
    every_cut(trial, &mut bed);
    every_form(trial, &mut bed);
    every_count(trial, &mut bed);
    every_frame_length(trial, &mut bed);
    every_offset(trial, &mut bed);
    saved_and_back(trial, &mut bed);
    damaged(trial, &mut bed);
    the_largest(trial, &mut bed);
}

const DIRT: u8 = 0xEE;

/// The lists lent for a capture.
struct Bed {
    lengths: Lent<usize>,
    frames: Lent<u8>,
    file: Lent<u8>,
}

impl Bed {
    fn new() -> Self {
        Bed {
            lengths: Lent::new(),
            frames: Lent::new(),
            file: Lent::new(),
        }
    }
}

/// Frames to save, as they are lent.
#[derive(Clone, Debug)]
struct Saving {
    form: u8,
    lengths: Vec<usize>,
    frames: Vec<u8>,
    room: usize,
}

impl Saving {
    /// Frames of these lengths, with the room that their file needs.
    fn of(random: &mut Random, form: u8, lengths: &[usize]) -> Self {
        let bytes = lengths.iter().sum();
        Saving {
            form,
            lengths: lengths.to_vec(),
            frames: random.bytes(bytes),
            room: 8 + 4 * (lengths.len() + 1) + bytes,
        }
    }

    /// Saves with all three; gives the file if there is one.
    fn check(&self, trial: &mut Trial, bed: &mut Bed) -> Result<Vec<u8>, u8> {
        let mut out = vec![DIRT; self.room];
        bed.lengths.lend(&self.lengths);
        bed.frames.lend(&self.frames);
        bed.file.lend(&out);
        let wanted = lent::capture_save(self.form, &self.lengths, &self.frames, &mut out);
        // SAFETY: three lists apart, each lent with its own length.
        let got = unsafe {
            raw::pk_capture_save(
                self.form,
                bed.lengths.as_ptr(),
                bed.lengths.len(),
                bed.frames.as_ptr(),
                bed.frames.len(),
                bed.file.as_mut_ptr(),
                bed.file.len(),
            )
        };
        trial.tally.saw(Call::CaptureSave, got);
        assert_eq!(got, wanted, "{self:x?}");
        let what = || format!("{self:x?}");
        bed.file.assert_holds(&out, what);
        bed.lengths.assert_holds(&self.lengths, what);
        bed.frames.assert_holds(&self.frames, what);
        self.check_safe(wanted, &out);
        match got as u8 {
            0 => out.truncate((got >> 8) as usize),
            number => return Err(number),
        }
        Ok(out)
    }

    fn check_safe(&self, wanted: u64, wanted_out: &[u8]) {
        let (form, mut out) = (safe_form(self.form), vec![DIRT; self.room]);
        let got = match pepperknoll::save(form, &self.lengths, &self.frames, &mut out) {
            Ok(length) => (length as u64) << 8,
            Err(refusal) => refusal.number().into(),
        };
        assert_eq!(got, wanted, "{self:x?}");
        assert!(out == wanted_out, "{self:x?}");
    }
}

/// What comes out of opening a file, in the order in which it is judged.
#[derive(Clone, Copy, Debug, PartialEq, Eq)]
enum Judged {
    FrontCut,
    Form,
    Count,
    HeaderCut,
    FirstOffset,
    Falling,
    LastOffset,
    LongFrame,
    Good,
}

const JUDGED: usize = 9;

impl Judged {
    fn of(file: &[u8]) -> Self {
        let numbers = file.as_chunks().0.iter();
        let numbers: Vec<u64> = numbers.map(|&n| u32::from_be_bytes(n).into()).collect();
        let [count, form, offsets @ ..] = &numbers[..] else {
            return Judged::FrontCut;
        };
        if *form > 17 {
            return Judged::Form;
        }
        if *count > 512 {
            return Judged::Count;
        }
        let Some(offsets) = offsets.get(..=*count as usize) else {
            return Judged::HeaderCut;
        };
        let (first, last) = (offsets[0], offsets[offsets.len() - 1]);
        let frames = || offsets.windows(2).map(|pair| (pair[0], pair[1]));
        if first != 8 + 4 * (count + 1) {
            Judged::FirstOffset
        } else if frames().any(|(start, end)| end < start) {
            Judged::Falling
        } else if last != file.len() as u64 {
            Judged::LastOffset
        } else if frames().any(|(start, end)| end - start > 160) {
            Judged::LongFrame
        } else {
            Judged::Good
        }
    }

    fn number(self) -> u8 {
        match self {
            Judged::FrontCut | Judged::HeaderCut => 2,
            Judged::FirstOffset | Judged::Falling | Judged::LastOffset => 2,
            Judged::Form => 1,
            Judged::Count | Judged::LongFrame => 4,
            Judged::Good => 0,
        }
    }
}

/// Opens a file with all three, and by the judgement above.
fn check_open(trial: &mut Trial, bed: &mut Bed, file: &[u8]) -> Judged {
    bed.file.lend(file);
    // SAFETY: the list is lent with its own length.
    let got = unsafe { raw::pk_capture_open(bed.file.as_ptr(), bed.file.len()) };
    trial.tally.saw(Call::CaptureOpen, got);
    let what = || format!("file {file:x?}");
    assert_eq!(got, lent::capture_open(file), "{}", what());
    bed.file.assert_holds(file, what);
    let judged = Judged::of(file);
    assert_eq!(got as u8, judged.number(), "{judged:?}, {}", what());
    let safe = safe_by_number(pepperknoll::Capture::open(file));
    match Capture::open(file) {
        Ok(plain) => check_capture(file, plain, safe.expect("the library opens it")),
        Err(refusal) => assert_eq!(safe, Err(refusal.number()), "{}", what()),
    }
    judged
}

/// The frames of a capture, asked for in every way that there is.
fn check_capture(file: &[u8], plain: Capture<'_>, safe: pepperknoll::Capture<'_>) {
    let wanted: Vec<&[u8]> = plain.frames().collect();
    let form = plain.form.number().map(safe_form);
    assert_eq!(Ok(safe.form()), form, "file {file:x?}");
    assert_eq!((safe.len(), wanted.len()), (plain.count, plain.count));
    assert_eq!(safe.is_empty(), wanted.is_empty());
    let mut frames = safe.frames();
    for (i, &frame) in wanted.iter().enumerate() {
        assert_eq!(frames.len(), wanted.len() - i);
        assert_eq!(safe.frame(i), Some(frame), "frame {i}, file {file:x?}");
        assert_eq!(frames.next(), Some(frame), "frame {i}, file {file:x?}");
    }
    assert_eq!(
        (frames.len(), frames.next(), frames.next()),
        (0, None, None)
    );
    assert!(safe.into_iter().rev().eq(wanted.iter().rev().copied()));
    let (half, past) = (wanted.len() / 2, wanted.len());
    assert_eq!(safe.frames().nth(half), wanted.get(half).copied());
    for i in [past, past + 1, usize::MAX] {
        assert_eq!(safe.frame(i), None, "file {file:x?}");
    }
}

/// What comes out of asking where a frame is.
#[derive(Clone, Copy, Debug, PartialEq, Eq)]
enum Placed {
    /// There is no such frame: the front is cut, or the count is at most the index.
    NotCounted,
    /// One of its offsets is not there.
    Cut,
    Falling,
    PastTheFile,
    Empty,
    /// Some bytes, before the end of the header or after it.
    InTheHeader,
    Found,
}

const PLACED: usize = 7;

impl Placed {
    /// The place of a frame, told by the numbers of the file and by nothing else.
    fn of(file: &[u8], i: usize) -> (Self, u64) {
        let numbers = file.as_chunks().0;
        let number = |at: u128| {
            let bytes = usize::try_from(at).ok().and_then(|at| numbers.get(at));
            bytes.map(|&bytes| u64::from(u32::from_be_bytes(bytes)))
        };
        let counted = number(0).is_some_and(|count| (i as u128) < count.into());
        if numbers.len() < 2 || !counted {
            return (Placed::NotCounted, 0);
        }
        let at = i as u128 + 2;
        let (Some(start), Some(end)) = (number(at), number(at + 1)) else {
            return (Placed::Cut, 0);
        };
        if start > end {
            return (Placed::Falling, 0);
        }
        if end > file.len() as u64 {
            return (Placed::PastTheFile, 0);
        }
        let placed = match end - start {
            0 => Placed::Empty,
            _ if start < 4 * (at as u64 + 2) => Placed::InTheHeader,
            _ => Placed::Found,
        };
        (placed, start | (end - start) << 32)
    }
}

/// Asks all three where a frame is, in the file that was just lent.
fn check_place(trial: &mut Trial, bed: &Bed, i: usize) -> Placed {
    let file = bed.file.content();
    // SAFETY: the list is lent with its own length.
    let got = unsafe { raw::pk_capture_place(bed.file.as_ptr(), bed.file.len(), i) };
    trial.tally.saw(Call::CapturePlace, 0);
    let what = || format!("frame {i}, file {file:x?}");
    assert_eq!(got, lent::capture_place(file, i), "{}", what());
    let (placed, wanted) = Placed::of(file, i);
    assert_eq!(got, wanted, "{placed:?}, {}", what());
    let safe = pepperknoll::place(file, i);
    let start = (got & 0xFFFF_FFFF) as usize;
    assert_eq!(safe, start..start + (got >> 32) as usize, "{}", what());
    assert!(file.get(safe).is_some(), "{}", what());
    placed
}

/// Indexes that wrap to small ones where they are cut to 32 bits, or times 4 to 32 or 64 bits.
const WRAPPING: [usize; 4] = [1 << 32, 1 << 30, 1 << 62, 1 << 63];

/// Opens a file and asks for the places of all frames that it could have, and of some others.
fn check_file(trial: &mut Trial, bed: &mut Bed, file: &[u8]) -> Judged {
    let judged = check_open(trial, bed, file);
    for i in 0..file.len() / 4 + 2 {
        check_place(trial, bed, i);
    }
    for i in WRAPPING.into_iter().flat_map(|i| [i, i + 1, i + 2]) {
        check_place(trial, bed, i);
    }
    for back in 0..4 {
        check_place(trial, bed, u32::MAX as usize - back);
        check_place(trial, bed, usize::MAX - back);
    }
    judged
}

/// Inputs that deserve several refusals, by the numbers that the rules put first.
fn several_refusals_of_saving(trial: &mut Trial, bed: &mut Bed) {
    for (form, lengths, bytes, room, number) in [
        (18, vec![161; 513], 1, 0, 1),
        (255, vec![], 0, 12, 1),
        (17, vec![161; 513], 1, 0, 2),
        (17, vec![], 1, 0, 2),
        (17, vec![10], 0, 100, 2),
        (17, vec![10, 10], 19, 100, 2),
        (17, vec![10, 10], 21, 100, 2),
        (17, vec![0; 513], 0, 0, 4),
        (0, vec![161], 161, 0, 4),
        (16, vec![0, 0, 4096], 4096, 9000, 4),
        (17, vec![160], 160, 175, 5),
        (0, vec![], 0, 11, 5),
        (17, vec![0; 512], 0, 2059, 5),
        (17, vec![], 0, 0, 5),
    ] {
        let saving = Saving {
            form,
            lengths,
            frames: vec![0x77; bytes],
            room,
        };
        assert_eq!(saving.check(trial, bed), Err(number), "{saving:x?}");
    }
}

/// Lengths whose sum is right if it wraps at 32 or 64 bits, and never else.
fn sums_that_wrap(trial: &mut Trial, bed: &mut Bed) {
    for (form, lengths) in [
        (17, vec![usize::MAX, 11]),
        (17, vec![11, usize::MAX]),
        (0, vec![1 << 63, 1 << 63, 10]),
        (3, vec![10, 1 << 63, 1 << 63]),
        (17, vec![1 << 32, 10]),
        (17, vec![u32::MAX as usize, 11]),
        (17, vec![usize::MAX - 149, 160]),
        (17, vec![usize::MAX; 512]),
    ] {
        for (room, bytes) in [(0, 10), (200, 10), (200, 0)] {
            let mut saving = Saving {
                form,
                lengths: lengths.clone(),
                frames: vec![0x77; bytes],
                room,
            };
            assert_eq!(saving.check(trial, bed), Err(2), "{saving:x?}");
            saving.form = 18;
            assert_eq!(saving.check(trial, bed), Err(1), "{saving:x?}");
        }
    }
}

/// A file of these numbers, with so many bytes after them.
fn file_of(numbers: &[u32], bytes: usize) -> Vec<u8> {
    let numbers = numbers.iter().flat_map(|number| number.to_be_bytes());
    numbers.chain(vec![0x77; bytes]).collect()
}

/// Numbers of a header, bytes after them, and what comes out.
type Opening = (&'static [u32], usize, Judged);

const MOST: u32 = u32::MAX;

#[rustfmt::skip]
const OPENINGS: [Opening; 24] = [
    (&[], 0, Judged::FrontCut),
    (&[MOST], 3, Judged::FrontCut),
    (&[MOST, 18], 0, Judged::Form),
    (&[513, MOST], 0, Judged::Form),
    (&[0, 0x100, 12], 0, Judged::Form),
    (&[0, 0x8000_0011, 12], 0, Judged::Form),
    (&[MOST, 17], 0, Judged::Count), // 0 if 1 is added
    (&[MOST, 17, 12], 0, Judged::Count),
    (&[513, 17], 0, Judged::Count),
    (&[0x0001_0000, 17, 12], 0, Judged::Count),
    (&[512, 17], 0, Judged::HeaderCut),
    (&[0, 17], 3, Judged::HeaderCut),
    (&[1, 17, 16], 3, Judged::HeaderCut),
    (&[0, 17, 12], 0, Judged::Good),
    (&[0, 17, 13], 1, Judged::FirstOffset),
    (&[1, 17, 15, 16], 0, Judged::FirstOffset),
    (&[1, 17, 0, 16], 0, Judged::FirstOffset),
    (&[2, 17, 20, 200, 199], 179, Judged::Falling), // and a frame over 160 bytes
    (&[0, 17, 12], 1, Judged::LastOffset),
    (&[1, 17, 16, 17], 0, Judged::LastOffset),
    (&[1, 17, 16, MOST], 3, Judged::LastOffset),
    (&[1, 17, 16, 177], 160, Judged::LastOffset), // and a frame over 160 bytes
    (&[1, 17, 16, 177], 161, Judged::LongFrame),
    (&[3, 17, 24, 24, 184, 184], 160, Judged::Good),
];

/// Files that deserve several refusals, by the reasons that the rules put first.
fn several_refusals_of_opening(trial: &mut Trial, bed: &mut Bed) {
    for (numbers, bytes, wanted) in OPENINGS {
        let file = file_of(numbers, bytes);
        assert_eq!(check_file(trial, bed, &file), wanted, "{file:x?}");
    }
    let zeros = vec![0; 90_000];
    let judged = check_open(trial, bed, &zeros);
    assert_eq!((judged, judged.number()), (Judged::FirstOffset, 2));
}

/// A capture with frames of these lengths.
fn saved(trial: &mut Trial, bed: &mut Bed, form: u8, lengths: &[usize]) -> Vec<u8> {
    let saving = Saving::of(&mut trial.random, form, lengths);
    saving.check(trial, bed).expect("it is saved")
}

/// Captures that end too early or too late, by every number of bytes.
fn every_cut(trial: &mut Trial, bed: &mut Bed) {
    for lengths in [&[][..], &[0], &[10], &[10, 0, 7], &[0, 0, 0, 0], &[3; 12]] {
        let file = saved(trial, bed, 17, lengths);
        let header = 8 + 4 * (lengths.len() + 1);
        for length in 0..=file.len() + 9 {
            let mut cut = file.clone();
            cut.resize(length, 0);
            let wanted = match length {
                ..8 => Judged::FrontCut,
                _ if length < header => Judged::HeaderCut,
                _ if length == file.len() => Judged::Good,
                _ => Judged::LastOffset,
            };
            assert_eq!(check_file(trial, bed, &cut), wanted, "{cut:x?}");
        }
    }
}

/// Every form, numbers that are none, and forms with each higher bit set; saved and opened.
fn every_form(trial: &mut Trial, bed: &mut Bed) {
    for form in 0..=255 {
        let saving = Saving::of(&mut trial.random, form, &[10, 7]);
        let saved = saving.check(trial, bed);
        assert_eq!(saved.is_ok(), form <= 17, "form {form}");
        let mut file = saved.unwrap_or_else(|_| file_of(&[2, form.into(), 20, 30, 37], 17));
        let wanted = match form {
            ..=17 => Judged::Good,
            _ => Judged::Form,
        };
        assert_eq!(check_open(trial, bed, &file), wanted, "form {form}");
        for bit in 8..32 {
            let high = u32::from(form) | 1 << bit;
            set_number(&mut file, 4, high);
            assert_eq!(check_open(trial, bed, &file), Judged::Form, "form {high:x}");
        }
    }
}

/// Counts about the most, and some that are far over it, each with as many offsets as it says, or
/// 513, and each with one more and one less.
fn every_count(trial: &mut Trial, bed: &mut Bed) {
    let high = (10..32).map(|bit| 1 << bit);
    for count in [0, 1, 2, 511, 512, 513, 514, MOST - 1, MOST]
        .into_iter()
        .chain(high)
    {
        let offsets = count.min(513) + 1;
        for offsets in [offsets - 1, offsets, offsets + 1] {
            let header = 8 + 4 * offsets;
            let mut numbers = vec![header; offsets as usize + 2];
            (numbers[0], numbers[1]) = (count, 17);
            let wanted = match count {
                513.. => Judged::Count,
                _ if offsets <= count => Judged::HeaderCut,
                _ if offsets == count + 1 => Judged::Good,
                _ => Judged::FirstOffset,
            };
            let file = file_of(&numbers, 0);
            assert_eq!(check_file(trial, bed, &file), wanted, "{count} frames");
        }
    }
    for count in 510..=514 {
        let saving = Saving::of(&mut trial.random, 17, &vec![0; count]);
        let wanted = if count <= MOST_FRAMES { Ok(()) } else { Err(4) };
        assert_eq!(saving.check(trial, bed).map(|_| ()), wanted);
    }
}

/// Each length about the longest, and about 256 and 512 more, at each place among others.
fn every_frame_length(trial: &mut Trial, bed: &mut Bed) {
    let lengths = [
        0, 1, 158, 159, 160, 161, 162, 255, 256, 257, 416, 512, 672, 4096,
    ];
    for (length, at) in lengths
        .into_iter()
        .flat_map(|l| (0..4).map(move |at| (l, at)))
    {
        let mut others = vec![7, 0, 160, 10];
        others[at] = length;
        let saving = Saving::of(&mut trial.random, 5, &others);
        let wanted = if length <= LONGEST_FRAME {
            Ok(())
        } else {
            Err(4)
        };
        assert_eq!(saving.check(trial, bed).map(|_| ()), wanted);
        let mut numbers = vec![4, 5, 28];
        for length in &others {
            numbers.push(numbers[numbers.len() - 1] + *length as u32);
        }
        let wanted = match length {
            ..=160 => Judged::Good,
            _ => Judged::LongFrame,
        };
        let file = file_of(&numbers, others.iter().sum());
        assert_eq!(check_file(trial, bed, &file), wanted, "{others:?}");
    }
}

/// Every offset of a capture by turns, set to each number that can matter, and with each bit
/// turned.
fn every_offset(trial: &mut Trial, bed: &mut Bed) {
    let file = saved(trial, bed, 17, &[10, 0, 160, 7, 150]);
    let end = file.len() as u32;
    let mut values: Vec<u32> = (0..end + 5).collect();
    values.extend((end + 5..=end + 165).step_by(16));
    values.extend([
        MOST,
        MOST - 1,
        1 << 31,
        (1 << 31) - 1,
        end + 256,
        end + (1 << 16),
    ]);
    for at in (8..32).step_by(4) {
        let now = number_at(&file, at).expect("an offset");
        let turned = (0..32).map(|bit| now ^ 1 << bit);
        for value in values.iter().copied().chain(turned) {
            let mut changed = file.clone();
            set_number(&mut changed, at, value);
            let judged = check_open(trial, bed, &changed);
            assert_eq!(
                judged == Judged::Good,
                changed == file || is_middle(at, value)
            );
            (0..7).for_each(|i| {
                check_place(trial, bed, i);
            });
        }
    }
}

/// Whether the offset at this byte, between two frames, may be moved so: the offsets 32, 42, 42,
/// 202, 209 and 359 do not fall, and neither frame gets too long.
fn is_middle(at: usize, value: u32) -> bool {
    match at {
        12 => (32..=42).contains(&value),
        16 => (42..=202).contains(&value),
        20 => (49..=202).contains(&value),
        24 => (202..=359).contains(&value),
        _ => false,
    }
}

/// Frames as a link has them, some damaged, some of any bytes.
fn some_frames(random: &mut Random, form: u8, count: usize) -> Vec<Vec<u8>> {
    let form_to_make = form.min(17);
    let some = |_| {
        let mut frame = match random.below(8) {
            0 => Vec::new(),
            1 => random.bytes(160),
            2 => random.bytes(159),
            3 | 4 => some_damaged_frame(random, form_to_make),
            _ => some_frame(random, form_to_make),
        };
        if !random.one_in(400) {
            frame.truncate(LONGEST_FRAME);
        }
        frame
    };
    (0..count).map(some).collect()
}

/// How many frames a capture has: mostly few, at times as many as can be, seldom one more.
fn some_count(random: &mut Random) -> usize {
    match random.below(64) {
        0 => random.pick(&[511, 512, 513]),
        1 => random.below(515),
        2..=5 => 0,
        _ => random.below(12),
    }
}

fn some_saving(random: &mut Random) -> Saving {
    let (form, count) = (some_form(random), some_count(random));
    let frames = some_frames(random, form, count);
    let lengths: Vec<usize> = frames.iter().map(Vec::len).collect();
    let mut saving = Saving::of(random, form, &lengths);
    saving.frames = frames.concat();
    saving.room = random.places(saving.room);
    if random.one_in(24) && count > 0 {
        let length = &mut saving.lengths[random.below(count)];
        *length = random.pick(&[0, 1, *length + 1, length.wrapping_sub(1), 161, 1 << 32]);
    }
    saving
}

/// Saved, opened, taken apart and saved again: the frames come back as they were, in order, and the
/// file is the same byte for byte.
fn saved_and_back(trial: &mut Trial, bed: &mut Bed) {
    let mut back = 0;
    for _ in 0..trial.times(20_000, 200_000) {
        let saving = some_saving(&mut trial.random);
        let Ok(file) = saving.check(trial, bed) else {
            continue;
        };
        assert_eq!(check_file(trial, bed, &file), Judged::Good, "{saving:x?}");
        let capture = pepperknoll::Capture::open(&file).expect("it was just opened");
        let lengths: Vec<usize> = capture.frames().map(<[u8]>::len).collect();
        let frames: Vec<u8> = capture.into_iter().flatten().copied().collect();
        assert_eq!((&lengths, &frames), (&saving.lengths, &saving.frames));
        assert_eq!(capture.form(), safe_form(saving.form));
        let again = Saving {
            lengths,
            frames,
            room: file.len(),
            ..saving
        };
        assert_eq!(again.check(trial, bed), Ok(file), "{again:x?}");
        back += 1;
    }
    assert!(back >= trial.times(10_000, 100_000), "{back} are too few");
}

fn number_at(file: &[u8], at: usize) -> Option<u32> {
    let bytes = file.get(at..)?.first_chunk()?;
    Some(u32::from_be_bytes(*bytes))
}

/// Sets a number of the header, if the file has it.
fn set_number(file: &mut [u8], at: usize, value: u32) {
    if let Some(place) = file.get_mut(at..at + 4) {
        place.copy_from_slice(&value.to_be_bytes());
    }
}

/// One thing that is wrong with a file: its end, its count, its form, an offset, any bit.
fn damage(random: &mut Random, file: &mut Vec<u8>) {
    let count = number_at(file, 0).unwrap_or(0);
    match random.below(8) {
        0 => move_the_end(random, file),
        1 => turn_a_bit(random, file),
        2 => {
            let near = [count.wrapping_sub(1), count.wrapping_add(1)];
            let other = [0, 1, 511, 512, 513, MOST, 1 << 8, 1 << 31];
            let value = if random.one_in(2) {
                random.pick(&near)
            } else {
                random.pick(&other)
            };
            set_number(file, 0, value);
        }
        3 => {
            let some = [0, 1, 16, 17, 18, 19, 20, MOST, 1 << 8, 17 << 24];
            set_number(file, 4, random.pick(&some));
        }
        _ => damage_an_offset(random, file, count.min(511) as usize),
    }
}

fn move_the_end(random: &mut Random, file: &mut Vec<u8>) {
    match random.below(3) {
        0 => file.truncate(random.below(file.len() + 1)),
        1 => file.truncate(file.len().saturating_sub(1)),
        _ => file.resize(file.len() + 1 + random.below(200), 0x77),
    }
}

/// Sets an offset to any number, to one that stands elsewhere, or to one near it.
fn damage_an_offset(random: &mut Random, file: &mut [u8], count: usize) {
    let (at, other) = (
        8 + 4 * random.below(count + 1),
        8 + 4 * random.below(count + 1),
    );
    let (Some(now), Some(copied)) = (number_at(file, at), number_at(file, other)) else {
        return;
    };
    let moved = random.pick(&[1, MOST, 2, 4, 160, 161, MOST - 160, 256, 1 << 16, 1 << 31]);
    let value = match random.below(6) {
        0 => random.word() as u32,
        1 => random.pick(&[0, MOST, file.len() as u32, at as u32, 12 + 4 * count as u32]),
        2 => copied,
        _ => now.wrapping_add(moved),
    };
    set_number(file, at, value);
}

/// Turns one bit, mostly one of the header.
fn turn_a_bit(random: &mut Random, file: &mut [u8]) {
    let most = if random.one_in(4) {
        file.len()
    } else {
        file.len().min(40)
    };
    if most > 0 {
        file[random.below(most)] ^= 1 << random.below(8);
    }
}

/// A capture with one thing wrong, or several.
fn some_damaged_file(random: &mut Random) -> Vec<u8> {
    let (form, count) = (random.below(18) as u8, random.below(10));
    let lengths = [0, 7, 10, 10, 20, 140, 159, 160];
    let lengths: Vec<usize> = (0..count).map(|_| random.pick(&lengths)).collect();
    let frames = random.bytes(lengths.iter().sum());
    let mut file = vec![0; 12 + 4 * count + frames.len()];
    assert_eq!(
        lent::capture_save(form, &lengths, &frames, &mut file) as u8,
        0
    );
    for _ in 0..random.pick(&[1, 1, 2, 3]) {
        damage(random, &mut file);
    }
    file
}

/// Each outcome of opening has to have been seen often, and each of asking for a place, also in
/// files that are not opened.
fn damaged(trial: &mut Trial, bed: &mut Bed) {
    let mut judgements = [0u64; JUDGED];
    let mut places = [[0u64; PLACED]; 2];
    for _ in 0..trial.times(300_000, 3_000_000) {
        let file = some_damaged_file(&mut trial.random);
        let judged = check_open(trial, bed, &file);
        judgements[judged as usize] += 1;
        for i in 0..11 {
            let placed = check_place(trial, bed, i);
            places[usize::from(judged == Judged::Good)][placed as usize] += 1;
        }
    }
    say(&format!(
        "damaged captures by outcome: {judgements:?}, places {places:?}\n"
    ));
    let often = |times: &u64| *times >= 500;
    assert!(judgements.iter().all(often), "{judgements:?}");
    let [refused, opened] = places;
    assert!(refused.iter().all(often), "{refused:?}");
    let of_good = [Placed::NotCounted, Placed::Empty, Placed::Found];
    assert!(
        of_good
            .iter()
            .all(|&placed| often(&opened[placed as usize])),
        "{opened:?}"
    );
}

/// The largest capture, and what is one byte or one frame larger.
fn the_largest(trial: &mut Trial, bed: &mut Bed) {
    for form in [0, 16, 17] {
        let mut saving = Saving::of(&mut trial.random, form, &[LONGEST_FRAME; MOST_FRAMES]);
        assert_eq!((saving.room, LONGEST), (83_980, 83_980));
        let file = saving.check(trial, bed).expect("it is saved");
        assert_eq!(check_file(trial, bed, &file), Judged::Good);
        saving.room += 1;
        assert_eq!(saving.check(trial, bed), Ok(file));
        saving.room -= 2;
        assert_eq!(saving.check(trial, bed), Err(5));
        let longer = Saving::of(&mut trial.random, form, &[LONGEST_FRAME; MOST_FRAMES + 1]);
        assert_eq!(longer.check(trial, bed), Err(4));
        (saving.lengths[511], saving.lengths[510]) = (161, 159);
        assert_eq!(saving.check(trial, bed), Err(4));
    }
}
