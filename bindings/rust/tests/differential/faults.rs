//! Where frames are bad. Damage of every kind and in every form, one at a time and two at once:
//! library and `plain` have to name the same byte. Then what a position means, by the answers of
//! the library alone: nothing after that byte matters, that byte does, and in a run of frames the
//! position of the bad one is counted from its start.

use pepperknoll::raw;
use plain::frame::{Form, Sizes};
use plain::packet::PACKET_BYTES;

use crate::frames::{check_read, plain_read, Bed, SHORT};
use crate::kinds::{Kind, KINDS, OTHER_FRAMES};
use crate::messages::{self, run_of_frames, Joining};
use crate::support::{by_place, say, Call, Lent, Random, Trial};

pub fn run(trial: &mut Trial) {
    worked_examples(trial);
    examples_of_other_kinds(trial);
    every_two_padding_bytes(trial);
    damaged(trial);
    nothing_after_the_fault_matters(trial);
    the_byte_itself_matters(trial);
    bad_frames_in_runs(trial);
    let compared = trial.tally.count(Call::FrameFault, &[2, 3, 13]);
    let in_runs = trial.tally.count(Call::MessageFault, &[2, 3, 13]);
    say(&format!(
        "positions of damaged frames: {compared}, of runs: {in_runs}\n"
    ));
    assert!(compared >= trial.times(1_000_000, 4_000_000), "too few");
}

/// The forms are the numbers below this one.
const FORMS: u8 = 18;
const LONG: u8 = 17;

fn sizes(form: u8) -> Sizes {
    let form = Form::from_number(form).expect("a form");
    form.sizes().expect("a form")
}

/// First bytes of the two clearing packets; those of DATA are 80 hex and up.
const REQUEST: u8 = 0x58;
const CONFIRMATION: u8 = 0x5C;

/// The byte with LV, the last of the header, where the kind that the first byte names has one.
fn lv_place(first: u8) -> Option<usize> {
    Kind::of(first).and_then(Kind::lv_place)
}

fn zeros_after(front: &[u8], length: usize) -> Vec<u8> {
    let mut frame = front.to_vec();
    frame.resize(length, 0);
    frame
}

/// What the library says to a frame: the refusal number, 0 for done, and the position.
fn told(lent: &mut Lent<u8>, form: u8, frame: &[u8]) -> (u8, usize) {
    lent.lend(frame);
    let (start, length) = (lent.as_ptr(), lent.len());
    let mut packet = [0; PACKET_BYTES];
    // SAFETY: two lists apart, each lent with its own length.
    let told = unsafe {
        let answer = raw::pk_frame_read(form, start, length, packet.as_mut_ptr(), PACKET_BYTES);
        (answer as u8, raw::pk_frame_fault(form, start, length))
    };
    lent.assert_holds(frame, || format!("form {form}"));
    told
}

/// Frames with the refusal and the position that the rules give them.
fn worked_examples(trial: &mut Trial) {
    let (mut bed, mut lent) = (Bed::new(), Lent::new());
    let request = [REQUEST, 9, 0x32, 0x41, 0x8D, 0xA2, 7];
    let mut lv_below = request;
    lv_below[6] = 6;
    let mut fill = request;
    fill[0] = 0x59;
    let confirmation = [CONFIRMATION, 9, 0x32, 0x41];
    let with_padding = [CONFIRMATION, 9, 0x32, 0x41, 0, 0, 0, 0, 0, 1];
    let mut long_and_wrong = zeros_after(&[0x80, 0, 3], 20);
    long_and_wrong[19] = 1;
    for (form, frame, wanted) in [
        (LONG, zeros_after(&request, 10), (0, 0)),
        (18, zeros_after(&request, 10), (1, 0)),
        (LONG, vec![], (2, 0)),
        (LONG, vec![0; 29], (2, 29)),
        (LONG, zeros_after(&fill, 10), (3, 0)),
        (LONG, zeros_after(&[0x80, 0, 2], 10), (3, 2)),
        (LONG, zeros_after(&lv_below, 10), (3, 6)),
        (LONG, zeros_after(&confirmation, 20), (3, 10)),
        (LONG, zeros_after(&with_padding, 20), (3, 9)),
        (SHORT, zeros_after(&confirmation, 14), (3, 7)),
        (LONG, zeros_after(&[0x80, 0, 2], 160), (0, 0)),
        (LONG, zeros_after(&[0x80, 0, 3], 160), (13, 152)),
        (LONG, zeros_after(&[0x80, 0, 10], 160), (13, 152)),
        (1, zeros_after(&[0x80, 0, 3], 20), (13, 10)),
        (1, long_and_wrong, (3, 19)),
        (SHORT, zeros_after(&[0x80, 0, 1], 35), (13, 28)),
    ] {
        assert_eq!(told(&mut lent, form, &frame), wanted, "{frame:x?}");
        check_read(trial, &mut bed, form, &frame);
    }
}

/// A form, how a frame begins, its length, and the refusal and position that the rules give it.
type Example = (u8, &'static [u8], usize, (u8, usize));

/// The same of the other kinds.
#[rustfmt::skip]
const OF_OTHER_KINDS: [Example; 20] = [
    (LONG, &[0x60, 5, 0x37], 10, (0, 0)),
    (LONG, &[0x60, 5, 0x37], 20, (3, 10)),
    (LONG, &[0x60, 5, 0x37, 0, 0, 0, 0, 0, 0, 1], 20, (3, 9)),
    (LONG, &[0x60, 0xC5, 0x37], 10, (3, 1)),
    (1, &[0x54, 0x45, 0x32, 0x41, 0x15], 10, (0, 0)),
    (1, &[0x54, 0x45, 0x32, 0x41, 0x45], 10, (3, 4)),
    (LONG, &[0x54, 0x45, 0x32, 0x41, 0x05], 10, (3, 1)),
    (1, &[0x50, 0x85, 0xF2, 0x41, 0x65], 10, (0, 0)),
    (LONG, &[0x50, 0x85, 0xF2, 0x41, 0x65], 10, (3, 2)),
    (1, &[0x50, 0xC5, 0x32, 0x41, 0x05], 10, (3, 1)),
    (1, &[0x50, 0x85, 0x32, 0x41, 0x04], 10, (3, 4)),
    (1, &[0x50, 0x85, 0x32, 0x41, 0x04], 20, (13, 10)),
    (LONG, &[0x74, 0x05, 0x34, 0xAA], 10, (0, 0)),
    (LONG, &[0x74, 0x05, 0x32], 10, (3, 2)),
    (LONG, &[0x75, 0x05, 0x34, 0xAA], 10, (3, 0)),
    (LONG, &[0x68, 0x05, 0x31, 1, 2], 10, (3, 2)),
    (LONG, &[0x7C, 0x05, 0x38], 10, (3, 2)),
    (LONG, &[0x7E, 0x05, 0x30], 10, (3, 0)),
    (LONG, &[0x78, 0x05, 0x30], 10, (3, 0)),
    (LONG, &[0x4F, 0x05, 0x30], 10, (3, 0)),
];

fn examples_of_other_kinds(trial: &mut Trial) {
    let (mut bed, mut lent) = (Bed::new(), Lent::new());
    for (form, front, length, wanted) in OF_OTHER_KINDS {
        let frame = zeros_after(front, length);
        assert_eq!(told(&mut lent, form, &frame), wanted, "{frame:x?}");
        check_read(trial, &mut bed, form, &frame);
    }
}

/// Each LV in each number of segments of every form, with each two padding bytes wrong, also where
/// both are the same one.
fn every_two_padding_bytes(trial: &mut Trial) {
    let most = trial.times(3, 18) as usize;
    for form in 0..FORMS {
        let segment = sizes(form).segment;
        for kind in &KINDS {
            let Some(place) = kind.lv_place() else {
                let good = zeros_after(&[kind.first], segment);
                two_padding_bytes(trial, form, &good, kind.header);
                continue;
            };
            for (segments, lv) in (1..=most).flat_map(|s| (1..=segment).map(move |lv| (s, lv))) {
                let packet = segment * (segments - 1) + lv;
                if packet > place {
                    let mut good = zeros_after(&[kind.first], segment * segments);
                    good[place] = lv as u8;
                    two_padding_bytes(trial, form, &good, packet);
                }
            }
        }
    }
}

/// Each two bytes of the padding, which begins here: the first is named, whatever the packet's
/// length.
fn two_padding_bytes(trial: &mut Trial, form: u8, good: &[u8], start: usize) {
    let (mut bed, mut lent) = (Bed::new(), Lent::new());
    check_read(trial, &mut bed, form, good);
    for first in start..good.len() {
        for second in first..good.len() {
            let mut frame = good.to_vec();
            (frame[first], frame[second]) = (0x80, 1);
            assert_eq!(told(&mut lent, form, &frame), (3, first), "{frame:x?}");
            check_read(trial, &mut bed, form, &frame);
        }
    }
}

/// A frame before it is damaged: it reads, or its packet is too long for the form.
fn some_frame(random: &mut Random, form: u8) -> Vec<u8> {
    match random.below(KINDS.len() + OTHER_FRAMES.len()) {
        at if at < KINDS.len() => frame_of_kind(random, form, &KINDS[at]),
        at => OTHER_FRAMES[at - KINDS.len()](random, form),
    }
}

fn frame_of_kind(random: &mut Random, form: u8, kind: &Kind) -> Vec<u8> {
    let Sizes { segment, largest } = sizes(form);
    let full = largest.div_ceil(segment);
    let segments = match random.below(5) {
        _ if !kind.has_user => 1,
        0 => full + random.below(3),
        1 => 1 + random.below(full),
        _ => 1 + random.below(full.min(3)),
    };
    let mut frame = kind.some_front(random, form, segment * segments);
    let Some(place) = kind.lv_place() else {
        frame[kind.header..].fill(0);
        return frame;
    };
    let least = if segments == 1 { kind.header } else { 1 };
    let lv = least + random.below(segment + 1 - least);
    frame[place] = frame[place] & 0xF0 | lv as u8;
    let packet = segment * (segments - 1) + lv;
    frame[packet..].fill(0);
    frame
}

/// One thing that is wrong with a frame: first bits, fill, LV, padding, segments past those that
/// there should be, a length that is no whole number of segments, any byte.
fn damage(random: &mut Random, form: u8, frame: &mut Vec<u8>) {
    let segment = sizes(form).segment;
    if frame.is_empty() {
        frame.extend([0x80, 0, 3]);
        return;
    }
    let lv = lv_place(frame[0]).filter(|&place| place < frame.len());
    let at = random.below(frame.len());
    let back = 1 + random.below(frame.len().min(segment));
    let near_end = frame.len() - back;
    match random.below(13) {
        0 => frame[0] = random.byte() & 0x7F,
        1 => frame[0] ^= 1 << random.below(7),
        2 | 3 => damage_fill(random, form, frame),
        4 => frame[lv.unwrap_or(at)] ^= 1 << random.below(4),
        5 => frame[lv.unwrap_or(at)] &= random.pick(&[0xF0, 0xF1, 0xF4, 0xF6]),
        6 | 7 => frame[near_end] = 1 << random.below(8),
        8 => *frame.last_mut().expect("it is not empty") = random.byte(),
        9 => frame.extend(vec![0; segment * (1 + random.below(2))]),
        10 => frame.extend(random.bytes(segment)),
        11 => match random.below(2) {
            0 => frame.truncate(at),
            _ => frame.extend(vec![0; 1 + random.below(segment)]),
        },
        _ => frame[at] = random.byte(),
    }
}

/// Sets a bit of the fill, if the kind has any; else any bit of the header.
fn damage_fill(random: &mut Random, form: u8, frame: &mut [u8]) {
    let bits: Vec<(usize, u8)> = match Kind::of(frame[0]) {
        Some(kind) => (0..kind.header)
            .flat_map(|at| (0..8).map(move |bit| (at, 1 << bit)))
            .filter(|&(at, bit)| kind.fill_at(form, at) & bit != 0)
            .collect(),
        None => Vec::new(),
    };
    let any = (random.below(7), 1 << random.below(8));
    let (at, bit) = if bits.is_empty() {
        any
    } else {
        random.pick(&bits)
    };
    if let Some(byte) = frame.get_mut(at) {
        *byte |= bit;
    }
}

/// A frame with one or two things wrong, or more.
fn some_damaged_frame(random: &mut Random, form: u8) -> Vec<u8> {
    let mut frame = some_frame(random, form);
    for _ in 0..random.pick(&[1, 2, 2, 3]) {
        damage(random, form, &mut frame);
    }
    frame
}

/// What a position is given for.
#[derive(Clone, Copy, Debug, PartialEq, Eq)]
enum Place {
    Length,
    FirstBits,
    Fill,
    Lv,
    Padding,
    ZeroPastTheSegment,
    BytePastTheSegment,
    LargestSize,
}

const PLACES: [Place; 8] = [
    Place::Length,
    Place::FirstBits,
    Place::Fill,
    Place::Lv,
    Place::Padding,
    Place::ZeroPastTheSegment,
    Place::BytePastTheSegment,
    Place::LargestSize,
];

impl Place {
    /// Whether a frame of a known kind can be wrong there.
    fn is_of(self, kind: &Kind, form: u8) -> bool {
        match self {
            Place::Length | Place::FirstBits => false,
            Place::Fill => kind.has_fill(form),
            Place::Lv | Place::LargestSize => kind.has_user,
            Place::Padding => true,
            Place::ZeroPastTheSegment | Place::BytePastTheSegment => !kind.has_user,
        }
    }
}

/// The place of a refusal in a frame of one of the kinds, or in one of no kind at all.
fn place(form: u8, frame: &[u8], number: u8, at: usize) -> Option<Place> {
    match (number, at) {
        (2, _) => return Some(Place::Length),
        (3, 0) => return Some(Place::FirstBits),
        _ => (),
    }
    let kind = Kind::of(frame[0])?;
    Some(if number == 13 {
        Place::LargestSize
    } else if frame[at] & kind.fill_at(form, at) != 0 {
        Place::Fill
    } else if kind.lv_place() == Some(at) {
        Place::Lv
    } else if kind.has_user || at < sizes(form).segment {
        Place::Padding
    } else if frame[at] == 0 {
        Place::ZeroPastTheSegment
    } else {
        Place::BytePastTheSegment
    })
}

/// Every form by turns. Each has to have been refused often for each thing that has a position, and
/// so has each kind, in either direction, for all that it has.
fn damaged(trial: &mut Trial) {
    let mut bed = Bed::new();
    let mut seen = [[0u64; PLACES.len()]; FORMS as usize];
    let mut by_kind = [[[0u64; PLACES.len()]; KINDS.len()]; 2];
    for turn in 0..trial.times(1_500_000, 6_000_000) {
        let form = (turn % u64::from(FORMS)) as u8;
        let frame = some_damaged_frame(&mut trial.random, form);
        check_read(trial, &mut bed, form, &frame);
        let Err((number, at)) = by_place(plain_read(form, &frame)) else {
            continue;
        };
        let Some(place) = place(form, &frame, number, at) else {
            continue;
        };
        seen[usize::from(form)][place as usize] += 1;
        if let Some(kind) = frame.first().and_then(|&first| Kind::of(first)) {
            let down = usize::from(form != SHORT && form != LONG);
            by_kind[down][usize::from(kind.number)][place as usize] += 1;
        }
    }
    for (form, places) in seen.iter().enumerate() {
        assert!(
            places.iter().all(|&times| times >= 20),
            "form {form}: {places:?}"
        );
    }
    for (kind, form) in KINDS.iter().flat_map(|kind| [(kind, LONG), (kind, 1)]) {
        let places = by_kind[usize::from(form != LONG)][usize::from(kind.number)];
        for place in PLACES.iter().filter(|place| place.is_of(kind, form)) {
            let times = places[*place as usize];
            assert!(times >= 20, "form {form}, {kind:?}: {place:?} {times}");
        }
    }
}

/// Frames that the library refuses with 3, and where.
fn some_format_error(random: &mut Random, lent: &mut Lent<u8>) -> (u8, Vec<u8>, usize) {
    loop {
        let form = random.below(usize::from(FORMS)) as u8;
        let frame = some_damaged_frame(random, form);
        if let (3, at) = told(lent, form, &frame) {
            return (form, frame, at);
        }
    }
}

/// A frame that is refused with 3 at a byte is still so, at that byte, whatever comes after it.
fn nothing_after_the_fault_matters(trial: &mut Trial) {
    let (mut bed, mut lent) = (Bed::new(), Lent::new());
    for _ in 0..trial.times(40_000, 300_000) {
        let (form, mut frame, at) = some_format_error(&mut trial.random, &mut lent);
        for _ in 0..3 {
            change_after(&mut trial.random, &mut frame, at);
            assert_eq!(told(&mut lent, form, &frame), (3, at), "{frame:x?}");
            check_read(trial, &mut bed, form, &frame);
        }
    }
}

fn change_after(random: &mut Random, frame: &mut [u8], at: usize) {
    let after = &mut frame[at + 1..];
    match random.below(4) {
        _ if after.is_empty() => (),
        0 => after.fill(0),
        1 => after[random.below(after.len())] = random.byte(),
        _ => after.copy_from_slice(&random.bytes(after.len())),
    }
}

/// Another value of that byte alone, and the frame has its first fault later or none. Only what
/// lies past the segments of a packet without LV cannot be mended so.
fn the_byte_itself_matters(trial: &mut Trial) {
    let mut lent = Lent::new();
    for _ in 0..trial.times(40_000, 300_000) {
        let (form, mut frame, at) = some_format_error(&mut trial.random, &mut lent);
        let segment = sizes(form).segment;
        let lv_place = lv_place(frame[0]);
        if lv_place.is_none() && at > 0 && at.is_multiple_of(segment) {
            continue;
        }
        let what = format!("form {form}, byte {at} of {frame:x?}");
        let fill = Kind::of(frame[0]).map_or(0, |kind| kind.fill_at(form, at));
        frame[at] = match lv_place {
            _ if at == 0 => 0x80,
            Some(place) if place == at => frame[at] & 0xF0 & !fill | segment as u8,
            _ if fill != 0 => frame[at] & !fill,
            _ => 0,
        };
        let (number, later) = told(&mut lent, form, &frame);
        assert!(number != 3 || later > at, "{what}: still {number}, {later}");
    }
}

/// In a good run one frame is damaged so that it does not read, and what comes after it may be
/// anything: the run is refused with the frame's number, at its start and the frame's position.
fn bad_frames_in_runs(trial: &mut Trial) {
    let (mut bed, mut lent) = (messages::Bed::new(), Lent::new());
    for _ in 0..trial.times(20_000, 150_000) {
        let form = trial.random.below(usize::from(FORMS)) as u8;
        let count = 1 + trial.random.below(4);
        let mut joining = run_of_frames(&mut trial.random, form, count, 40);
        let index = trial.random.below(count);
        let frame = some_damaged_frame(&mut trial.random, form);
        let (number, at) = told(&mut lent, form, &frame);
        if number == 0 {
            continue;
        }
        let start = joining.start_of(index);
        put_frame(&mut trial.random, &mut joining, index, &frame);
        let got = by_place(joining.check(trial, &mut bed));
        assert_eq!(got, Err((number, start + at)), "{joining:x?}");
    }
}

/// Puts another frame in the place of one, at times with any bytes after it.
fn put_frame(random: &mut Random, joining: &mut Joining, index: usize, frame: &[u8]) {
    let (start, end) = (joining.start_of(index), joining.start_of(index + 1));
    joining.frames.splice(start..end, frame.iter().copied());
    joining.lengths[index] = frame.len();
    if random.one_in(2) {
        let after = &mut joining.frames[start + frame.len()..];
        after.copy_from_slice(&random.bytes(after.len()));
    }
}
