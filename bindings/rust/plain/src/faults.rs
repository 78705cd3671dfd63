//! Where frames are bad: the position of the first fault, by worked examples and by what it has to
//! mean.

use crate::frame::{self, Form};
use crate::lent;
use crate::message;
use crate::packet::{ClearRequest, Packet};
use crate::paper::Random;

/// Numbers of forms.
const SHORT: u8 = 0;
const LONG: u8 = 17;

fn zeros_after(front: &[u8], length: usize) -> Vec<u8> {
    let mut frame = front.to_vec();
    frame.resize(length, 0);
    frame
}

/// The refusal number of a read with places enough, 0 for done, and the position beside it; both
/// ways of asking for the position have to agree.
fn read(form: u8, frame: &[u8]) -> (u8, usize) {
    let number = lent::frame_read(form, frame, &mut [0; 10]) as u8;
    let at = lent::frame_fault(form, frame);
    if let Ok(form) = Form::from_number(form) {
        let fault = frame::read(form, frame).err();
        let told = fault.map(|fault| (fault.refusal.number(), fault.at));
        assert_eq!(told.unwrap_or((0, 0)), (number, at), "{frame:x?}");
    }
    (number, at)
}

/// The same of a joining into so many bytes.
fn join(form: u8, lengths: &[usize], frames: &[u8], room: usize) -> (u8, usize) {
    let number = lent::message_join(form, lengths, frames, &mut vec![0; room]) as u8;
    let at = lent::message_fault(form, lengths, frames, room);
    if let Ok(form) = Form::from_number(form) {
        let fault = message::join(form, lengths, frames, &mut vec![0; room]).err();
        let told = fault.map(|fault| (fault.refusal.number(), fault.at));
        assert_eq!(told.unwrap_or((0, 0)), (number, at), "{frames:x?}");
    }
    (number, at)
}

const DATA: [u8; 3] = [0x80, 0, 3];
const REQUEST: [u8; 7] = [0x58, 0x09, 0x32, 0x41, 0x8D, 0xA2, 0x07];
const CONFIRMATION: [u8; 4] = [0x5C, 0x09, 0x32, 0x41];

#[test]
fn what_reads_and_what_has_no_form_give_0() {
    for front in [&DATA[..], &REQUEST, &CONFIRMATION] {
        assert_eq!(read(LONG, &zeros_after(front, 10)), (0, 0));
        assert_eq!(read(SHORT, &zeros_after(front, 7)), (0, 0));
    }
    for form in 18..=255 {
        assert_eq!(read(form, &zeros_after(&REQUEST, 10)), (1, 0));
        assert_eq!(read(form, &[0xFF; 11]), (1, 0));
        assert_eq!(join(form, &[11], &[0xFF; 11], 0), (1, 0));
        assert_eq!(join(form, &[3, 9], &[0xFF; 11], 0), (1, 0));
    }
}

/// The packet's places are no part of the question: 5 stands beside 0.
#[test]
fn no_place_for_the_packet_gives_0() {
    let frame = zeros_after(&DATA, 10);
    assert_eq!(lent::frame_read(LONG, &frame, &mut [0; 9]), 5);
    assert_eq!(lent::frame_fault(LONG, &frame), 0);
}

#[test]
fn first_bits_and_fill() {
    let mut frame = zeros_after(&REQUEST, 10);
    for first in [0x59, 0x5A, 0x5B, 0x5D, 0x5F, 0x4F, 0x00, 0x7F] {
        frame[0] = first;
        assert_eq!(read(LONG, &frame), (3, 0));
    }
    for last in [0x27, 0x47, 0x67, 0xB7] {
        frame[0] = 0x58;
        frame[6] = last;
        assert_eq!(read(LONG, &frame), (3, 6));
    }
}

/// An LV that is wrong is never told as padding, although the bytes after it may look like that.
#[test]
fn lv_is_at_the_header_s_end() {
    assert_eq!(read(LONG, &zeros_after(&[0x80, 0, 2], 10)), (3, 2));
    let request = [0x58, 0x09, 0x32, 0x41, 0x8D, 0xA2, 0x06, 0, 0, 0];
    assert_eq!(read(LONG, &request), (3, 6));
    for lv in [0, 11, 12, 15] {
        assert_eq!(read(LONG, &zeros_after(&[0x80, 0, lv], 30)), (3, 2));
        let front = [0x58, 0, 0, 0, 0, 0, lv];
        assert_eq!(read(LONG, &zeros_after(&front, 30)), (3, 6));
    }
    for lv in [1, 2] {
        let frame = [0x80, 0, lv, 1, 1, 1, 1, 1, 1, 1];
        assert_eq!(read(LONG, &frame), (3, 2));
    }
    assert_eq!(read(SHORT, &zeros_after(&[0x80, 0, 8], 14)), (3, 2));
}

/// Each padding byte by itself, and each two of them: the first one is told.
#[test]
fn the_first_padding_byte() {
    for (form, segment) in [(SHORT, 7), (LONG, 10), (3, 10)] {
        for (front, header) in [(&DATA[..], 3), (&REQUEST, 7)] {
            for segments in 1..=3 {
                for lv in header..=segment {
                    let mut frame = zeros_after(front, segments * segment);
                    frame[header - 1] = lv as u8;
                    let length = (segments - 1) * segment + lv;
                    assert_eq!(read(form, &frame), (0, 0));
                    first_of_two(form, &frame, length);
                }
            }
        }
        first_of_two(form, &zeros_after(&CONFIRMATION, segment), 4);
    }
}

fn first_of_two(form: u8, good: &[u8], start: usize) {
    for first in start..good.len() {
        for second in first..good.len() {
            let mut frame = good.to_vec();
            (frame[first], frame[second]) = (0x80, 1);
            assert_eq!(read(form, &frame), (3, first), "{frame:x?}");
        }
    }
}

#[test]
fn past_the_segment_of_a_confirmation() {
    let mut frame = zeros_after(&CONFIRMATION, 20);
    assert_eq!(read(LONG, &frame), (3, 10));
    assert_eq!(read(1, &frame), (3, 10)); // never 13
    frame[10] = 1;
    assert_eq!(read(LONG, &frame), (3, 10));
    (frame[10], frame[19]) = (0, 1);
    assert_eq!(read(LONG, &frame), (3, 10));
    frame[9] = 1;
    assert_eq!(read(LONG, &frame), (3, 9));
    frame[4] = 1;
    assert_eq!(read(LONG, &frame), (3, 4));
    assert_eq!(read(SHORT, &zeros_after(&CONFIRMATION, 14)), (3, 7));
}

#[test]
fn no_whole_segments_give_the_frame_s_length() {
    for length in [0, 1, 9, 11, 159, 161] {
        assert_eq!(read(LONG, &vec![0xFF; length]), (2, length));
    }
    assert_eq!(read(SHORT, &zeros_after(&DATA, 10)), (2, 10));
}

/// Neither the frame's length nor the packet's.
#[test]
fn too_long_gives_the_largest_size() {
    for lv in 3..=10 {
        assert_eq!(read(LONG, &zeros_after(&[0x80, 0, lv], 160)), (13, 152));
    }
    assert_eq!(read(LONG, &zeros_after(&[0x80, 0, 2], 160)), (0, 0));
    assert_eq!(read(SHORT, &zeros_after(&[0x80, 0, 1], 35)), (13, 28));
    for segments in 1..=16 {
        let largest = 10 * usize::from(segments);
        let mut frame = zeros_after(&DATA, largest + 10);
        assert_eq!(read(segments, &frame), (13, largest));
        frame[largest + 9] = 1;
        assert_eq!(read(segments, &frame), (3, largest + 9));
    }
}

/// Three long uplink frames of 10 bytes, SN 63, 0, 1 and PS 15, 0, 1.
fn three() -> Vec<u8> {
    let fronts = [[0xFF, 0xF0, 4, 7], [0xC0, 0, 4, 8], [0x81, 0x10, 4, 9]];
    fronts.map(|front| zeros_after(&front, 10)).concat()
}

#[test]
fn joining_adds_the_frame_s_start() {
    let frames = three();
    let joined = |lengths: &[usize], frames: &[u8]| join(LONG, lengths, frames, 3);
    assert_eq!(joined(&[10; 3], &frames), (0, 0));
    let without_middle = [&frames[..10], &frames[20..]].concat();
    assert_eq!(joined(&[10; 2], &without_middle), (17, 10));
    assert_eq!(joined(&[10; 2], &frames[..20]), (2, 10)); // M of the last
    assert_eq!(joined(&[10, 10, 9], &frames[..29]), (2, 29));
    let confirmation = [&frames[..20], &zeros_after(&CONFIRMATION, 10)].concat();
    assert_eq!(joined(&[10; 3], &confirmation), (3, 20));
    assert_eq!(join(LONG, &[10; 3], &frames, 2), (5, 30));
    assert_eq!(joined(&[10, 0, 10, 10], &frames), (2, 10));
    let changed = |at: usize, byte: u8| {
        let mut frames = three();
        frames[at] = byte;
        joined(&[10; 3], &frames)
    };
    assert_eq!(changed(10, 0x80), (3, 10)); // M before the last frame
    assert_eq!(changed(0, 0x59), (3, 0));
    assert_eq!(changed(12, 0x02), (3, 12)); // LV
    assert_eq!(changed(19, 1), (3, 19));
    assert_eq!(changed(24, 1), (3, 24));
    assert_eq!(changed(21, 0x20), (17, 20)); // PS
    assert_eq!(changed(2, 0x14), (17, 10)); // CH
}

/// The second frame has 20 bytes, which is too long for one segment; its padding comes first.
#[test]
fn joining_tells_a_frame_that_is_too_long() {
    let mut frames = [&three()[..10], &zeros_after(&[0x80, 0, 3], 20)].concat();
    assert_eq!(join(1, &[10, 20], &frames, 100), (13, 20));
    frames[29] = 1;
    assert_eq!(join(1, &[10, 20], &frames, 100), (3, 29));
    let full = zeros_after(&[0x80, 0, 10], 160);
    let frames = [&three()[..10], &full].concat();
    assert_eq!(join(LONG, &[10, 160], &frames, 100), (13, 162));
}

#[test]
fn joining_tells_the_end_of_the_data() {
    let frames = three();
    for lengths in [&[][..], &[10], &[10; 4], &[usize::MAX, 31], &[31]] {
        assert_eq!(join(LONG, lengths, &frames, 3), (2, 30));
    }
    assert_eq!(join(LONG, &[], &[], 0), (2, 0));
    assert_eq!(join(LONG, &[10], &[], 0), (2, 0));
    let full = |sn: u8| {
        let first = 0x80 | u8::from(sn < 27) << 6 | sn;
        zeros_after(&[first, sn << 4, 2], 160)
    };
    let long: Vec<u8> = (0..28).flat_map(full).collect();
    assert_eq!(join(LONG, &[160; 28], &long, 0), (4, 4480));
}

/// A good header of each kind, uplink and downlink; the LV of those that have one is 7, which is
/// good in every number of segments.
const HEADERS: [&[u8]; 13] = [
    &[0x80, 0, 7],
    &[0x58, 0x09, 0x32, 0x41, 0x8D, 0xA2, 0x07],
    &[0x5C, 0x09, 0x32, 0x41],
    &[0x50, 0x85, 0x12, 0x41, 0xE7],
    &[0x54, 0x05, 0x32, 0x41, 0x97],
    &[0x60, 0x05, 0x37],
    &[0x64, 0x05, 0x37],
    &[0x7D, 0x05, 0x37],
    &[0x74, 0xC5, 0x37],
    &[0x7C, 0x05, 0x30],
    &[0x68, 0x05, 0x30, 1, 2],
    &[0x6C, 0x05, 0x30],
    &[0x73, 2, 8, 0x12, 1, 9],
];

/// Whether a packet has no LV, by its first byte.
fn without_lv(first: u8) -> bool {
    matches!(first, 0x5C | 0x60..=0x73 | 0x7C | 0x7D)
}

/// Whether some frame of this length that begins so is not refused with 3. The rest may be chosen:
/// zeros are the best fill and padding, and of the rest only a length matters, which may be the
/// next byte or the last one of a header.
fn can_go_on(form: u8, front: &[u8], length: usize) -> bool {
    let good = |front: &[u8]| read(form, &zeros_after(front, length)).0 != 3;
    if good(front) {
        return true;
    }
    if front.is_empty() {
        return HEADERS.iter().any(|header| good(header));
    }
    (front.len()..7).any(|at| {
        (1..=length as u8).any(|value| {
            let mut chosen = zeros_after(front, at);
            chosen.push(value);
            good(&chosen)
        })
    })
}

/// What the first fault is, without a word of fields: the bytes up to it cannot be the front of a
/// good frame of that length, the bytes before it can. Only what lies past the segments of a packet
/// without LV has its own rule, as there the length itself is wrong.
#[test]
fn a_fault_ends_the_shortest_front_that_cannot_go_on() {
    let mut random = Random(88172645463325252);
    let mut seen = [0; 30];
    for _ in 0..100_000 {
        let form = [SHORT, LONG, 1, 2][random.below(4) as usize];
        let segment = if form == SHORT { 7 } else { 10 };
        let length = segment * (1 + random.below(3) as usize);
        let mut frame = zeros_after(HEADERS[random.below(13) as usize], length);
        for _ in 0..1 + random.below(3) {
            let most = if random.below(2) == 0 { 5 } else { length };
            let at = random.below(most as u64) as usize;
            frame[at] = random.below(256) as u8;
        }
        let (number, at) = read(form, &frame);
        if number != 3 || without_lv(frame[0]) && at > 0 && length > segment {
            continue;
        }
        seen[at] += 1;
        assert!(!can_go_on(form, &frame[..=at], length), "{frame:x?}");
        assert!(can_go_on(form, &frame[..at], length), "{frame:x?}");
    }
    assert!(seen.iter().all(|&times| times > 0), "{seen:?}");
}

/// Writing and reading back leaves no position, whatever the packet.
#[test]
fn a_frame_that_was_laid_out_gives_0() {
    let packet = Packet::ClearRequest(ClearRequest {
        tc: 3,
        sn: 63,
        ch: 15,
        am: 15,
        ag: 255,
        cc: 255,
        dc: 255,
        s: true,
        f: true,
    });
    for form in 0..=17 {
        let sizes = Form::from_number(form).and_then(Form::sizes).unwrap();
        for length in 0..=sizes.largest - 7 {
            let mut out = [0; 160];
            let form_itself = Form::from_number(form).unwrap();
            let made = frame::lay_out(form_itself, &packet, &vec![0xFF; length], &mut out);
            assert_eq!(read(form, &out[..made.unwrap()]), (0, 0));
        }
    }
}
