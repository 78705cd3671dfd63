//! The short form: writing and cutting refuse it with 23, after 1 and before all others; reading
//! and joining keep it.

use crate::frame::{self, Form};
use crate::message::{self, Start};
use crate::packet::{Data, Packet, PACKET_BYTES};
use crate::paper::Random;
use crate::{lent, route_packet, Refusal};

const SHORT: Form = Form::ShortUplink;
/// Its number in the interface.
const NUMBER: u8 = 0;
const SEGMENT: usize = 7;

/// A packet of each kind as the interface lays it out for the uplink, with the largest value in
/// every byte; a byte without a field has 0. ROUTE is written by a call of its own.
const LARGEST: [[u8; PACKET_BYTES]; 12] = [
    [0, 1, 63, 15, 15, 15, 0, 0, 0, 0],
    [1, 3, 63, 15, 15, 255, 255, 255, 1, 1],
    [2, 3, 63, 15, 15, 255, 0, 0, 0, 0],
    [3, 1, 63, 3, 0, 15, 255, 1, 3, 1],  // no CH
    [4, 0, 63, 15, 15, 255, 1, 1, 0, 0], // no TC
    [5, 63, 15, 15, 0, 0, 0, 0, 0, 0],
    [6, 63, 15, 15, 0, 0, 0, 0, 0, 0],
    [7, 63, 15, 15, 0, 0, 0, 0, 0, 0],
    [8, 1, 1, 63, 15, 0, 0, 0, 0, 0],
    [9, 63, 15, 0, 0, 0, 0, 0, 0, 0],
    [10, 63, 15, 255, 255, 0, 0, 0, 0, 0],
    [11, 63, 15, 0, 0, 0, 0, 0, 0, 0],
];

/// Whether a kind has user data.
fn has_user(packet: &[u8; PACKET_BYTES]) -> bool {
    matches!(packet[0], 0 | 1 | 3 | 4 | 8)
}

const START: Start = Start {
    sn: 63,
    ps: 15,
    pr: 15,
    ch: 15,
};

/// Writes in the short form and gives the refusal's number; what was lent has to be as it was.
fn write(packet: &[u8], user_length: usize, room: usize) -> u64 {
    let (user, mut out) = (vec![0x77; user_length], vec![0xEE; room]);
    let number = lent::frame_write(NUMBER, packet, &user, &mut out);
    if let Ok(packet) = Packet::from_bytes(packet) {
        let refusal = frame::write(SHORT, &packet, &user, &mut out).unwrap_err();
        assert_eq!(u64::from(refusal.number()), number);
    }
    assert!(out.iter().all(|&byte| byte == 0xEE));
    number
}

/// Cuts in the short form and gives the refusal's number; what was lent has to be as it was.
fn cut(start: Start, length: usize, room: usize, places: usize) -> u64 {
    let message = vec![0x77; length];
    let (mut out, mut lengths) = (vec![0xEE; room], vec![77; places]);
    let refusal = message::cut(SHORT, start, &message, &mut out, &mut lengths).unwrap_err();
    let number = lent::message_cut(NUMBER, start, &message, &mut out, &mut lengths);
    assert_eq!(u64::from(refusal.number()), number);
    assert!(out.iter().all(|&byte| byte == 0xEE) && lengths.iter().all(|&place| place == 77));
    number
}

#[test]
fn every_kind_is_refused_before_13_and_5() {
    for packet in LARGEST {
        let lengths = if has_user(&packet) {
            &[0, 4, 21, 22, 23, 24, 25, 26, 27, 200][..] // 28 bytes are the largest packet
        } else {
            &[0]
        };
        for &length in lengths {
            for room in [0, 6, 7, 27, 28, 300] {
                assert_eq!(write(&packet, length, room), 23);
            }
        }
    }
}

/// Every value of every byte after the kind: one past its field is 1, whatever else is wrong.
#[test]
fn what_exceeds_its_field_is_1_first() {
    for good in LARGEST {
        for at in 1..PACKET_BYTES {
            for value in 0..=255 {
                let mut packet = good;
                packet[at] = value;
                let wanted = if value <= good[at] { 23 } else { 1 };
                assert_eq!(write(&packet, 0, 28), wanted, "{packet:?}");
                assert_eq!(write(&packet, 0, 0), wanted, "{packet:?}");
                let too_long = if has_user(&good) { wanted } else { 1 };
                assert_eq!(write(&packet, 200, 0), too_long, "{packet:?}");
            }
        }
    }
}

#[test]
fn no_packet_and_user_data_with_a_kind_that_has_none_are_1_first() {
    let none = (12..=255).map(|kind| vec![kind, 0, 0, 0, 0, 0, 0, 0, 0, 0]);
    let other_lengths = (0..=20).filter(|&length| length != PACKET_BYTES);
    for packet in none.chain(other_lengths.map(|length| vec![0; length])) {
        assert_eq!(write(&packet, 0, 28), 1, "{packet:?}");
        assert_eq!(write(&packet, 200, 0), 1, "{packet:?}");
    }
    for packet in LARGEST.iter().filter(|packet| !has_user(packet)) {
        for length in [1, 3, 24, 25, 200] {
            assert_eq!(write(packet, length, 28), 1);
            assert_eq!(write(packet, length, 0), 1);
        }
    }
}

/// A ROUTE is refused with 23 after 1, and before 13 and 5.
#[test]
fn a_route_is_refused_as_the_others_are() {
    for (table, data) in [(0, 0), (26, 0), (27, 0), (20, 5), (256, 0), (3, 256)] {
        for room in [0, 7, 28, 300] {
            let mut out = vec![0xEE; room];
            let (table, data) = (vec![1; table], vec![2; data]);
            let mut write = |form, init, of| {
                let answer = lent::route_write(form, init, of, &table, &data, &mut out);
                assert!(out.iter().all(|&byte| byte == 0xEE));
                answer
            };
            assert_eq!(write(NUMBER, 0, 1), 23);
            assert_eq!(write(NUMBER, 2, 1), 1);
            assert_eq!(write(NUMBER, 0, 2), 1);
            assert_eq!(write(18, 0, 1), 1);
            assert_eq!(write(NUMBER, 1, 0), if data.is_empty() { 23 } else { 1 });
        }
    }
}

/// All numbers of forms: none is refused with 23 but that of the short one.
#[test]
fn other_forms_are_written_and_cut_or_1() {
    for form in 1..=255 {
        let done = form <= 17;
        let wanted = |length| if done { length } else { 1 };
        let mut out = [0xEE; 20];
        for mut packet in LARGEST {
            if packet[0] == 3 {
                packet[3] = 0; // no TC on the downlink
            }
            let written = lent::frame_write(form, &packet, &[], &mut out);
            assert_eq!(written, wanted(10 << 8), "form {form}");
        }
        let written = lent::route_write(form, 1, 1, &[1; 3], &[2; 4], &mut out);
        assert_eq!(written, wanted(10 << 8), "form {form}");
        let cut = lent::message_cut(form, START, &[], &mut out, &mut [0]);
        assert_eq!(cut, wanted(10 << 32 | 1 << 8), "form {form}");
        let written = lent::frame_write(form, &LARGEST[0], &[0; 200], &mut []);
        assert_eq!(written, if done { 13 } else { 1 }, "form {form}");
        let cut = lent::message_cut(form, START, &[0; 5000], &mut [], &mut []);
        assert_eq!(cut, if done { 4 } else { 1 }, "form {form}");
    }
    for segments in (0..=255).filter(|segments| !(1..=16).contains(segments)) {
        let form = Form::LongDownlink(segments);
        let packet = Packet::from_bytes(&LARGEST[0]).unwrap();
        let written = frame::write(form, &packet, &[], &mut [0; 10]);
        assert_eq!(written, Err(Refusal::OutOfRange));
    }
}

#[test]
fn cutting_is_refused_after_1_and_before_4_and_5() {
    let wide = [
        Start { sn: 64, ..START },
        Start { ps: 16, ..START },
        Start { pr: 16, ..START },
        Start { ch: 16, ..START },
    ];
    for length in [0, 1, 25, 26, 50, 51, 4096, 4097, 5000] {
        for room in [0, 6, 7, 28, 8192] {
            for places in [0, 1, 2, 600] {
                assert_eq!(cut(START, length, room, places), 23);
                for start in wide {
                    assert_eq!(cut(start, length, room, places), 1);
                }
            }
        }
    }
}

/// A good short frame, by the layout.
fn short_frame(packet: &Packet, user: &[u8]) -> Vec<u8> {
    let mut frame = vec![0xEE; 28];
    let length = frame::lay_out(SHORT, packet, user, &mut frame).unwrap();
    frame.truncate(length);
    frame
}

/// Every LV in one to four segments, where the header leaves room for it.
#[test]
fn every_short_frame_is_read() {
    for bytes in LARGEST {
        let packet = Packet::from_bytes(&bytes).unwrap();
        let header = packet.header_len();
        let largest = if has_user(&bytes) { 28 } else { header };
        for length in header..=largest {
            let user: Vec<u8> = (0..length - header).map(|at| 0x81 + at as u8).collect();
            let frame = short_frame(&packet, &user);
            assert_eq!(frame.len(), length.next_multiple_of(SEGMENT));
            if has_user(&bytes) {
                let lv = usize::from(frame[header - 1] & 15);
                assert_eq!(lv, (length - 1) % SEGMENT + 1);
            }
            assert_eq!(frame::read(SHORT, &frame), Ok((packet, &user[..])));
            let mut places = [0xEE; 12];
            let answer = lent::frame_read(NUMBER, &frame, &mut places);
            let values = header as u64 | (user.len() as u64) << 8;
            assert_eq!(answer, values << 8);
            assert_eq!(places[..PACKET_BYTES], bytes);
            assert_eq!(places[PACKET_BYTES..], [0xEE; 2]);
        }
    }
}

/// Every length of table and optional data that the largest packet leaves.
#[test]
fn every_short_route_is_read() {
    for table in 0..=26 {
        let present = (0..26 - table).map(Some);
        for data in present.chain([None]) {
            let (table, data) = (vec![0x81; table], data.map(|length| vec![0x92; length]));
            let mut frame = vec![0xEE; 28];
            let made = route_packet::lay_out(SHORT, true, &table, data.as_deref(), &mut frame);
            frame.truncate(made.unwrap());
            let (packet, rest) = frame::read(SHORT, &frame).unwrap();
            let of = u8::from(data.is_some());
            let bytes = [12, of, 1, table.len() as u8, 0, 0, 0, 0, 0, 0];
            assert_eq!(packet.to_bytes(), bytes);
            assert_eq!(rest[..table.len()], table);
            assert_eq!(rest.get(1 + table.len()..), data.as_deref());
        }
    }
}

/// The bytes themselves, so that layout and reading cannot be wrong together.
#[test]
fn short_frames_byte_by_byte() {
    let read = |frame: &[u8]| {
        let (packet, user) = frame::read(SHORT, frame).unwrap();
        (packet.to_bytes(), user.len())
    };
    let data = [0xC5, 0x32, 0x41, 1, 2, 3, 4, 5, 0, 0, 0, 0, 0, 0];
    assert_eq!(read(&data), ([0, 1, 5, 3, 2, 4, 0, 0, 0, 0], 5));
    let full = [0x58, 0x49, 0x32, 0x41, 141, 162, 0x97];
    assert_eq!(read(&full), ([1, 1, 9, 3, 2, 0x41, 141, 162, 1, 1], 0));
    let confirmation = [0x5C, 0x49, 0x32, 0x41, 0, 0, 0];
    assert_eq!(read(&confirmation), ([2, 1, 9, 3, 2, 0x41, 0, 0, 0, 0], 0));
    for (frame, number) in [
        (&data[..0], 2),
        (&data[..10], 2),
        (&[0xC5, 0x32, 0x48, 1, 2, 3, 4], 3), // LV 8
        (&[0xC5, 0x32, 0x43, 0, 0, 0, 1], 3), // padding
        (&[0x5C, 0, 0, 0, 0, 0, 0, 0, 0, 0, 0, 0, 0, 0], 3),
    ] {
        let fault = frame::read(SHORT, frame).unwrap_err();
        assert_eq!(fault.refusal.number(), number, "{frame:x?}");
    }
    let mut five = vec![0; 35];
    five[..3].copy_from_slice(&[0x80, 0, 1]);
    assert_eq!(
        frame::read(SHORT, &five),
        Err(Refusal::PacketTooLong.at(28))
    );
}

/// A good run of short frames of any size, by the layout, and the message that it carries.
fn short_run(random: &mut Random, count: usize) -> (Vec<usize>, Vec<u8>, Vec<u8>) {
    let (mut lengths, mut frames, mut message) = (Vec::new(), Vec::new(), Vec::new());
    let first = random.below(64) as usize;
    for index in 0..count {
        let packet = Packet::Data(Data {
            m: index + 1 < count,
            sn: ((first + index) % 64) as u8,
            ps: ((first + index) % 16) as u8,
            pr: random.below(16) as u8,
            ch: 9,
        });
        let user: Vec<u8> = (0..random.below(26)).map(|at| at as u8 + 1).collect();
        let frame = short_frame(&packet, &user);
        lengths.push(frame.len());
        frames.extend(frame);
        message.extend(user);
    }
    (lengths, frames, message)
}

/// SN passes 63 and PS 15, many times in the longer runs.
#[test]
fn runs_of_short_frames_are_joined() {
    let mut random = Random(88172645463325252);
    for count in (1..=140).chain([200, 300]) {
        let (lengths, frames, message) = short_run(&mut random, count);
        let mut out = vec![0xEE; 5000];
        let joined = message::join(SHORT, &lengths, &frames, &mut out);
        assert_eq!(joined, Ok(message.len()));
        assert_eq!(out[..message.len()], message);
        assert!(out[message.len()..].iter().all(|&byte| byte == 0xEE));
    }
}

/// What a reading or a joining may be refused with.
const OF_READING: [u64; 6] = [0, 1, 2, 3, 5, 13];
const OF_JOINING: [u64; 8] = [0, 1, 2, 3, 4, 5, 13, 17];

/// Good short frames and runs, and the same with bytes changed, in every form and in none.
#[test]
fn reading_and_joining_are_never_refused_with_23() {
    let mut random = Random(2463534242);
    for round in 0..20_000 {
        let count = 1 + random.below(5) as usize;
        let (lengths, mut frames, _) = short_run(&mut random, count);
        for _ in 0..4 {
            let form = match random.below(4) {
                0 => random.below(20) as u8,
                _ => NUMBER,
            };
            let places = 9 + random.below(3) as usize;
            let read = lent::frame_read(form, &frames[..lengths[0]], &mut vec![0; places]);
            assert!(OF_READING.contains(&(read & 0xFF)), "{read:x}");
            let room = 100 + random.below(30) as usize;
            let joined = lent::message_join(form, &lengths, &frames, &mut vec![0; room]);
            assert!(OF_JOINING.contains(&(joined & 0xFF)), "{joined:x}");
            let at = random.below(frames.len() as u64) as usize;
            frames[at] ^= 1 << random.below(8);
            frames[round % 3] ^= (random.below(4) == 0) as u8;
        }
    }
}
