//! Frames of every kind byte by byte, on the uplink and on the downlink, so that writing and
//! reading cannot be wrong together.

use crate::frame::{self, Form};
use crate::lent;
use crate::packet::PACKET_BYTES;
use crate::route_packet;

/// Numbers of forms.
const SHORT: u8 = 0;
const UP: u8 = 17;
const DOWN: u8 = 1;

fn zeros_after(front: &[u8], length: usize) -> Vec<u8> {
    let mut frame = front.to_vec();
    frame.resize(length, 0);
    frame
}

/// The refusal number of a read, 0 for done, and the position beside it.
fn told(form: u8, frame: &[u8]) -> (u8, usize) {
    let number = lent::frame_read(form, frame, &mut [0; PACKET_BYTES]) as u8;
    (number, lent::frame_fault(form, frame))
}

/// The packet of a frame that reads, and its user data.
fn packet_of(form: u8, frame: &[u8]) -> ([u8; PACKET_BYTES], Vec<u8>) {
    let form = Form::from_number(form).unwrap();
    let (packet, user) = frame::read(form, frame).unwrap();
    (packet.to_bytes(), user.to_vec())
}

/// A form, a packet, its user data, and the front of the frame that they make.
type Worked = (u8, [u8; PACKET_BYTES], &'static [u8], &'static [u8]);

/// SN 5, CH 3, PR 7, AM 2, AG 41 hex; the clearing packets have SN 9.
#[rustfmt::skip]
const WORKED: [Worked; 13] = [
    (UP, [5, 5, 3, 7, 0, 0, 0, 0, 0, 0], &[], &[0x60, 0x05, 0x37]), // RR
    (UP, [6, 5, 3, 7, 0, 0, 0, 0, 0, 0], &[], &[0x64, 0x05, 0x37]), // RNR
    (UP, [7, 5, 3, 7, 0, 0, 0, 0, 0, 0], &[], &[0x7D, 0x05, 0x37]), // REJECT
    (UP, [10, 5, 3, 1, 2, 0, 0, 0, 0, 0], &[], &[0x68, 0x05, 0x30, 1, 2]), // RESET
    (UP, [11, 5, 3, 0, 0, 0, 0, 0, 0, 0], &[], &[0x6C, 0x05, 0x30]),
    (UP, [8, 0, 0, 5, 3, 0, 0, 0, 0, 0], &[0xAA], &[0x74, 0x05, 0x34, 0xAA]), // INTERRUPT
    (UP, [9, 5, 3, 0, 0, 0, 0, 0, 0, 0], &[], &[0x7C, 0x05, 0x30]),
    (DOWN, [3, 1, 5, 0, 3, 2, 0x41, 0, 0, 0], &[], &[0x50, 0x85, 0x32, 0x41, 0x05]), // CALL REQUEST
    (UP, [3, 1, 5, 1, 0, 2, 0x41, 0, 0, 0], &[], &[0x50, 0x85, 0x12, 0x41, 0x05]),
    (DOWN, [4, 1, 5, 3, 2, 0x41, 0, 0, 0, 0], &[], &[0x54, 0x45, 0x32, 0x41, 0x05]), // CALL ACCEPT
    (UP, [4, 0, 5, 3, 2, 0x41, 0, 0, 0, 0], &[], &[0x54, 0x05, 0x32, 0x41, 0x05]),
    (UP, [1, 0, 9, 3, 2, 0x41, 141, 162, 0, 0], &[], &[0x58, 9, 0x32, 0x41, 0x8D, 0xA2, 7]),
    (UP, [2, 0, 9, 3, 2, 0x41, 0, 0, 0, 0], &[], &[0x5C, 9, 0x32, 0x41]),
];

#[test]
fn every_kind_by_its_bytes() {
    for (form, packet, user, front) in WORKED {
        let frame = zeros_after(front, 10);
        let mut out = [0xEE; 12];
        assert_eq!(lent::frame_write(form, &packet, user, &mut out), 10 << 8);
        assert_eq!((&out[..10], &out[10..]), (&frame[..], &[0xEE; 2][..]));
        assert_eq!(packet_of(form, &frame), (packet, user.to_vec()));
        if form == UP {
            assert_eq!(packet_of(SHORT, &frame[..7]), (packet, user.to_vec()));
        }
    }
}

/// All but the CALL packets have the same bytes both ways.
#[test]
fn only_calls_depend_on_the_direction() {
    let others = WORKED.iter().filter(|worked| !matches!(worked.1[0], 3 | 4));
    for (_, packet, user, front) in others {
        for form in 1..=17 {
            let mut out = [0xEE; 10];
            assert_eq!(lent::frame_write(form, packet, user, &mut out), 10 << 8);
            assert_eq!(out[..], zeros_after(front, 10));
            assert_eq!(packet_of(form, &out), (*packet, user.to_vec()));
        }
    }
}

/// Every bit of a CALL packet's header, both ways: either a field that it is written from, or fill.
#[test]
fn bits_of_the_calls() {
    for (form, good, fills) in [
        (DOWN, [0x50, 0x85, 0x32, 0x41, 0x05], [0, 0x40, 0, 0, 0]),
        (UP, [0x50, 0x85, 0x12, 0x41, 0x05], [0, 0x40, 0xC0, 0, 0]),
        (DOWN, [0x54, 0x45, 0x32, 0x41, 0x05], [0, 0, 0, 0, 0x60]),
        (UP, [0x54, 0x05, 0x32, 0x41, 0x05], [0, 0xC0, 0, 0, 0x60]),
    ] {
        for (at, bit) in (1..5).flat_map(|at| (0..8).map(move |bit| (at, 1 << bit))) {
            if at == 4 && bit < 0x10 {
                continue; // LV
            }
            let mut frame = zeros_after(&good, 10);
            frame[at] ^= bit;
            if fills[at] & bit != 0 {
                assert_eq!(told(form, &frame), (3, at), "{frame:x?}");
                continue;
            }
            let (packet, user) = packet_of(form, &frame);
            let mut out = [0xEE; 10];
            assert_eq!(lent::frame_write(form, &packet, &user, &mut out), 10 << 8);
            assert_eq!(out[..], frame);
        }
    }
}

/// What a direction has no place for is 1, and so is every value past its field.
#[test]
fn calls_have_no_place_for_some_fields() {
    let written = |form, packet: &[u8]| lent::frame_write(form, packet, &[], &mut [0; 10]);
    for (form, largest) in [
        (UP, [3, 1, 63, 3, 0, 15, 255, 1, 3, 1]),
        (DOWN, [3, 1, 63, 0, 15, 15, 255, 1, 3, 1]),
        (UP, [4, 0, 63, 15, 15, 255, 1, 1, 0, 0]),
        (DOWN, [4, 3, 63, 15, 15, 255, 1, 1, 0, 0]),
    ] {
        for (at, value) in (1..PACKET_BYTES).flat_map(|at| (0..=255).map(move |v| (at, v))) {
            let mut packet = largest;
            packet[at] = value;
            let done = if value <= largest[at] { 10 << 8 } else { 1 };
            assert_eq!(written(form, &packet), done, "form {form}, {packet:?}");
        }
    }
}

/// S, then two bits of fill, then F: F set reads, fill set does not.
#[test]
fn the_last_byte_of_a_call_accept() {
    let (packet, _) = packet_of(DOWN, &zeros_after(&[0x54, 0x45, 0x32, 0x41, 0x15], 10));
    assert_eq!(packet, [4, 1, 5, 3, 2, 0x41, 0, 1, 0, 0]);
    let frame = zeros_after(&[0x54, 0x45, 0x32, 0x41, 0x45], 10);
    assert_eq!(told(DOWN, &frame), (3, 4));
}

/// FS is no fixed field: each value is read as it is.
#[test]
fn every_fs() {
    for fs in 0..4 {
        let frame = zeros_after(&[0x50, 0x85, 0x32, 0x41, fs << 5 | 5], 10);
        assert_eq!(packet_of(DOWN, &frame).0[8], fs);
    }
}

/// The first bytes of known packets; all others are 3 at 0, whatever follows.
#[test]
fn first_bytes() {
    let known = [
        0x50, 0x54, 0x58, 0x5C, 0x60, 0x64, 0x68, 0x6C, 0x70, 0x71, 0x72, 0x73,
    ];
    for first in 0..=255u8 {
        let is_known = known.contains(&first) || matches!(first, 0x74 | 0x7C | 0x7D | 0x80..);
        for rest in [[0; 9], [0x41, 2, 3, 4, 5, 6, 7, 8, 9], [0xFF; 9]] {
            for form in [UP, DOWN, 16] {
                let frame = [&[first][..], &rest].concat();
                let (number, at) = told(form, &frame);
                assert_eq!((number, at) == (3, 0), !is_known, "{frame:x?}");
            }
        }
    }
}

/// A packet without LV: fill, then padding, then the first byte past its segment.
#[test]
fn the_end_of_a_packet_without_lv() {
    let mut frame = zeros_after(&[0x60, 0x05, 0x37], 20);
    assert_eq!(told(UP, &frame[..10]), (0, 0));
    assert_eq!(told(UP, &frame), (3, 10));
    assert_eq!(told(DOWN, &frame), (3, 10)); // never 13
    frame[9] = 1;
    assert_eq!(told(UP, &frame), (3, 9));
    frame[1] = 0xC5;
    assert_eq!(told(UP, &frame), (3, 1));
    for (front, header) in [
        (&[0x64, 0x05, 0x37][..], 3),
        (&[0x7D, 0x05, 0x37], 3),
        (&[0x7C, 0x05, 0x30], 3),
        (&[0x68, 0x05, 0x30, 1, 2], 5),
        (&[0x6C, 0x05, 0x30], 3),
    ] {
        for (form, segment) in [(UP, 10), (DOWN, 10), (SHORT, 7)] {
            assert_eq!(told(form, &zeros_after(front, 3 * segment)), (3, segment));
            for at in header..segment {
                let mut frame = zeros_after(front, 2 * segment);
                frame[at] = 0x10;
                assert_eq!(told(form, &frame), (3, at), "{frame:x?}");
            }
        }
    }
}

/// Fill of the packets without LV: two bits before SN, four after CH where there is no PR.
#[test]
fn fill_of_the_short_headers() {
    for (front, third) in [
        ([0x60, 0x05, 0x37], 0),
        ([0x64, 0x05, 0x37], 0),
        ([0x7D, 0x05, 0x37], 0),
        ([0x7C, 0x05, 0x30], 0x0F),
        ([0x68, 0x05, 0x30], 0x0F),
        ([0x6C, 0x05, 0x30], 0x0F),
    ] {
        for (at, fill) in [(1, 0xC0), (2, third)] {
            for bit in (0..8).map(|bit| 1 << bit) {
                let mut frame = zeros_after(&front, 10);
                frame[at] ^= bit;
                let wanted = if fill & bit == 0 { (0, 0) } else { (3, at) };
                assert_eq!(told(UP, &frame), wanted, "{frame:x?}");
            }
        }
    }
}

/// LV of INTERRUPT and of the CALL packets is at the end of the header.
#[test]
fn lv_of_the_new_kinds() {
    for (front, header) in [
        (&[0x74, 0x05, 0x30][..], 3),
        (&[0x50, 0x85, 0x12, 0x41, 0], 5),
        (&[0x54, 0x05, 0x32, 0x41, 0], 5),
    ] {
        for lv in 0..16 {
            for segments in 1..=3 {
                let mut frame = zeros_after(front, 10 * segments);
                frame[header - 1] |= lv;
                let least = if segments == 1 { header as u8 } else { 1 };
                let good = (least..=10).contains(&lv);
                let wanted = if good { (0, 0) } else { (3, header - 1) };
                assert_eq!(told(UP, &frame), wanted, "{frame:x?}");
            }
        }
    }
}

fn route(form: u8, init: bool, table: &[u8], data: Option<&[u8]>) -> Vec<u8> {
    let mut out = vec![0xEE; 160];
    let form = Form::from_number(form).unwrap();
    let length = route_packet::write(form, init, table, data, &mut out).unwrap();
    assert!(out[length..].iter().all(|&byte| byte == 0xEE));
    out.truncate(length);
    out
}

#[test]
fn a_route_by_its_bytes() {
    let table = [0x59, 0x12, 0x40];
    for form in [UP, DOWN, 16] {
        let frame = route(form, true, &table, None);
        assert_eq!(frame, zeros_after(&[0x71, 3, 0x59, 0x12, 0x40], 10));
        let bytes = [12, 0, 1, 3, 0, 0, 0, 0, 0, 0];
        assert_eq!(packet_of(form, &frame), (bytes, table.to_vec()));
        let frame = route(form, false, &table, Some(&[7, 8]));
        assert_eq!(frame, [0x72, 3, 0x59, 0x12, 0x40, 2, 7, 8, 0, 0]);
        let bytes = [12, 1, 0, 3, 0, 0, 0, 0, 0, 0];
        let rest = vec![0x59, 0x12, 0x40, 2, 7, 8];
        assert_eq!(packet_of(form, &frame), (bytes, rest));
    }
}

#[test]
fn absent_and_empty_data_are_two_values() {
    let empty = route(UP, false, &[8, 0x12], Some(&[]));
    assert_eq!(empty, zeros_after(&[0x72, 2, 8, 0x12], 10));
    assert_eq!(packet_of(UP, &empty).1, [8, 0x12, 0]);
    let none = route(UP, false, &[8, 0x12], None);
    assert_eq!(none, zeros_after(&[0x70, 2, 8, 0x12], 10));
    assert_eq!(packet_of(UP, &none).1, [8, 0x12]);
}

/// RTL is wrong if the table, or the length after it, runs past the frame; ODL if the data does.
#[test]
fn lengths_of_a_route_at_the_frame_s_end() {
    let full = |front: &[u8]| {
        let mut frame = front.to_vec();
        frame.resize(10, 0xFF);
        frame
    };
    assert_eq!(told(UP, &full(&[0x72, 8])), (3, 1)); // ODL would be byte 10
    assert_eq!(told(UP, &full(&[0x70, 8])), (0, 0));
    assert_eq!(told(UP, &full(&[0x70, 9])), (3, 1));
    assert_eq!(told(UP, &full(&[0x70, 255])), (3, 1));
    assert_eq!(told(UP, &[0x72, 7, 1, 2, 3, 4, 5, 6, 7, 0]), (0, 0));
    assert_eq!(told(UP, &[0x72, 7, 1, 2, 3, 4, 5, 6, 7, 1]), (3, 9));
    assert_eq!(told(UP, &[0x72, 6, 1, 2, 3, 4, 5, 6, 2, 0]), (3, 8));
    assert_eq!(told(UP, &[0x72, 6, 1, 2, 3, 4, 5, 6, 1, 9]), (0, 0));
    assert_eq!(told(UP, &[0x70, 6, 1, 2, 3, 4, 5, 6, 0, 1]), (3, 9));
}

/// A ROUTE fills the fewest segments, is too long only in itself, and padding comes first.
#[test]
fn the_end_of_a_route() {
    let mut frame = zeros_after(&[0x70, 8, 1, 1, 1, 1, 1, 1, 1, 1], 20);
    assert_eq!(told(UP, &frame), (3, 10));
    assert_eq!(told(DOWN, &frame), (3, 10));
    frame[1] = 9;
    assert_eq!(told(UP, &frame), (0, 0));
    assert_eq!(told(DOWN, &frame), (13, 10));
    frame[19] = 1;
    assert_eq!(told(DOWN, &frame), (3, 19));
    for (rtl, wanted) in [
        (150, (0, 0)),
        (151, (13, 152)),
        (158, (13, 152)),
        (159, (3, 1)),
    ] {
        assert_eq!(told(UP, &zeros_after(&[0x70, rtl], 160)), wanted);
    }
    assert_eq!(told(UP, &zeros_after(&[0x70, 158], 170)), (3, 160));
}

/// A length over 255 is too long, and never cut to a byte.
#[test]
fn lengths_to_write() {
    let written = |form, table: usize, data: Option<usize>, room: usize| {
        let (table, data) = (vec![1; table], data.map(|length| vec![2; length]));
        let of = u8::from(data.is_some());
        let data = data.unwrap_or_default();
        lent::route_write(form, 0, of, &table, &data, &mut vec![0; room])
    };
    for length in [151, 255, 256, 258, 300, 512, 65_536] {
        assert_eq!(written(UP, length, None, 0), 13);
        assert_eq!(written(UP, 0, Some(length), 0), 13);
        assert_eq!(written(16, length + 8, None, 0), 13);
    }
    assert_eq!(written(UP, 150, None, 159), 5);
    assert_eq!(written(UP, 150, None, 160), 160 << 8);
    assert_eq!(written(UP, 149, Some(0), 160), 160 << 8);
    assert_eq!(written(UP, 150, Some(0), 160), 13);
    assert_eq!(written(DOWN, 8, None, 10), 10 << 8);
    assert_eq!(written(DOWN, 9, None, 0), 13);
    assert_eq!(written(UP, 0, None, 10), 10 << 8);
}
