//! CLEAR REQUEST frames exported: every channel and every cause, every other kind, user data, and
//! frames that are damaged. An export is a read first, so that its refusals and positions are held
//! against those of `pk_frame_read` and `pk_frame_fault` too.

use pepperknoll::raw;
use plain::export;
use plain::frame::{Form, Sizes};
use plain::lent;
use plain::packet::PACKET_BYTES;

use crate::faults::{some_damaged_frame, some_frame};
use crate::frames::safe_form;
use crate::kinds::{Kind, KINDS, OTHER_FRAMES};
use crate::support::{safe_by_place, Call, Lent, Random, Trial};

pub fn run(trial: &mut Trial) {
    let mut lent = Lent::new();
    several_refusals(trial, &mut lent);
    every_channel(trial, &mut lent);
    every_field(trial, &mut lent);
    every_length_of_user_data(trial, &mut lent);
    every_bit(trial, &mut lent);
    every_kind_in_every_form(trial, &mut lent);
}

/// The forms are the numbers below this one.
const FORMS: u8 = 18;
const LONG: u8 = 17;
/// In the field and past it.
const CHANNELS: [u16; 8] = [0, 1, 255, 256, 4094, 4095, 4096, u16::MAX];
const HIGHEST: u16 = 4095;

/// CC 141, DC 162.
const REQUEST: [u8; 10] = [0x58, 0x09, 0x32, 0x41, 0x8D, 0xA2, 0x07, 0, 0, 0];

fn sizes(form: u8) -> Sizes {
    let form = Form::from_number(form).expect("a form");
    form.sizes().expect("a form")
}

/// Exports with all three; gives the five bytes, or the refusal's number and the position.
fn check(
    trial: &mut Trial,
    lent: &mut Lent<u8>,
    form: u8,
    channel: u16,
    frame: &[u8],
) -> Result<[u8; 5], (u8, usize)> {
    lent.lend(frame);
    let (start, length) = (lent.as_ptr(), lent.len());
    // SAFETY: the list is lent with its own length.
    let (got, at) = unsafe {
        let got = raw::pk_clear_export(form, channel, start, length);
        (
            got,
            raw::pk_clear_export_fault(form, channel, start, length),
        )
    };
    trial.tally.saw(Call::ClearExport, got);
    trial.tally.saw(Call::ClearExportFault, got);
    let what = || format!("form {form}, channel {channel}, frame {frame:x?}");
    assert_eq!(got, lent::clear_export(form, channel, frame), "{}", what());
    assert_eq!(
        at,
        lent::clear_export_fault(form, channel, frame),
        "{}",
        what()
    );
    lent.assert_holds(frame, what);
    let exported = match got as u8 {
        0 => Ok(export_bytes(got)),
        number => Err((number, at)),
    };
    let safe = pepperknoll::export_clear(safe_form(form), channel, frame);
    assert_eq!(safe_by_place(safe), exported, "{}", what());
    check_as_a_read(lent, form, channel, exported);
    exported
}

/// The bytes of an answer, the first one in the lowest bits past the number; nothing is above them.
fn export_bytes(answer: u64) -> [u8; 5] {
    let [_, first, second, third, fourth, fifth, 0, 0] = answer.to_le_bytes() else {
        panic!("answer {answer:x}");
    };
    [first, second, third, fourth, fifth]
}

/// What the library reads in the same frame: an export is refused in the same way and at the same
/// place, or it is 24 unless the packet is a CLEAR REQUEST without user data, or it has its codes.
fn check_as_a_read(
    frame: &Lent<u8>,
    form: u8,
    channel: u16,
    exported: Result<[u8; 5], (u8, usize)>,
) {
    let (start, length) = (frame.as_ptr(), frame.len());
    let mut packet = [0; PACKET_BYTES];
    // SAFETY: two lists apart, each lent with its own length.
    let (read, at) = unsafe {
        let read = raw::pk_frame_read(form, start, length, packet.as_mut_ptr(), PACKET_BYTES);
        (read, raw::pk_frame_fault(form, start, length))
    };
    let wanted = match (read as u8, packet[0], read >> 16) {
        _ if form > 17 || channel > HIGHEST => Err((1, 0)),
        (0, 1, 0) => {
            let [high, low] = channel.to_be_bytes();
            Ok([0x10 + high, low, 0x13, packet[6], packet[7]])
        }
        (0, _, _) => Err((24, 0)),
        (number, _, _) => Err((number, at)),
    };
    let what = frame.content();
    assert_eq!(
        exported, wanted,
        "form {form}, channel {channel}, frame {what:x?}"
    );
}

fn zeros_after(front: &[u8], length: usize) -> Vec<u8> {
    let mut frame = front.to_vec();
    frame.resize(length, 0);
    frame
}

/// The bytes of an export that the rules work out.
const WORKED: [u8; 5] = [0x1F, 0xFF, 0x13, 0x8D, 0xA2];

/// Inputs that deserve several refusals, by the numbers that the rules put first.
fn several_refusals(trial: &mut Trial, lent: &mut Lent<u8>) {
    let mut lv_below = REQUEST;
    lv_below[6] = 6;
    let mut padding = zeros_after(&REQUEST, 20);
    padding[19] = 1;
    let mut long_data = zeros_after(&[0x80, 0, 3], 20);
    let confirmation = zeros_after(&[0x5C, 9, 0x32, 0x41], 10);
    for (form, channel, frame, wanted) in [
        (LONG, HIGHEST, &REQUEST[..], Ok(WORKED)),
        (0, HIGHEST, &REQUEST[..7], Ok(WORKED)),
        (18, 0, &REQUEST, Err((1, 0))),
        (255, 4096, &[], Err((1, 0))),
        (LONG, 4096, &REQUEST, Err((1, 0))),
        (LONG, 4096, &REQUEST[..9], Err((1, 0))),
        (LONG, u16::MAX, &lv_below, Err((1, 0))),
        (LONG, 4096, &confirmation, Err((1, 0))),
        (LONG, 0, &[], Err((2, 0))),
        (LONG, 0, &REQUEST[..9], Err((2, 9))),
        (0, 0, &REQUEST, Err((2, 10))),
        (LONG, 0, &lv_below, Err((3, 6))),
        (1, 0, &padding, Err((3, 19))),
        (1, 0, &padding[..10], Ok([0x10, 0, 0x13, 0x8D, 0xA2])),
        (LONG, 0, &confirmation, Err((24, 0))),
    ] {
        let got = check(trial, lent, form, channel, frame);
        assert_eq!(
            got, wanted,
            "form {form}, channel {channel}, frame {frame:x?}"
        );
    }
    assert_eq!(check(trial, lent, 1, 0, &long_data), Err((13, 10)));
    long_data[19] = 1;
    assert_eq!(check(trial, lent, 1, 0, &long_data), Err((3, 19)));
}

/// All 65,536 of them.
fn every_channel(trial: &mut Trial, lent: &mut Lent<u8>) {
    for channel in 0..=u16::MAX {
        let wanted = match channel {
            0..=HIGHEST => {
                let [high, low] = [channel / 256, channel % 256].map(|byte| byte as u8);
                Ok([0x10 + high, low, 0x13, 0x8D, 0xA2])
            }
            _ => Err((1, 0)),
        };
        let got = check(trial, lent, LONG, channel, &REQUEST);
        assert_eq!(got, wanted, "channel {channel}");
    }
}

/// Every value of each byte of the header: CC and DC are copied, S and F and what has no place in
/// the packet do not matter.
fn every_field(trial: &mut Trial, lent: &mut Lent<u8>) {
    for form in [0, 1, 16, LONG] {
        for (at, value) in (1..7).flat_map(|at| (0..=255).map(move |value| (at, value))) {
            let mut frame = REQUEST[..sizes(form).segment].to_vec();
            frame[at] = value;
            let wanted = match at {
                6 if value & 0x60 != 0 => Err((3, 6)),
                6 if value & 0x0F == 7 => Ok(WORKED),
                6 if (8..=sizes(form).segment as u8).contains(&(value & 0x0F)) => Err((24, 0)),
                6 => Err((3, 6)),
                _ => Ok([0x1F, 0xFF, 0x13, frame[4], frame[5]]),
            };
            let got = check(trial, lent, form, HIGHEST, &frame);
            assert_eq!(got, wanted, "{frame:x?}");
        }
    }
}

/// A CLEAR REQUEST with each length of user data that its form has room for: exported with none.
fn every_length_of_user_data(trial: &mut Trial, lent: &mut Lent<u8>) {
    for form in 0..FORMS {
        let Sizes { segment, largest } = sizes(form);
        for length in 7..=largest {
            let segments = length.div_ceil(segment);
            let mut frame = zeros_after(&REQUEST[..6], segments * segment);
            frame[6] = (length - (segments - 1) * segment) as u8;
            frame[7..length].fill(0);
            let wanted = match length {
                7 => Ok(WORKED),
                _ => Err((24, 0)),
            };
            assert_eq!(
                check(trial, lent, form, HIGHEST, &frame),
                wanted,
                "{frame:x?}"
            );
        }
    }
}

/// In every form and with every number that is none: each length to which the frame is cut or drawn
/// out, and each bit turned. Only a segment is exported, and only with other fields or another S or
/// F.
fn every_bit(trial: &mut Trial, lent: &mut Lent<u8>) {
    for form in 0..=255 {
        let segment = if form == 0 { 7 } else { 10 };
        for length in 0..=31 {
            let frame = zeros_after(&REQUEST, 31);
            let exported = check(trial, lent, form, 1, &frame[..length]).is_ok();
            assert_eq!(exported, form < FORMS && length == segment, "form {form}");
        }
        for bit in 0..8 * segment {
            let mut frame = REQUEST[..segment].to_vec();
            frame[bit / 8] ^= 1 << (bit % 8);
            let field = matches!((bit / 8, bit % 8), (1..=5, _) | (6, 4 | 7));
            let exported = check(trial, lent, form, 1, &frame).is_ok();
            assert_eq!(exported, form < FORMS && field, "form {form}, {frame:x?}");
        }
    }
}

/// A frame of this kind, or of a ROUTE, that reads, or is too long or damaged.
fn frame_of(random: &mut Random, form: u8, kind: usize) -> Vec<u8> {
    loop {
        let frame = match random.below(3) {
            0 => some_damaged_frame(random, form),
            _ if kind == KINDS.len() => OTHER_FRAMES[0](random, form),
            _ => some_frame(random, form),
        };
        let first = frame.first().copied().unwrap_or(0);
        let found = Kind::of(first).map_or(KINDS.len(), |kind| kind.number.into());
        if found == kind {
            return frame;
        }
    }
}

/// The number of a CLEAR REQUEST among the kinds.
const CLEAR_REQUEST: usize = 1;

/// Every kind in every form by turns, on every channel: each has to have been exported, or 24, and
/// to have been refused by reading.
fn every_kind_in_every_form(trial: &mut Trial, lent: &mut Lent<u8>) {
    let kinds = KINDS.len() + OTHER_FRAMES.len();
    let mut seen = vec![[[0u64; 4]; FORMS as usize]; kinds];
    for turn in 0..trial.times(400_000, 4_000_000) as usize {
        let (kind, form) = (turn % kinds, turn / kinds % usize::from(FORMS));
        let frame = frame_of(&mut trial.random, form as u8, kind);
        let channel = trial.random.pick(&CHANNELS);
        let place = match check(trial, lent, form as u8, channel, &frame) {
            Ok(_) => 0,
            Err((24, _)) => 1,
            Err((1, _)) => 2,
            Err(_) => 3,
        };
        seen[kind][form][place] += 1;
    }
    for (kind, forms) in seen.iter().enumerate() {
        for (form, &[exported, not, range, read]) in forms.iter().enumerate() {
            let what = || format!("kind {kind}, form {form}: {:?}", forms[form]);
            assert_eq!(exported >= 20, kind == CLEAR_REQUEST, "{}", what());
            assert!(
                [not, range, read].iter().all(|&times| times >= 20),
                "{}",
                what()
            );
        }
    }
    assert_eq!(export::HIGHEST_CHANNEL, HIGHEST);
}
