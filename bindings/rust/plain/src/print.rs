//! The program that prints a capture: one line for each frame, with its SN, its kind and the number
//! of the refusal that reading gives it.

use crate::capture::{Capture, LONGEST};
use crate::frame;
use crate::packet::Packet;
use crate::{Fault, Refusal};

/// So many bytes before a wrong byte are shown, and so many after it.
const AROUND: usize = 4;

/// What is printed of a file; with `hex`, each line also says where its frame is bad, and shows the
/// bytes there. A file over the longest capture is refused before all else.
pub fn print(file: &[u8], hex: bool) -> String {
    let opened = match file.len() {
        ..=LONGEST => Capture::open(file),
        _ => Err(Refusal::MessageTooLong),
    };
    let capture = match opened {
        Ok(capture) => capture,
        Err(refusal) => return format!("refused {}\n", refusal.number()),
    };
    let mut text = String::new();
    for frame in capture.frames() {
        let read = frame::read(capture.form, frame).map(|(packet, _)| packet);
        text.push_str(&line(&read));
        if hex {
            text.push_str(&place(&read, frame));
        }
        text.push('\n');
    }
    text
}

/// SN, kind and number of a frame.
fn line(read: &Result<Packet, Fault>) -> String {
    match read {
        Ok(packet) => match number_and_kind(packet) {
            (Some(sn), kind) => format!("{sn} {kind} 0"),
            (None, kind) => format!("- {kind} 0"),
        },
        Err(fault) => format!("- - {}", fault.refusal.number()),
    }
}

/// A packet's SN, which a ROUTE has none of, and the name of its kind.
fn number_and_kind(packet: &Packet) -> (Option<u8>, &'static str) {
    let (sn, kind) = match packet {
        Packet::Data(packet) => (packet.sn, "DATA"),
        Packet::ClearRequest(packet) => (packet.sn, "CLEAR REQUEST"),
        Packet::ClearConfirmation(packet) => (packet.sn, "CLEAR CONFIRMATION"),
        Packet::CallRequest(packet) => (packet.sn, "CALL REQUEST"),
        Packet::CallAccept(packet) => (packet.sn, "CALL ACCEPT"),
        Packet::ReceiveReady(packet) => (packet.sn, "RR"),
        Packet::ReceiveNotReady(packet) => (packet.sn, "RNR"),
        Packet::Reject(packet) => (packet.sn, "REJECT"),
        Packet::Interrupt(packet) => (packet.sn, "INTERRUPT"),
        Packet::InterruptConfirmation(packet) => (packet.sn, "INTERRUPT CONFIRMATION"),
        Packet::Reset(packet) => (packet.sn, "RESET"),
        Packet::ResetConfirmation(packet) => (packet.sn, "RESET CONFIRMATION"),
        Packet::Route(_) => return (None, "ROUTE"),
    };
    (Some(sn), kind)
}

/// The last column: where a frame is bad, and the bytes around, the one at that place in brackets;
/// there is none in them if the place is the frame's end.
fn place(read: &Result<Packet, Fault>, frame: &[u8]) -> String {
    let at = match read {
        Ok(_) => return " -".into(),
        Err(fault) => fault.at,
    };
    let (before, rest) = frame.split_at(at);
    let (bad, after) = rest.split_at(rest.len().min(1));
    let before = shown(&before[at.saturating_sub(AROUND)..]);
    let after = shown(&after[..after.len().min(AROUND)]);
    let bad = shown(bad);
    format!(" {at}{before} [{}]{after}", bad.trim_start())
}

/// Bytes in hex, with a blank before each.
fn shown(bytes: &[u8]) -> String {
    bytes.iter().map(|byte| format!(" {byte:02X}")).collect()
}

#[cfg(test)]
mod tests {
    use super::*;
    use crate::capture;
    use crate::frame::Form;

    const REQUEST: [u8; 10] = [0x58, 0x09, 0x32, 0x41, 0x8D, 0xA2, 0x07, 0, 0, 0];

    fn frame(front: &[u8], length: usize) -> Vec<u8> {
        let mut frame = front.to_vec();
        frame.resize(length, 0);
        frame
    }

    fn saved(form: Form, frames: &[Vec<u8>]) -> Vec<u8> {
        let lengths: Vec<usize> = frames.iter().map(Vec::len).collect();
        let mut file = vec![0; LONGEST];
        let length = capture::save(form, &lengths, &frames.concat(), &mut file).unwrap();
        file.truncate(length);
        file
    }

    /// Both texts of a capture.
    fn printed(form: Form, frames: &[Vec<u8>]) -> [String; 2] {
        let file = saved(form, frames);
        [print(&file, false), print(&file, true)]
    }

    /// How a frame begins, and its line.
    #[rustfmt::skip]
    const KINDS: [(&[u8], &str); 13] = [
        (&[0xC5, 0x32, 0x43], "5 DATA 0"),
        (&REQUEST, "9 CLEAR REQUEST 0"),
        (&[0x5C, 9, 0x32, 0x41], "9 CLEAR CONFIRMATION 0"),
        (&[0x50, 0x85, 0x12, 0x41, 5], "5 CALL REQUEST 0"),
        (&[0x54, 6, 0x32, 0x41, 5], "6 CALL ACCEPT 0"),
        (&[0x60, 5, 0x37], "5 RR 0"),
        (&[0x64, 7, 0x37], "7 RNR 0"),
        (&[0x7D, 8, 0x37], "8 REJECT 0"),
        (&[0x74, 63, 0x34, 0xAA], "63 INTERRUPT 0"),
        (&[0x7C, 0, 0x30], "0 INTERRUPT CONFIRMATION 0"),
        (&[0x68, 10, 0x30, 1, 2], "10 RESET 0"),
        (&[0x6C, 11, 0x30], "11 RESET CONFIRMATION 0"),
        (&[0x71, 3, 0x59, 0x12, 0x40], "- ROUTE 0"),
    ];

    #[test]
    fn every_kind_by_its_name() {
        let frames = KINDS.map(|(front, _)| frame(front, 10));
        let [text, hex] = printed(Form::LongUplink, &frames);
        assert_eq!(text, KINDS.map(|(_, line)| format!("{line}\n")).concat());
        assert_eq!(hex, KINDS.map(|(_, line)| format!("{line} -\n")).concat());
    }

    /// A form, how a frame begins, its length, the refusal, and the last column.
    type Bad = (u8, &'static [u8], usize, u8, &'static str);

    #[rustfmt::skip]
    const BAD: [Bad; 10] = [
        (17, &[0x58, 9, 0x32, 0x41, 0x8D, 0xA2, 6], 10, 3, "6 32 41 8D A2 [06] 00 00 00"),
        (17, &[], 0, 2, "0 []"),
        (17, &[1, 2, 3], 3, 2, "3 01 02 03 []"),
        (17, &REQUEST, 11, 2, "11 00 00 00 00 []"),
        (17, &[0x59, 9], 10, 3, "0 [59] 09 00 00 00"),
        (17, &[0x60, 0xC5, 0x37], 10, 3, "1 60 [C5] 37 00 00 00"),
        (17, &[0x60, 5, 0x37], 20, 3, "10 00 00 00 00 [00] 00 00 00 00"),
        (17, &[0x80, 0, 3, 0, 0, 0, 0, 0, 0, 0xAB], 10, 3, "9 00 00 00 00 [AB]"),
        (1, &[0x80, 0, 3], 20, 13, "10 00 00 00 00 [00] 00 00 00 00"),
        (0, &[0x80, 0, 1], 35, 13, "28 00 00 00 00 [00] 00 00 00 00"),
    ];

    #[test]
    fn the_place_in_a_bad_frame() {
        for (form, front, length, number, place) in BAD {
            let form = Form::from_number(form).unwrap();
            let [text, hex] = printed(form, &[frame(front, length)]);
            assert_eq!(text, format!("- - {number}\n"));
            assert_eq!(hex, format!("- - {number} {place}\n"));
        }
    }

    #[test]
    fn a_file_that_is_refused() {
        for hex in [false, true] {
            assert_eq!(print(&vec![0; 90_000], hex), "refused 4\n");
            assert_eq!(print(&vec![0; 83_981], hex), "refused 4\n");
            assert_eq!(print(&vec![0; 83_980], hex), "refused 2\n");
            assert_eq!(print(&[], hex), "refused 2\n");
            assert_eq!(print(&[0, 0, 0, 0, 0, 0, 0, 18], hex), "refused 1\n");
            assert_eq!(print(&[0, 0, 2, 1, 0, 0, 0, 17], hex), "refused 4\n");
        }
    }

    #[test]
    fn captures_without_frames_and_the_longest() {
        assert_eq!(printed(Form::ShortUplink, &[]), ["", ""]);
        let most = vec![frame(&[0x85, 0, 3], 160); 512];
        let [text, _] = printed(Form::LongDownlink(16), &most);
        assert_eq!(text, "5 DATA 0\n".repeat(512));
        let [text, hex] = printed(Form::ShortUplink, &[frame(&[0x60, 5, 0x37], 7), vec![]]);
        assert_eq!(text, "5 RR 0\n- - 2\n");
        assert_eq!(hex, "5 RR 0 -\n- - 2 0 []\n");
    }
}
