//! Frames: written, read back, and read after damage. Frames of the short form are not written any
//! more but still read: where one is read, `plain` has laid it out.

use pepperknoll::raw;
use pepperknoll::{LinkNumber, PacketNumber};
use plain::frame::{self, Form};
use plain::packet::{Packet, PACKET_BYTES};
use plain::{lent, Fault, Refusal};

use crate::kinds::{Kind, KINDS};
use crate::support::{
    answer, by_number, by_place, safe_by_number, safe_by_place, Call, Lent, Random, Trial,
};

pub fn run(trial: &mut Trial) {
    several_refusals(trial);
    short_with_other_refusals(trial);
    short_with_every_value(trial);
    every_short_frame(trial);
    every_form(trial);
    every_kind_in_every_form(trial);
    every_value(trial);
    every_other_kind(trial);
    user_data_where_there_is_none(trial);
    every_header_byte(trial);
    every_length_byte(trial);
    every_padding_bit(trial);
    written_and_damaged(trial);
}

/// The lists lent for a frame.
pub struct Bed {
    packet: Lent<u8>,
    user: Lent<u8>,
    frame: Lent<u8>,
}

impl Bed {
    pub fn new() -> Self {
        Bed {
            packet: Lent::new(),
            user: Lent::new(),
            frame: Lent::new(),
        }
    }
}

/// Something to write, as it is lent.
#[derive(Debug)]
struct Writing {
    form: u8,
    packet: Vec<u8>,
    user: Vec<u8>,
    room: usize,
}

/// What is on the lent output before; not 0, so that padding has to be written.
const DIRT: u8 = 0xEE;

impl Writing {
    fn plain(&self, out: &mut [u8]) -> Result<usize, Refusal> {
        let form = Form::from_number(self.form)?;
        let packet = Packet::from_bytes(&self.packet)?;
        frame::write(form, &packet, &self.user, out)
    }

    /// The frame by the layout, in every form and whatever the room.
    fn laid_out(&self) -> Result<Vec<u8>, Refusal> {
        let form = Form::from_number(self.form)?;
        let packet = Packet::from_bytes(&self.packet)?;
        let mut frame = vec![DIRT; 160];
        let length = frame::lay_out(form, &packet, &self.user, &mut frame)?;
        frame.truncate(length);
        Ok(frame)
    }

    /// Writes with all three, which have to refuse it with this number.
    fn check_refused(&self, trial: &mut Trial, bed: &mut Bed, number: u8) {
        let refusal = self.plain(&mut vec![DIRT; self.room]).unwrap_err();
        assert_eq!(refusal.number(), number, "{self:?}");
        assert_eq!(self.check(trial, bed), None, "{self:?}");
    }

    /// Writes with all three; gives the frame if there is one.
    fn check(&self, trial: &mut Trial, bed: &mut Bed) -> Option<Vec<u8>> {
        let mut out = vec![DIRT; self.room];
        let wanted = self.plain(&mut out);
        bed.packet.lend(&self.packet);
        bed.user.lend(&self.user);
        bed.frame.lend(&vec![DIRT; self.room]);
        // SAFETY: three lists apart, each lent with its own length.
        let got = unsafe {
            raw::pk_frame_write(
                self.form,
                bed.packet.as_ptr(),
                bed.packet.len(),
                bed.user.as_ptr(),
                bed.user.len(),
                bed.frame.as_mut_ptr(),
                bed.frame.len(),
            )
        };
        trial.tally.saw(Call::FrameWrite, got);
        assert_eq!(got, answer(&wanted, |&length| length as u64), "{self:?}");
        let what = || format!("{self:?}");
        bed.frame.assert_holds(&out, what);
        bed.packet.assert_holds(&self.packet, what);
        bed.user.assert_holds(&self.user, what);
        self.check_safe(wanted, &out);
        out.truncate(wanted.ok()?);
        Some(out)
    }

    /// The safe call takes what is a packet at all.
    fn check_safe(&self, wanted: Result<usize, Refusal>, wanted_out: &[u8]) {
        let Ok(packet) = Packet::from_bytes(&self.packet) else {
            return;
        };
        let (form, mut out) = (safe_form(self.form), vec![DIRT; self.room]);
        let got = pepperknoll::write_frame(form, &safe_packet(packet), &self.user, &mut out);
        assert_eq!(safe_by_number(got), by_number(wanted), "{self:?}");
        assert_eq!(out, wanted_out, "{self:?}");
    }
}

/// The form with a number; where the number is none, a form with a wrong number of segments, which
/// the safe calls have to refuse in the same way.
pub fn safe_form(number: u8) -> pepperknoll::Form {
    match number {
        0 => pepperknoll::Form::ShortUplink,
        1..=16 => pepperknoll::Form::LongDownlink(number),
        17 => pepperknoll::Form::LongUplink,
        18 => pepperknoll::Form::LongDownlink(17),
        19 => pepperknoll::Form::LongDownlink(0),
        _ => pepperknoll::Form::LongDownlink(number),
    }
}

/// What the safe call reads where `plain` reads this.
fn safe_read(packet: Packet, user: &[u8]) -> pepperknoll::Read<'_> {
    let Packet::Route(route) = packet else {
        return pepperknoll::Read::Packet(safe_packet(packet), user);
    };
    let (table, after) = user.split_at(route.rtl.into());
    pepperknoll::Read::Route(pepperknoll::Route {
        init: route.init,
        table,
        data: route.of.then(|| &after[1..]),
    })
}

fn safe_packet(packet: Packet) -> pepperknoll::Packet {
    match packet {
        Packet::Data(_) | Packet::Interrupt(_) => safe_with_data(packet),
        Packet::ClearRequest(_) | Packet::ClearConfirmation(_) => safe_clear(packet),
        Packet::CallRequest(_) | Packet::CallAccept(_) => safe_call(packet),
        _ => safe_alone(packet),
    }
}

fn safe_with_data(packet: Packet) -> pepperknoll::Packet {
    match packet {
        Packet::Data(data) => pepperknoll::Packet::Data {
            m: data.m,
            sn: LinkNumber(data.sn),
            ps: PacketNumber(data.ps),
            pr: PacketNumber(data.pr),
            ch: data.ch,
        },
        Packet::Interrupt(interrupt) => pepperknoll::Packet::Interrupt {
            s: interrupt.s,
            f: interrupt.f,
            sn: LinkNumber(interrupt.sn),
            ch: interrupt.ch,
        },
        _ => panic!("{packet:?}"),
    }
}

fn safe_clear(packet: Packet) -> pepperknoll::Packet {
    match packet {
        Packet::ClearRequest(request) => pepperknoll::Packet::ClearRequest {
            tc: request.tc,
            sn: LinkNumber(request.sn),
            ch: request.ch,
            am: request.am,
            ag: request.ag,
            cc: request.cc,
            dc: request.dc,
            s: request.s,
            f: request.f,
        },
        Packet::ClearConfirmation(confirmation) => pepperknoll::Packet::ClearConfirmation {
            tc: confirmation.tc,
            sn: LinkNumber(confirmation.sn),
            ch: confirmation.ch,
            am: confirmation.am,
            ag: confirmation.ag,
        },
        _ => panic!("{packet:?}"),
    }
}

fn safe_call(packet: Packet) -> pepperknoll::Packet {
    match packet {
        Packet::CallRequest(request) => pepperknoll::Packet::CallRequest {
            p: request.p,
            sn: LinkNumber(request.sn),
            tc: request.tc,
            ch: request.ch,
            am: request.am,
            ag: request.ag,
            s: request.s,
            fs: request.fs,
            f: request.f,
        },
        Packet::CallAccept(accept) => pepperknoll::Packet::CallAccept {
            tc: accept.tc,
            sn: LinkNumber(accept.sn),
            ch: accept.ch,
            am: accept.am,
            ag: accept.ag,
            s: accept.s,
            f: accept.f,
        },
        _ => panic!("{packet:?}"),
    }
}

fn safe_alone(packet: Packet) -> pepperknoll::Packet {
    let safe = |receipt: plain::packet::Receipt| {
        let (sn, pr) = (LinkNumber(receipt.sn), PacketNumber(receipt.pr));
        (sn, receipt.ch, pr)
    };
    match packet {
        Packet::ReceiveReady(receipt) => {
            let (sn, ch, pr) = safe(receipt);
            pepperknoll::Packet::ReceiveReady { sn, ch, pr }
        }
        Packet::ReceiveNotReady(receipt) => {
            let (sn, ch, pr) = safe(receipt);
            pepperknoll::Packet::ReceiveNotReady { sn, ch, pr }
        }
        Packet::Reject(receipt) => {
            let (sn, ch, pr) = safe(receipt);
            pepperknoll::Packet::Reject { sn, ch, pr }
        }
        Packet::InterruptConfirmation(confirmation) => pepperknoll::Packet::InterruptConfirmation {
            sn: LinkNumber(confirmation.sn),
            ch: confirmation.ch,
        },
        Packet::Reset(reset) => pepperknoll::Packet::Reset {
            sn: LinkNumber(reset.sn),
            ch: reset.ch,
            rc: reset.rc,
            dc: reset.dc,
        },
        Packet::ResetConfirmation(confirmation) => pepperknoll::Packet::ResetConfirmation {
            sn: LinkNumber(confirmation.sn),
            ch: confirmation.ch,
        },
        _ => panic!("{packet:?}"),
    }
}

/// Reads a frame with all three; gives the packet that the frame holds.
pub fn check_read(trial: &mut Trial, bed: &mut Bed, form: u8, frame: &[u8]) -> Option<Packet> {
    let places = trial.random.places(PACKET_BYTES);
    let what = || format!("form {form}, {places} places, frame {frame:x?}");
    let mut packet = vec![DIRT; places];
    bed.frame.lend(frame);
    bed.packet.lend(&packet);
    let wanted = lent::frame_read(form, frame, &mut packet);
    // SAFETY: two lists apart, each lent with its own length.
    let got = unsafe {
        raw::pk_frame_read(
            form,
            bed.frame.as_ptr(),
            bed.frame.len(),
            bed.packet.as_mut_ptr(),
            bed.packet.len(),
        )
    };
    trial.tally.saw(Call::FrameRead, got);
    assert_eq!(got, wanted, "{}", what());
    check_fault(trial, form, &bed.frame);
    bed.packet.assert_holds(&packet, what);
    bed.frame.assert_holds(frame, what);
    // The safe call brings its own places, always enough.
    let safe = pepperknoll::read_frame(safe_form(form), frame);
    let read = plain_read(form, frame);
    let wanted = read.map(|(packet, user)| safe_read(packet, user));
    assert_eq!(safe_by_place(safe), by_place(wanted), "{}", what());
    read.ok().map(|(packet, _)| packet)
}

/// What `plain` says to a frame.
pub fn plain_read(form: u8, frame: &[u8]) -> Result<(Packet, &[u8]), Fault> {
    frame::read(Form::from_number(form)?, frame)
}

/// Asks library and `plain` where a frame is bad, with the list that was lent for reading it.
pub fn check_fault(trial: &mut Trial, form: u8, frame: &Lent<u8>) {
    // SAFETY: the list is lent with its own length.
    let got = unsafe { raw::pk_frame_fault(form, frame.as_ptr(), frame.len()) };
    let read = by_place(plain_read(form, frame.content()));
    let (number, wanted) = read.err().unwrap_or((0, 0));
    trial.tally.saw(Call::FrameFault, number.into());
    assert_eq!(got, wanted, "form {form}, frame {:x?}", frame.content());
}

/// A form's number: mostly one that is a form.
pub fn some_form(random: &mut Random) -> u8 {
    match random.below(64) {
        0 => random.byte(),
        1 => random.pick(&[18, 19, 255]),
        2..=20 => 0,
        21..=40 => 17,
        41..=50 => 1 + random.below(3) as u8,
        _ => 1 + random.below(16) as u8,
    }
}

/// A packet's bytes, each mostly in its field; those without a field are seldom other than 0, and
/// seldom are there more bytes than ten, or fewer.
fn some_packet(random: &mut Random, form: u8, kind: &Kind) -> Vec<u8> {
    let mut bytes = kind.some_bytes(random, form);
    let free = 1 + kind.widths(form).len()..PACKET_BYTES;
    match random.below(64) {
        0 => bytes[0] = random.byte(),
        1 => bytes[0] = random.below(16) as u8, // mostly another kind
        2 if !free.is_empty() => bytes[free.start + random.below(free.len())] = random.byte(),
        3 if random.one_in(2) => bytes.resize(random.below(2 * PACKET_BYTES), 0),
        _ => (),
    }
    bytes
}

/// A length of user data: around whole segments and around the largest.
fn some_user_length(random: &mut Random, form: u8, kind: &Kind) -> usize {
    let (segment, largest) = Form::from_number(form)
        .and_then(Form::sizes)
        .map_or((10, 40), |sizes| (sizes.segment, sizes.largest));
    if !kind.has_user && !random.one_in(20) {
        return 0;
    }
    let packet = match random.below(8) {
        0 => largest + random.below(3),
        1 => largest - 1,
        2 => random.below(200),
        3..=5 => segment * random.below(largest / segment + 1) + random.below(3),
        _ => random.below(largest + 1),
    };
    packet.saturating_sub(kind.header)
}

fn some_writing(random: &mut Random) -> Writing {
    let form = some_form(random);
    let kind = &KINDS[random.below(KINDS.len())];
    let packet = some_packet(random, form, kind);
    let length = some_user_length(random, form, kind);
    let mut writing = Writing {
        form,
        packet,
        user: random.bytes(length),
        room: 0,
    };
    let needed = writing.laid_out().map_or(20, |frame| frame.len());
    writing.room = match random.below(10) {
        0 => needed - 1,
        1 => needed,
        2 => random.below(needed),
        _ => needed + random.below(12),
    };
    writing
}

/// Damages a frame: a bit, a byte, its length.
fn damage(random: &mut Random, frame: &mut Vec<u8>) {
    let at = random.below(frame.len().max(1));
    let front = random.below(frame.len().clamp(1, 7));
    let tail = frame.len() - frame.len().min(1 + random.below(10));
    match random.below(10) {
        _ if frame.is_empty() => frame.extend([0x80, 0, 3]),
        0 | 1 => frame[front] ^= 1 << random.below(8),
        2 => frame[front] = random.byte(),
        3 | 4 => frame[tail] ^= 1 << random.below(8),
        5 => frame[at] = random.byte(),
        6 => frame.truncate(frame.len() - 1 - random.below(frame.len().min(11))),
        7 => frame.extend(vec![0; random.pick(&[1, 7, 10, 20])]),
        8 => frame.extend(random.bytes(10)),
        _ => frame[at] = 0,
    }
}

/// In a long form what was written is read back, in the short one what the layout makes; and both
/// are read after damage.
fn written_and_damaged(trial: &mut Trial) {
    let mut bed = Bed::new();
    for _ in 0..trial.times(400_000, 2_200_000) {
        let writing = some_writing(&mut trial.random);
        let mut made = writing.check(trial, &mut bed);
        if writing.form == SHORT {
            assert_eq!(made, None, "{writing:?}");
            made = writing.laid_out().ok();
        }
        let Some(mut frame) = made else { continue };
        let back = check_read(trial, &mut bed, writing.form, &frame);
        assert_eq!(
            back,
            Packet::from_bytes(&writing.packet).ok(),
            "{writing:?}"
        );
        for _ in 0..1 + trial.random.below(3) {
            damage(&mut trial.random, &mut frame);
            let form = match trial.random.below(12) {
                0 => some_form(&mut trial.random),
                _ => writing.form,
            };
            check_read(trial, &mut bed, form, &frame);
        }
    }
}

/// Each number of a form, 256 of them, by the largest packet: it is written in the long forms, read
/// in all, and a byte more is 13. Writing in the short form is 23 with either. Where there is no
/// such form, all of this is 1.
fn every_form(trial: &mut Trial) {
    let mut bed = Bed::new();
    for form in 0..=255 {
        let largest = match form {
            SHORT => 28,
            17 => 152,
            _ => 10 * usize::from(form),
        };
        let mut writing = Writing {
            form,
            packet: vec![0; PACKET_BYTES],
            user: vec![0x77; largest - 3],
            room: largest + 10,
        };
        let written = writing.check(trial, &mut bed);
        assert_eq!(written.is_some(), (1..=17).contains(&form), "form {form}");
        let laid_out = writing.laid_out().ok();
        assert_eq!(laid_out.is_some(), form <= 17, "form {form}");
        assert!(written.is_none() || written == laid_out, "form {form}");
        let frame = laid_out.unwrap_or(vec![0x80, 0, 3, 0, 0, 0, 0, 0, 0, 0]);
        let packet = check_read(trial, &mut bed, form, &frame);
        assert_eq!(packet.is_some(), form <= 17, "form {form}");
        writing.user.push(0x77);
        let number = match form {
            SHORT => 23,
            1..=17 => 13,
            _ => 1,
        };
        writing.check_refused(trial, &mut bed, number);
    }
}

/// Every kind in every form with each length of user data that the form allows and one more; where
/// there is none, with none. What was written, or laid out in the short form, is read back.
fn every_kind_in_every_form(trial: &mut Trial) {
    let mut bed = Bed::new();
    for form in 0..=17 {
        let sizes = Form::from_number(form)
            .and_then(Form::sizes)
            .expect("a form");
        for kind in &KINDS {
            let most = if kind.has_user {
                sizes.largest + 1 - kind.header
            } else {
                0
            };
            for length in 0..=most {
                let packet = kind.some_bytes(&mut trial.random, form);
                let room = trial.random.pick(&[0, sizes.segment, 160, 161, 200]);
                let user = trial.random.bytes(length);
                let writing = Writing {
                    form,
                    packet,
                    user,
                    room,
                };
                writing.check(trial, &mut bed);
                let Ok(frame) = writing.laid_out() else {
                    continue;
                };
                let back = check_read(trial, &mut bed, form, &frame);
                assert_eq!(
                    back,
                    Packet::from_bytes(&writing.packet).ok(),
                    "{writing:?}"
                );
            }
        }
    }
}

/// Each value of each byte after the kind: one that exceeds its field, stands where the direction
/// has no place or where the kind has no field is 1, also where there is no room. All others are
/// read back.
fn every_value(trial: &mut Trial) {
    let mut bed = Bed::new();
    for form in [17, 1, 2, 16] {
        for kind in &KINDS {
            let largest = kind.largest(form);
            for (at, value) in (1..PACKET_BYTES).flat_map(|at| (0..=255).map(move |v| (at, v))) {
                let mut packet = largest.to_vec();
                packet[at] = value;
                let mut writing = Writing {
                    form,
                    packet,
                    user: Vec::new(),
                    room: 10,
                };
                let written = writing.check(trial, &mut bed);
                assert_eq!(written.is_some(), value <= largest[at], "{writing:?}");
                if let Some(frame) = written {
                    let back = check_read(trial, &mut bed, form, &frame);
                    assert_eq!(
                        back,
                        Packet::from_bytes(&writing.packet).ok(),
                        "{writing:?}"
                    );
                }
                writing.room = 9;
                let number = if value <= largest[at] { 5 } else { 1 };
                writing.check_refused(trial, &mut bed, number);
            }
        }
    }
}

/// ROUTE and every number that is no kind: 1, before all else and whatever the bytes after it.
fn every_other_kind(trial: &mut Trial) {
    let mut bed = Bed::new();
    for kind in 12..=255 {
        for form in [17, 1, 16, SHORT, 18] {
            for (rest, length, room) in [(0, 0, 10), (0, 5, 20), (1, 0, 10), (0, 300, 0)] {
                let mut packet = vec![rest; PACKET_BYTES];
                packet[0] = kind;
                let user = vec![0x77; length];
                let writing = Writing {
                    form,
                    packet,
                    user,
                    room,
                };
                writing.check_refused(trial, &mut bed, 1);
            }
        }
    }
}

/// Any user data with a kind that has none is 1, before 23, 13 and 5.
fn user_data_where_there_is_none(trial: &mut Trial) {
    let mut bed = Bed::new();
    for kind in KINDS.iter().filter(|kind| !kind.has_user) {
        for form in 0..=17 {
            for length in [1, 2, 5, 7, 10, 24, 149, 200, 300] {
                for room in [0, 10, 20, 400] {
                    let packet = kind.largest(form).to_vec();
                    let user = vec![0; length];
                    let writing = Writing {
                        form,
                        packet,
                        user,
                        room,
                    };
                    writing.check_refused(trial, &mut bed, 1);
                }
            }
        }
    }
}

/// The number of the short form, which is read and not written.
pub const SHORT: u8 = 0;

fn short_writing(packet: &[u8], user_length: usize, room: usize) -> Writing {
    Writing {
        form: SHORT,
        packet: packet.to_vec(),
        user: vec![0x77; user_length],
        room,
    }
}

/// The short form together with everything else that a writing is refused for: packets that are
/// good or not, user data around the largest packet of 28 bytes, room around each whole number of
/// segments. 23 comes after 1, and before 13 and 5.
fn short_with_other_refusals(trial: &mut Trial) {
    let mut bed = Bed::new();
    let mut packets: Vec<(Vec<u8>, bool)> = Vec::new();
    for kind in &KINDS {
        let good = kind.largest(SHORT);
        packets.push((good.to_vec(), true));
        // past its field, a flag over 1, a byte without a field
        for at in (1..PACKET_BYTES).filter(|&at| good[at] < 255) {
            let mut packet = good.to_vec();
            packet[at] += 1;
            packets.push((packet, false));
        }
    }
    let no_kind = vec![13, 0, 0, 0, 0, 0, 0, 0, 0, 0];
    for no_packet in [no_kind, vec![], vec![0; 9], vec![0; 11]] {
        packets.push((no_packet, false));
    }
    for (packet, good) in packets {
        let kind = packet
            .first()
            .and_then(|&number| KINDS.get(usize::from(number)));
        let has_user = kind.is_some_and(|kind| kind.has_user);
        for length in [0, 1, 4, 5, 20, 21, 22, 25, 26, 149, 150, 300] {
            for room in [0, 1, 6, 7, 8, 13, 14, 20, 21, 27, 28, 29, 200] {
                let in_range = good && (has_user || length == 0);
                let number = if in_range { 23 } else { 1 };
                short_writing(&packet, length, room).check_refused(trial, &mut bed, number);
            }
        }
    }
}

/// Each value of each byte of each kind in the short form: 1 where it exceeds its field, else 23.
fn short_with_every_value(trial: &mut Trial) {
    let mut bed = Bed::new();
    for good in KINDS.iter().map(|kind| kind.largest(SHORT)) {
        for at in 1..PACKET_BYTES {
            for value in 0..=255 {
                let mut packet = good;
                packet[at] = value;
                let number = if value <= good[at] { 23 } else { 1 };
                for room in [28, 0] {
                    short_writing(&packet, 0, room).check_refused(trial, &mut bed, number);
                }
            }
        }
    }
}

/// Every short frame by its length: each kind, one to four segments, each LV. All are read.
fn every_short_frame(trial: &mut Trial) {
    let mut bed = Bed::new();
    for kind in &KINDS {
        let good = kind.largest(SHORT);
        let most = if kind.has_user { 28 - kind.header } else { 0 };
        for length in 0..=most {
            let writing = short_writing(&good, length, 28);
            writing.check_refused(trial, &mut bed, 23);
            let frame = writing.laid_out().expect("it fits");
            for _ in 0..20 {
                let packet = check_read(trial, &mut bed, SHORT, &frame);
                assert_eq!(packet, Packet::from_bytes(&good).ok(), "{frame:x?}");
            }
            for form in 1..=20 {
                check_read(trial, &mut bed, form, &frame);
            }
        }
    }
}

/// Good frames to start from, by the layout, in one to three segments: each kind with 0 and with
/// all bits set.
fn good_frames(form: u8) -> Vec<Vec<u8>> {
    let mut frames = Vec::new();
    for kind in &KINDS {
        let lengths = if kind.has_user {
            &[0, 2, 9, 15][..]
        } else {
            &[0]
        };
        let mut least = vec![0; PACKET_BYTES];
        least[0] = kind.number;
        for (packet, &length) in [least, kind.largest(form).to_vec()]
            .iter()
            .flat_map(|packet| lengths.iter().map(move |length| (packet, length)))
        {
            let writing = Writing {
                form,
                packet: packet.clone(),
                user: vec![0x77; length],
                room: 0,
            };
            frames.extend(writing.laid_out());
        }
    }
    frames
}

/// Each byte of the header with each of its 256 values.
fn every_header_byte(trial: &mut Trial) {
    let mut bed = Bed::new();
    for form in [0, 17, 1, 2, 3] {
        for good in good_frames(form) {
            for at in 0..7 {
                for value in 0..=255 {
                    let mut frame = good.clone();
                    frame[at] = value;
                    check_read(trial, &mut bed, form, &frame);
                }
            }
        }
    }
}

/// Each LV in each number of segments of every form, with clean and with unclean padding.
fn every_length_byte(trial: &mut Trial) {
    let mut bed = Bed::new();
    for form in (0..=20).chain([255]) {
        let segment = if form == 0 { 7 } else { 10 };
        for segments in 0..=18 {
            for lv in 0..16 {
                for kind in &KINDS {
                    let mut frame = vec![0; segment * segments];
                    if segments > 0 {
                        frame[0] = kind.first;
                        frame[kind.header - 1] = lv;
                    }
                    check_read(trial, &mut bed, form, &frame);
                    if let Some(last) = frame.last_mut() {
                        *last = 1;
                    }
                    check_read(trial, &mut bed, form, &frame);
                }
            }
        }
    }
}

/// Each bit of whole frames, and each length that is cut or drawn out.
fn every_padding_bit(trial: &mut Trial) {
    let mut bed = Bed::new();
    for form in [0, 17, 1, 2, 3, 16] {
        for good in good_frames(form) {
            for bit in 0..good.len() * 8 {
                let mut frame = good.clone();
                frame[bit / 8] ^= 1 << (bit % 8);
                check_read(trial, &mut bed, form, &frame);
            }
            for length in 0..45 {
                let mut frame = good.clone();
                frame.resize(length, 0);
                check_read(trial, &mut bed, form, &frame);
            }
        }
    }
}

const ROUTE: &[u8] = &[12, 0, 0, 0, 0, 0, 0, 0, 0, 0];
const READY: &[u8] = &[5, 63, 15, 15, 0, 0, 0, 0, 0, 0];
/// CALL packets of one direction only: TC of a CALL REQUEST is of the uplink, CH of it and TC of a
/// CALL ACCEPT are of the downlink.
const WITH_TC: &[u8] = &[3, 0, 0, 1, 0, 0, 0, 0, 0, 0];
const WITH_CH: &[u8] = &[3, 0, 0, 0, 1, 0, 0, 0, 0, 0];
const ACCEPT: &[u8] = &[4, 1, 0, 0, 0, 0, 0, 0, 0, 0];

/// A form, a packet, lengths of user data and room, and the number that is first.
type Case = (u8, &'static [u8], usize, usize, u8);

const OF_OTHER_KINDS: [Case; 16] = [
    (17, ROUTE, 0, 10, 1),
    (17, ROUTE, 200, 0, 1),
    (17, READY, 1, 0, 1),
    (17, READY, 0, 9, 5),
    (1, WITH_TC, 200, 0, 1),
    (17, WITH_TC, 148, 0, 13),
    (17, WITH_CH, 200, 0, 1),
    (1, WITH_CH, 6, 0, 13),
    (17, ACCEPT, 200, 0, 1),
    (1, ACCEPT, 5, 9, 5),
    (SHORT, ROUTE, 0, 7, 1),
    (SHORT, READY, 1, 7, 1),
    (SHORT, READY, 0, 0, 23),
    (SHORT, WITH_TC, 24, 0, 23),
    (SHORT, WITH_CH, 0, 7, 1),
    (SHORT, ACCEPT, 0, 7, 1),
];

/// Inputs that deserve several refusals, by the numbers that the rules put first.
fn several_refusals(trial: &mut Trial) {
    let mut bed = Bed::new();
    let data: &[u8] = &[0, 0, 0, 0, 0, 0, 0, 0, 0, 0];
    let wide = &[0, 0, 64, 0, 0, 0, 0, 0, 0, 0];
    let no_kind = &[13, 0, 0, 0, 0, 0, 0, 0, 0, 0];
    let confirmation = &[2, 0, 0, 0, 0, 0, 0, 0, 0, 0];
    let unused = &[2, 0, 0, 0, 0, 0, 0, 0, 0, 9];
    let cases = [
        (18, data, 200, 0, 1), // no form, too long, no room
        (255, data, 200, 0, 1),
        (17, wide, 200, 0, 1),
        (17, no_kind, 200, 0, 1),
        (17, unused, 0, 0, 1),
        (17, &data[..9], 200, 0, 1), // a packet of 9 bytes, too long, no room
        (17, &[0; 11], 200, 0, 1),
        (17, &[], 0, 10, 1),
        (17, confirmation, 1, 0, 1),
        (17, confirmation, 200, 0, 1),
        (17, data, 150, 0, 13),
        (17, data, 149, 159, 5),
        (17, confirmation, 0, 9, 5),
        (1, data, 8, 0, 13),
        (SHORT, wide, 200, 0, 1), // in the short form as well
        (SHORT, data, 26, 0, 23), // 29 bytes, no room
        (SHORT, data, 25, 0, 23), // no room
        (SHORT, data, 25, 28, 23),
        (SHORT, confirmation, 0, 7, 23),
    ];
    for (form, packet, length, room, number) in cases.into_iter().chain(OF_OTHER_KINDS) {
        let writing = Writing {
            form,
            packet: packet.to_vec(),
            user: vec![1; length],
            room,
        };
        writing.check_refused(trial, &mut bed, number);
    }
    reading_several_refusals(trial, &mut bed);
}

fn reading_several_refusals(trial: &mut Trial, bed: &mut Bed) {
    let mut long = vec![0; 20]; // too long for one downlink segment
    long[..3].copy_from_slice(&[0x80, 0, 3]);
    let mut long_and_wrong = long.clone();
    long_and_wrong[19] = 1;
    let mut two_segments = vec![0; 20]; // of a packet that has one
    two_segments[0] = 0x5C;
    let mut short = vec![0; 35]; // too long for the short form
    short[..3].copy_from_slice(&[0x80, 0, 1]);
    let mut ready = vec![0; 20]; // two segments, padding and fill
    ready[..3].copy_from_slice(&[0x60, 0xC5, 0x37]);
    let mut accept = vec![0; 20]; // fill and LV, and too long for one segment
    accept[..5].copy_from_slice(&[0x54, 0x45, 0x32, 0x41, 0x40]);
    let cases: [(u8, &[u8], u8, usize); 18] = [
        (17, &ready, 3, 1),
        (1, &ready[..10], 3, 1),
        (17, &accept, 3, 1), // TC has no place
        (1, &accept, 3, 4),
        (SHORT, &accept[..14], 3, 1),
        (18, &[], 1, 0),
        (255, &[], 1, 0),
        (17, &[], 2, 0),
        (17, &[0xFF; 11], 2, 11),
        (17, &[0x01; 20], 3, 0),
        (1, &long_and_wrong, 3, 19),
        (1, &long, 13, 10),
        (1, &two_segments, 3, 10),
        (SHORT, &[], 2, 0),
        (SHORT, &[0xFF; 10], 2, 10),
        (SHORT, &[0x01; 35], 3, 0),
        (SHORT, &two_segments[..14], 3, 7),
        (SHORT, &short, 13, 28),
    ];
    for (form, frame, number, at) in cases {
        let wanted = by_place(plain_read(form, frame));
        assert_eq!(wanted, Err((number, at)), "{frame:x?}");
        check_read(trial, bed, form, frame);
    }
}
