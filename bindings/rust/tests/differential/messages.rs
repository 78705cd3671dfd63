//! Messages: cut, joined again, and joined after something was changed. Messages are not cut into
//! short frames any more, but runs of them are still joined: where one is joined, `plain` has laid
//! it out.

use pepperknoll::{raw, LinkNumber, PacketNumber};
use plain::frame::{self, Form};
use plain::message::{self, Cut, Start};
use plain::packed;
use plain::packet::{Data, Packet};
use plain::{lent, Fault, Refusal};

use crate::frames::{safe_form, some_form, SHORT};
use crate::support::{
    answer, by_number, by_place, safe_by_number, safe_by_place, Call, Lent, Random, Trial,
};

pub fn run(trial: &mut Trial) {
    several_refusals(trial);
    short_with_other_refusals(trial);
    every_form(trial);
    every_length(trial);
    cut_and_changed(trial);
    frames_of_any_size(trial);
}

const DIRT: u8 = 0xEE;
const LENGTH_DIRT: usize = 0x7777;

/// The lists lent for a message.
pub struct Bed {
    message: Lent<u8>,
    frames: Lent<u8>,
    lengths: Lent<usize>,
}

impl Bed {
    pub fn new() -> Self {
        Bed {
            message: Lent::new(),
            frames: Lent::new(),
            lengths: Lent::new(),
        }
    }
}

#[derive(Debug)]
struct Cutting {
    form: u8,
    start: Start,
    message: Vec<u8>,
    room: usize,
    places: usize,
}

impl Cutting {
    fn plain(&self, out: &mut [u8], lengths: &mut [usize]) -> Result<Cut, Refusal> {
        let form = Form::from_number(self.form)?;
        message::cut(form, self.start, &self.message, out, lengths)
    }

    /// The frames by the layout, in every form and whatever the room.
    fn laid_out(&self) -> Result<Joining, Refusal> {
        let form = Form::from_number(self.form)?;
        let (mut out, mut lengths) = (vec![DIRT; 8192], vec![LENGTH_DIRT; 600]);
        let made = message::lay_out(form, self.start, &self.message, &mut out, &mut lengths)?;
        Ok(self.joining(made, out, lengths))
    }

    /// What is to be joined once frames were made.
    fn joining(&self, made: Cut, mut frames: Vec<u8>, mut lengths: Vec<usize>) -> Joining {
        frames.truncate(made.bytes);
        lengths.truncate(made.frames);
        Joining {
            form: self.form,
            lengths,
            frames,
            room: self.message.len(),
        }
    }

    /// Cuts with all three, which have to refuse it with this number.
    fn check_refused(&self, trial: &mut Trial, bed: &mut Bed, number: u8) {
        let refusal = self.plain(&mut vec![0; self.room], &mut vec![0; self.places]);
        assert_eq!(refusal.unwrap_err().number(), number, "{self:?}");
        assert!(self.check(trial, bed).is_none(), "{self:?}");
    }

    /// Cuts with all three; gives lengths and frames to join: in a long form those that were cut,
    /// if any were, in the short one those that the layout makes.
    fn check_to_join(&self, trial: &mut Trial, bed: &mut Bed) -> Option<Joining> {
        let cut = self.check(trial, bed);
        if self.form == SHORT {
            assert!(cut.is_none(), "{self:?}");
            return self.laid_out().ok();
        }
        cut
    }

    /// Cuts with all three; gives lengths and frames if there are any.
    fn check(&self, trial: &mut Trial, bed: &mut Bed) -> Option<Joining> {
        let mut out = vec![DIRT; self.room];
        let mut lengths = vec![LENGTH_DIRT; self.places];
        bed.message.lend(&self.message);
        bed.frames.lend(&out);
        bed.lengths.lend(&lengths);
        let wanted = self.plain(&mut out, &mut lengths);
        let got = self.raw(bed);
        trial.tally.saw(Call::MessageCut, got);
        assert_eq!(got, packed::cutting(&wanted), "{self:?}");
        let what = || format!("{self:?}");
        bed.frames.assert_holds(&out, what);
        bed.lengths.assert_holds(&lengths, what);
        bed.message.assert_holds(&self.message, what);
        self.check_safe(wanted, &out, &lengths);
        let made = wanted.ok()?;
        Some(self.joining(made, out, lengths))
    }

    fn raw(&self, bed: &mut Bed) -> u64 {
        // SAFETY: three lists apart, each lent with its own length.
        unsafe {
            raw::pk_message_cut(
                self.form,
                self.start.sn,
                self.start.ps,
                self.start.pr,
                self.start.ch,
                bed.message.as_ptr(),
                bed.message.len(),
                bed.frames.as_mut_ptr(),
                bed.frames.len(),
                bed.lengths.as_mut_ptr(),
                bed.lengths.len(),
            )
        }
    }

    fn check_safe(&self, wanted: Result<Cut, Refusal>, out: &[u8], lengths: &[usize]) {
        let form = safe_form(self.form);
        let start = pepperknoll::Start {
            sn: LinkNumber(self.start.sn),
            ps: PacketNumber(self.start.ps),
            pr: PacketNumber(self.start.pr),
            ch: self.start.ch,
        };
        let mut safe_out = vec![DIRT; self.room];
        let mut safe_lengths = vec![LENGTH_DIRT; self.places];
        let (room, places) = (&mut safe_out, &mut safe_lengths);
        let safe = pepperknoll::cut(form, start, &self.message, room, places);
        let safe = safe_by_number(safe).map(|made| (made.frames, made.bytes));
        let wanted = by_number(wanted).map(|made| (made.frames, made.bytes));
        assert_eq!(safe, wanted, "{self:?}");
        assert!(safe_out == out && safe_lengths == lengths, "{self:?}");
    }
}

#[derive(Clone, Debug)]
pub struct Joining {
    pub form: u8,
    pub lengths: Vec<usize>,
    pub frames: Vec<u8>,
    pub room: usize,
}

impl Joining {
    fn plain(&self, out: &mut [u8]) -> Result<usize, Fault> {
        let form = Form::from_number(self.form)?;
        message::join(form, &self.lengths, &self.frames, out)
    }

    /// Joins with all three; gives the message if there is one, else where the frames are bad.
    pub fn check(&self, trial: &mut Trial, bed: &mut Bed) -> Result<Vec<u8>, Fault> {
        let mut out = vec![DIRT; self.room];
        bed.message.lend(&out);
        bed.lengths.lend(&self.lengths);
        bed.frames.lend(&self.frames);
        let wanted = self.plain(&mut out);
        // SAFETY: three lists apart, each lent with its own length.
        let got = unsafe {
            raw::pk_message_join(
                self.form,
                bed.lengths.as_ptr(),
                bed.lengths.len(),
                bed.frames.as_ptr(),
                bed.frames.len(),
                bed.message.as_mut_ptr(),
                bed.message.len(),
            )
        };
        trial.tally.saw(Call::MessageJoin, got);
        let packed = answer(&wanted.map_err(Refusal::from), |&length| length as u64);
        assert_eq!(got, packed, "{self:x?}");
        self.check_fault(trial, bed, got);
        let what = || format!("{self:x?}");
        bed.message.assert_holds(&out, what);
        bed.lengths.assert_holds(&self.lengths, what);
        bed.frames.assert_holds(&self.frames, what);
        self.check_safe(wanted, &out);
        out.truncate(wanted?);
        Ok(out)
    }

    /// Asks library and `plain` where the frames are bad, with the lists that were lent for joining
    /// them; the answer of that is given.
    fn check_fault(&self, trial: &mut Trial, bed: &Bed, answer: u64) {
        // SAFETY: two lists, each lent with its own length.
        let got = unsafe {
            raw::pk_message_fault(
                self.form,
                bed.lengths.as_ptr(),
                bed.lengths.len(),
                bed.frames.as_ptr(),
                bed.frames.len(),
                self.room,
            )
        };
        trial.tally.saw(Call::MessageFault, answer);
        let wanted = lent::message_fault(self.form, &self.lengths, &self.frames, self.room);
        assert_eq!(got, wanted, "{self:x?}");
    }

    fn check_safe(&self, wanted: Result<usize, Fault>, wanted_out: &[u8]) {
        let (form, mut out) = (safe_form(self.form), vec![DIRT; self.room]);
        let safe = pepperknoll::join(form, &self.lengths, &self.frames, &mut out);
        assert_eq!(safe_by_place(safe), by_place(wanted), "{self:x?}");
        assert_eq!(out, wanted_out, "{self:x?}");
    }

    /// Where a frame starts, as far as the lengths are true.
    pub fn start_of(&self, frame: usize) -> usize {
        let sum = self.lengths[..frame]
            .iter()
            .fold(0, |sum: usize, &l| sum.saturating_add(l));
        sum.min(self.frames.len())
    }

    /// The bytes of one frame, as far as its length is true.
    fn frame_mut(&mut self, frame: usize) -> &mut [u8] {
        let start = self.start_of(frame);
        let length = self.lengths[frame].min(self.frames.len() - start);
        &mut self.frames[start..][..length]
    }

    /// Changes one thing.
    fn change(&mut self, random: &mut Random) {
        if self.lengths.is_empty() || self.frames.is_empty() {
            return;
        }
        // The last frame and the one before it are where the rules meet.
        let last = self.lengths.len() - 1;
        let frame = match random.below(3) {
            0 => last,
            1 => last.saturating_sub(1),
            _ => random.below(last + 1),
        };
        match random.below(12) {
            0..=3 => change_header(random, self.frame_mut(frame)),
            4 => change_tail(random, self.frame_mut(frame)),
            5 => self.put_other_packet(random, frame),
            6 | 7 => self.change_lengths(random, frame),
            8 => self.swap_with_next(frame),
            9 => self.leave_out(frame),
            10 => self.room = random.pick(&[self.room.saturating_sub(1), 0, self.room + 9]),
            _ => match random.below(2) {
                0 => self.frames.truncate(self.frames.len() - 1),
                _ => self.frames.push(0),
            },
        }
    }

    /// A packet that is not DATA in the place of a frame, good or not.
    fn put_other_packet(&mut self, random: &mut Random, frame: usize) {
        let bytes = self.frame_mut(frame);
        let front: &[u8] = &random.pick(&[
            [0x58, 9, 0x32, 0x41, 141, 162, 7],
            [0x5C, 9, 0x32, 0x41, 0, 0, 0],
            [0x5C, 9, 0x32, 0x41, 0, 0, 1],
            [0x50, 9, 0x32, 0x41, 7, 0, 0],
            [0x50, 0x89, 0x12, 0x41, 0x67, 9, 9],
            [0x54, 0x49, 0x32, 0x41, 7, 9, 9],
            [0x60, 9, 0x32, 0, 0, 0, 0],
            [0x68, 9, 0x30, 1, 2, 0, 0],
            [0x71, 3, 0x59, 0x12, 0x40, 0, 0],
            [0x72, 3, 0x59, 0x12, 0x40, 9, 0],
            [0x6C, 9, 0x31, 0, 0, 0, 0],
            [0x74, 9, 0x37, 1, 2, 3, 4],
            [0x7D, 9, 0x32, 0, 0, 0, 0],
            [0x7E, 9, 0x32, 0, 0, 0, 0],
        ]);
        bytes.fill(0);
        let length = bytes.len().min(front.len());
        bytes[..length].copy_from_slice(&front[..length]);
    }

    fn change_lengths(&mut self, random: &mut Random, frame: usize) {
        let place = &mut self.lengths[frame];
        match random.below(8) {
            0 => *place = place.wrapping_add(1),
            1 => *place = place.wrapping_sub(1),
            2 => *place = 0,
            3 => self.lengths.insert(frame, 0),
            4 => self.lengths.extend([usize::MAX, 1]),
            5 => self
                .lengths
                .extend([usize::MAX / 2 + 1, usize::MAX / 2 + 1]),
            6 => drop(self.lengths.pop()),
            _ => {
                // The sum stays true, two frames get other lengths.
                let moved = random.pick(&[1, 7, 10]).min(*place);
                *place -= moved;
                let other = random.below(self.lengths.len());
                self.lengths[other] = self.lengths[other].wrapping_add(moved);
            }
        }
    }

    fn swap_with_next(&mut self, frame: usize) {
        let (start, middle) = (self.start_of(frame), self.start_of(frame + 1));
        if let Some(&next) = self.lengths.get(frame + 1) {
            let end = middle.saturating_add(next).min(self.frames.len());
            self.frames[start..end].rotate_left(middle - start);
            self.lengths.swap(frame, frame + 1);
        }
    }

    fn leave_out(&mut self, frame: usize) {
        let (start, end) = (self.start_of(frame), self.start_of(frame + 1));
        self.frames.drain(start..end);
        self.lengths.remove(frame);
    }
}

/// One field of a DATA header: M, SN, PS, PR, CH, LV or any bit.
fn change_header(random: &mut Random, frame: &mut [u8]) {
    let [b0, b1, b2, ..] = frame else { return };
    let (high, low) = (random.byte() << 4, random.byte() & 15);
    match random.below(9) {
        0 | 1 => *b0 ^= 0x40,
        2 => *b0 = *b0 & 0xC0 | b0.wrapping_add(1) & 0x3F,
        3 => *b0 ^= 1 << random.below(8),
        4 => *b1 = *b1 & 0x0F | high,
        5 => *b1 = *b1 & 0xF0 | low,
        6 => *b2 = *b2 & 0x0F | high,
        7 => *b2 = *b2 & 0xF0 | low,
        _ => *b2 ^= 1 << random.below(8),
    }
}

/// A byte of the last segment, where the padding is.
fn change_tail(random: &mut Random, frame: &mut [u8]) {
    let back = 1 + random.below(10);
    if let Some(at) = frame.len().checked_sub(back) {
        frame[at] = random.pick(&[0, 1, 0x80]);
    }
}

fn some_start(random: &mut Random) -> Start {
    let near = |random: &mut Random, bits: u32| match random.below(3) {
        0 => ((1u8 << bits) - 1) - random.below(3) as u8,
        _ => random.field(bits),
    };
    Start {
        sn: near(random, 6),
        ps: near(random, 4),
        pr: random.field(4),
        ch: random.field(4),
    }
}

/// A length around a multiple of the form's share, seldom around the longest.
fn some_length(random: &mut Random, form: u8) -> usize {
    let share = Form::from_number(form)
        .and_then(Form::sizes)
        .map_or(20, |sizes| sizes.largest - 3);
    let around = |at: usize, random: &mut Random| (at + random.below(5)).saturating_sub(2);
    match random.below(64) {
        0 => around(4096, random),
        1 => random.below(4097),
        2 => random.pick(&[0, 1, 5000]),
        3..=40 => around(share * random.below(5), random),
        _ => random.below(4 * share),
    }
}

fn some_cutting(random: &mut Random) -> Cutting {
    let form = some_form(random);
    let length = some_length(random, form);
    let mut cutting = Cutting {
        form,
        start: some_start(random),
        message: random.bytes(length),
        room: 8192,
        places: 600,
    };
    let needed = cutting.laid_out();
    let (bytes, frames) = needed.map_or((160, 2), |made| (made.frames.len(), made.lengths.len()));
    cutting.room = match random.below(8) {
        0 => bytes - 1,
        1 => random.below(bytes),
        _ => bytes + random.below(12),
    };
    cutting.places = match random.below(8) {
        0 => frames - 1,
        1 => random.below(frames),
        _ => frames + random.below(3),
    };
    cutting
}

/// In a long form what was cut comes back, in the short one what the layout makes; and both are
/// joined after changes.
fn cut_and_changed(trial: &mut Trial) {
    let mut bed = Bed::new();
    for _ in 0..trial.times(60_000, 300_000) {
        let cutting = some_cutting(&mut trial.random);
        let Some(good) = cutting.check_to_join(trial, &mut bed) else {
            continue;
        };
        let back = good.check(trial, &mut bed);
        assert_eq!(back.as_ref(), Ok(&cutting.message), "{cutting:?}");
        for _ in 0..3 {
            let mut changed = good.clone();
            for _ in 0..1 + trial.random.below(3) {
                changed.change(&mut trial.random);
            }
            if trial.random.one_in(16) {
                changed.form = some_form(&mut trial.random);
            }
            let _ = changed.check(trial, &mut bed);
        }
    }
}

/// Each number of a form, 256 of them: a message that makes a different number of frames in most
/// of the 18 that are forms, and comes back. Of these only the short form is not cut but laid out.
fn every_form(trial: &mut Trial) {
    let mut bed = Bed::new();
    let start = Start {
        sn: 62,
        ps: 15,
        pr: 1,
        ch: 2,
    };
    for form in 0..=255 {
        let cutting = Cutting {
            form,
            start,
            message: trial.random.bytes(1300),
            room: 2000,
            places: 200,
        };
        let made = cutting.check_to_join(trial, &mut bed);
        assert_eq!(made.is_some(), form <= 17, "form {form}");
        let frames = made.unwrap_or(Joining {
            form,
            lengths: vec![10],
            frames: vec![0x80, 0, 3, 0, 0, 0, 0, 0, 0, 0],
            room: 0,
        });
        let back = by_place(frames.check(trial, &mut bed));
        let wanted = if form <= 17 {
            Ok(cutting.message)
        } else {
            Err((1, 0))
        };
        assert_eq!(back, wanted, "form {form}");
    }
}

/// Each length in each form comes back, cut in the long forms and laid out in the short one; in the
/// long setting all of them.
fn every_length(trial: &mut Trial) {
    let mut bed = Bed::new();
    let start = Start {
        sn: 60,
        ps: 14,
        pr: 9,
        ch: 6,
    };
    let step = trial.times(61, 3) as usize;
    for form in 0..=17 {
        let around = (0..320).chain((320..4080).step_by(step)).chain(4080..=4097);
        for length in around {
            let cutting = Cutting {
                form,
                start,
                message: trial.random.bytes(length),
                room: 6200,
                places: 600,
            };
            let joining = cutting.check_to_join(trial, &mut bed);
            assert_eq!(joining.is_some(), length <= 4096, "{cutting:?}");
            if let Some(joining) = joining {
                let back = joining.check(trial, &mut bed);
                assert_eq!(back, Ok(cutting.message));
            }
        }
    }
}

/// Frames in a good run by the layout, each of any size, M as given to each.
pub fn run_of_frames(random: &mut Random, form: u8, count: usize, most: usize) -> Joining {
    let plain_form = Form::from_number(form).expect("a form");
    let largest = plain_form.sizes().expect("a form").largest;
    let Start { sn, ps, pr, ch } = some_start(random);
    let mut joining = Joining {
        form,
        lengths: Vec::new(),
        frames: Vec::new(),
        room: 0,
    };
    for index in 0..count {
        let packet = Packet::Data(Data {
            m: index + 1 < count,
            sn: (sn as usize + index) as u8 % 64,
            ps: (ps as usize + index) as u8 % 16,
            pr: pr & 15,
            ch: ch & 15,
        });
        let length = random.below(most.min(largest - 3) + 1);
        let (user, mut out) = (random.bytes(length), [0; 160]);
        let made = frame::lay_out(plain_form, &packet, &user, &mut out).expect("it fits");
        joining.frames.extend(&out[..made]);
        joining.lengths.push(made);
        joining.room += length;
    }
    joining
}

/// Runs of few frames, and runs that carry about as much as a message may.
fn frames_of_any_size(trial: &mut Trial) {
    let mut bed = Bed::new();
    for _ in 0..trial.times(8_000, 60_000) {
        let form = trial.random.pick(&[SHORT, 17, 17, 1, 2, 8, 16]);
        let count = 1 + trial.random.below(6);
        let good = run_of_frames(&mut trial.random, form, count, 160);
        assert!(good.check(trial, &mut bed).is_ok());
        let mut changed = good;
        changed.change(&mut trial.random);
        let _ = changed.check(trial, &mut bed);
    }
    for turn in 0..trial.times(600, 6_000) {
        // In the short form SN goes round five times and more.
        let (form, fewest) = if turn % 2 == 0 {
            (17, 50)
        } else {
            (SHORT, 324)
        };
        let count = fewest + trial.random.below(9);
        let mut long = run_of_frames(&mut trial.random, form, count, 149);
        // Half the runs carry over 4,096 bytes; some lack room as well, or break late.
        if trial.random.one_in(3) {
            long.room = trial.random.below(long.room);
        }
        let _ = long.check(trial, &mut bed);
        long.change(&mut trial.random);
        let _ = long.check(trial, &mut bed);
    }
    at_the_longest(trial, &mut bed, 17, 100);
    at_the_longest(trial, &mut bed, SHORT, 20);
}

/// 4,096 and 4,097 bytes in frames that are not full but carry so many each.
fn at_the_longest(trial: &mut Trial, bed: &mut Bed, form: u8, share: usize) {
    for total in 4094..=4098 {
        let mut joining = run_that_carries(&mut trial.random, form, share, total);
        let end = joining.frames.len();
        let wanted = if total > 4096 {
            Err((4, end))
        } else {
            Ok(total)
        };
        for room in [total, total - 1, 0] {
            joining.room = room;
            let got = joining.check(trial, bed).map(|message| message.len());
            let wanted = if room < total {
                wanted.and(Err((5, end)))
            } else {
                wanted
            };
            assert_eq!(by_place(got), wanted);
        }
    }
}

/// A good run by the layout: so many bytes in each frame, the rest of the total in the last.
fn run_that_carries(random: &mut Random, form: u8, share: usize, total: usize) -> Joining {
    let plain_form = Form::from_number(form).expect("a form");
    let mut joining = Joining {
        form,
        lengths: Vec::new(),
        frames: Vec::new(),
        room: total,
    };
    let message = random.bytes(total);
    let frames = message.chunks(share);
    let last = frames.len() - 1;
    for (index, user) in frames.enumerate() {
        let packet = Packet::Data(Data {
            m: index < last,
            sn: (index % 64) as u8,
            ps: (index % 16) as u8,
            pr: 0,
            ch: 1,
        });
        let mut out = [0; 160];
        let made = frame::lay_out(plain_form, &packet, user, &mut out).expect("it fits");
        joining.frames.extend(&out[..made]);
        joining.lengths.push(made);
    }
    joining
}

/// Inputs that deserve several refusals, by the numbers that the rules put first.
fn several_refusals(trial: &mut Trial) {
    let mut bed = Bed::new();
    let start = Start {
        sn: 0,
        ps: 0,
        pr: 0,
        ch: 0,
    };
    let wide = Start { sn: 64, ..start };
    for (form, start, length, room, places, number) in [
        (18, start, 5000, 0, 0, 1),
        (255, start, 5000, 0, 0, 1),
        (17, wide, 5000, 0, 0, 1),
        (17, Start { pr: 16, ..start }, 5000, 0, 0, 1),
        (17, start, 4097, 0, 0, 4),
        (17, start, 4096, 0, 0, 5),
        (17, start, 150, 170, 1, 5),
        (17, start, 150, 169, 2, 5),
        (16, start, 158, 170, 1, 5),
        (SHORT, wide, 5000, 0, 0, 1), // in the short form as well
        (SHORT, start, 5000, 0, 0, 23),
        (SHORT, start, 4096, 0, 0, 23),
        (SHORT, start, 26, 35, 1, 23),
        (SHORT, start, 26, 34, 2, 23),
        (SHORT, start, 26, 35, 2, 23),
    ] {
        let cutting = Cutting {
            form,
            start,
            message: vec![3; length],
            room,
            places,
        };
        cutting.check_refused(trial, &mut bed, number);
    }
    joining_several_refusals(trial, &mut bed);
}

/// The short form together with everything else that a cutting is refused for: every value of each
/// number that goes on the frames, messages around one and two shares of 25 bytes and around the
/// longest, room and places of which either, both or none are enough. 23 comes after 1, and before
/// 4 and 5.
fn short_with_other_refusals(trial: &mut Trial) {
    let mut bed = Bed::new();
    let largest: [u8; 4] = [63, 15, 15, 15];
    for (at, value) in (0..4).flat_map(|at| (0..=255).map(move |value| (at, value))) {
        let mut numbers = largest;
        numbers[at] = value;
        let [sn, ps, pr, ch] = numbers;
        let start = Start { sn, ps, pr, ch };
        let number = if value <= largest[at] { 23 } else { 1 };
        // All lengths at the ends of the fields, few elsewhere: the long ones take their time.
        let lengths = match value.abs_diff(largest[at]) {
            0 | 1 => &[0, 1, 25, 26, 50, 51, 1300, 4096, 4097, 5000][..],
            _ => &[0, 26],
        };
        for &length in lengths {
            for (room, places) in [(0, 0), (7, 1), (6, 600), (6200, 0), (6200, 600)] {
                let cutting = Cutting {
                    form: SHORT,
                    start,
                    message: vec![3; length],
                    room,
                    places,
                };
                cutting.check_refused(trial, &mut bed, number);
            }
        }
    }
}

/// Three frames of ten bytes, SN and PS 63, 0, 1 and 15, 0, 1; changed at some places.
fn three(changes: &[(usize, u8)]) -> Vec<u8> {
    let mut frames = vec![0; 30];
    for (start, front) in [
        (0, [0xFF, 0xF0, 4]),
        (10, [0xC0, 0, 4]),
        (20, [0x81, 0x10, 4]),
    ] {
        frames[start..][..3].copy_from_slice(&front);
    }
    for &(at, byte) in changes {
        frames[at] = byte;
    }
    frames
}

/// Two frames of the short form, SN and PS 63, 0 and 15, 0; changed at some places.
fn short(changes: &[(usize, u8)]) -> Vec<u8> {
    let mut frames = vec![0xFF, 0xF0, 4, 1, 0, 0, 0, 0x80, 0, 4, 1, 0, 0, 0];
    for &(at, byte) in changes {
        frames[at] = byte;
    }
    frames
}

/// A form, lengths, frames and room, and the number with which joining refuses them, and where.
type Refused = (u8, Vec<usize>, Vec<u8>, usize, (u8, usize));

/// Runs in the short form: joining refuses them as it does those in a long one.
fn short_cases() -> [Refused; 6] {
    [
        (SHORT, vec![7; 2], short(&[]), 1, (5, 14)),
        (SHORT, vec![7; 2], short(&[(0, 0xBF)]), 0, (3, 0)), // M 0 before the last
        (SHORT, vec![7; 2], short(&[(7, 0x81)]), 0, (17, 7)),
        (SHORT, vec![7; 2], short(&[(7, 0xC0)]), 0, (2, 7)), // M 1 on the last
        (SHORT, vec![7; 2], short(&[(13, 1)]), 0, (3, 13)),  // padding
        (SHORT, vec![10, 4], short(&[]), 0, (2, 10)),
    ]
}

fn joining_several_refusals(trial: &mut Trial, bed: &mut Bed) {
    let tens = vec![10; 3];
    let not_data = three(&[(20, 0x5C), (21, 0), (22, 0)]);
    let ready = three(&[(10, 0x60), (11, 5), (12, 0x37)]);
    let bad_ready = three(&[(10, 0x60), (11, 5), (12, 0x37), (17, 1)]);
    let accept = three(&[(10, 0x54), (11, 0x45), (12, 0x32), (13, 0x41), (14, 0x05)]);
    let cases = [
        (18, vec![], vec![], 0, (1, 0)),
        (255, vec![], vec![], 0, (1, 0)),
        (17, vec![], vec![], 0, (2, 0)),
        (17, vec![], three(&[]), 0, (2, 30)),
        (17, vec![usize::MAX, 31], three(&[]), 3, (2, 30)),
        (17, vec![10; 4], three(&[(0, 0)]), 0, (2, 30)), // the sum before the first frame's 3
        (17, vec![10, 0, 20], three(&[(0, 0)]), 0, (3, 0)), // frame 0's 3 before frame 1's 2
        (17, vec![10, 0, 20], three(&[]), 0, (2, 10)),
        (17, tens.clone(), three(&[(10, 0x85)]), 0, (3, 10)), // M before the run
        (17, tens.clone(), three(&[(10, 0xC5), (29, 1)]), 0, (17, 10)), // before frame 2's 3
        (17, tens.clone(), three(&[(20, 0xC5)]), 0, (17, 20)), // the run before the last M
        (17, tens.clone(), three(&[(20, 0xC1)]), 0, (2, 20)), // the last M before no room
        (17, tens.clone(), not_data, 0, (3, 20)),
        (17, tens.clone(), ready, 0, (3, 10)),
        (17, tens.clone(), bad_ready, 0, (3, 17)),
        (17, tens.clone(), accept.clone(), 0, (3, 11)), // TC has no place on the uplink
        (1, tens.clone(), accept, 0, (3, 10)),
        (17, tens.clone(), three(&[]), 2, (5, 30)),
        (1, vec![20, 10], three(&[(10, 0)]), 0, (13, 10)), // too long before no room
        (SHORT, tens, three(&[(0, 0)]), 0, (2, 10)),       // no whole segments before first bits
    ];
    for (form, lengths, frames, room, refused) in cases.into_iter().chain(short_cases()) {
        let joining = Joining {
            form,
            lengths,
            frames,
            room,
        };
        let got = by_place(joining.check(trial, bed));
        assert_eq!(got, Err(refused), "{joining:x?}");
    }
}
