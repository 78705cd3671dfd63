//! ROUTE packets in frames: written with every length of table and optional data, read back, and
//! read after damage, mostly of their two lengths. Frames of the short form are laid out by
//! `plain`.

use pepperknoll::raw;
use plain::frame::{Form, Sizes};
use plain::packet::Packet;
use plain::{lent, route_packet, Refusal};

use crate::frames::{check_read, plain_read, safe_form, Bed, SHORT};
use crate::messages::{self, run_of_frames};
use crate::support::{by_place, Call, Lent, Random, Trial};

pub fn run(trial: &mut Trial) {
    several_refusals(trial);
    every_flag(trial);
    every_form(trial);
    every_length(trial);
    lengths_to_the_frame_s_end(trial);
    every_bit(trial);
    written_and_damaged(trial);
    among_data(trial);
}

const DIRT: u8 = 0xEE;
/// The forms are the numbers below this one.
const FORMS: u8 = 18;

fn sizes(form: u8) -> Sizes {
    let form = Form::from_number(form).expect("a form");
    form.sizes().expect("a form")
}

/// A ROUTE to write, as it is lent.
#[derive(Clone, Debug)]
struct Writing {
    form: u8,
    init: u8,
    of: u8,
    table: Vec<u8>,
    data: Vec<u8>,
    room: usize,
}

/// The lists lent for it.
struct Lists {
    table: Lent<u8>,
    data: Lent<u8>,
    out: Lent<u8>,
}

impl Lists {
    fn new() -> Self {
        Lists {
            table: Lent::new(),
            data: Lent::new(),
            out: Lent::new(),
        }
    }
}

impl Writing {
    fn new(form: u8, table: usize, data: Option<usize>, room: usize) -> Self {
        Writing {
            form,
            init: 1,
            of: data.is_some().into(),
            table: vec![0x81; table],
            data: vec![0x92; data.unwrap_or(0)],
            room,
        }
    }

    /// The frame by the layout, in every form and whatever the room.
    fn laid_out(&self) -> Result<Vec<u8>, Refusal> {
        let form = Form::from_number(self.form)?;
        let data = (self.of == 1).then_some(&self.data[..]);
        let mut frame = vec![DIRT; 160];
        let length = route_packet::lay_out(form, self.init == 1, &self.table, data, &mut frame)?;
        frame.truncate(length);
        Ok(frame)
    }

    /// Writes with all three; gives the answer.
    fn check(&self, trial: &mut Trial, lists: &mut Lists) -> u64 {
        let mut out = vec![DIRT; self.room];
        lists.table.lend(&self.table);
        lists.data.lend(&self.data);
        lists.out.lend(&out);
        let Writing { form, init, of, .. } = *self;
        let wanted = lent::route_write(form, init, of, &self.table, &self.data, &mut out);
        // SAFETY: three lists apart, each lent with its own length.
        let got = unsafe {
            raw::pk_route_write(
                form,
                init,
                of,
                lists.table.as_ptr(),
                lists.table.len(),
                lists.data.as_ptr(),
                lists.data.len(),
                lists.out.as_mut_ptr(),
                lists.out.len(),
            )
        };
        trial.tally.saw(Call::RouteWrite, got);
        assert_eq!(got, wanted, "{self:?}");
        let what = || format!("{self:?}");
        lists.out.assert_holds(&out, what);
        lists.table.assert_holds(&self.table, what);
        lists.data.assert_holds(&self.data, what);
        self.check_safe(wanted, &out);
        got
    }

    /// The safe call takes what is a ROUTE at all.
    fn check_safe(&self, wanted: u64, wanted_out: &[u8]) {
        if self.init > 1 || self.of > 1 || self.of == 0 && !self.data.is_empty() {
            return;
        }
        let route = pepperknoll::Route {
            init: self.init == 1,
            table: &self.table,
            data: (self.of == 1).then_some(&self.data[..]),
        };
        let (form, mut out) = (safe_form(self.form), vec![DIRT; self.room]);
        let got = match pepperknoll::write_route(form, &route, &mut out) {
            Ok(length) => (length as u64) << 8,
            Err(refusal) => refusal.number().into(),
        };
        assert_eq!(got, wanted, "{self:?}");
        assert_eq!(out, wanted_out, "{self:?}");
    }

    /// Writes, and reads back what was written or, in the short form, laid out; gives the frame.
    fn check_back(&self, trial: &mut Trial, lists: &mut Lists, bed: &mut Bed) -> Option<Vec<u8>> {
        let written = self.check(trial, lists);
        let frame = self.laid_out().ok()?;
        assert_eq!(written & 0xFF == 23, self.form == SHORT, "{self:?}");
        let packet = check_read(trial, bed, self.form, &frame)?;
        let rtl = self.table.len() as u8;
        let bytes = [12, self.of, self.init, rtl, 0, 0, 0, 0, 0, 0];
        assert_eq!(packet.to_bytes(), bytes, "{self:?}");
        let (_, rest) = plain_read(self.form, &frame).expect("it reads");
        let odl = (self.of == 1).then_some(self.data.len() as u8);
        let parts = [&self.table[..], odl.as_slice(), &self.data];
        assert_eq!(rest, parts.concat(), "{self:?}");
        Some(frame)
    }
}

/// Inputs that deserve several refusals, by the numbers that the rules put first.
fn several_refusals(trial: &mut Trial) {
    let mut lists = Lists::new();
    for (form, init, of, table, data, room, number) in [
        (18, 0, 0, 300, 0, 0, 1),
        (255, 2, 2, 300, 9, 0, 1),
        (17, 2, 0, 300, 0, 0, 1),
        (17, 0, 2, 300, 0, 0, 1),
        (17, 0, 0, 3, 1, 0, 1), // data although OF is 0
        (SHORT, 2, 0, 300, 0, 0, 1),
        (SHORT, 0, 0, 300, 1, 0, 1),
        (SHORT, 0, 0, 300, 0, 0, 23),
        (SHORT, 1, 1, 3, 3, 14, 23),
        (17, 0, 0, 256, 0, 0, 13),
        (17, 0, 1, 0, 256, 300, 13),
        (17, 1, 0, 151, 0, 0, 13),
        (17, 1, 1, 149, 1, 0, 13),
        (17, 1, 1, 149, 0, 159, 5),
        (16, 1, 0, 159, 0, 0, 13),
        (1, 1, 1, 7, 1, 0, 13),
        (1, 1, 1, 7, 0, 9, 5),
    ] {
        let mut writing = Writing::new(form, table, Some(data), room);
        (writing.init, writing.of) = (init, of);
        assert_eq!(writing.check(trial, &mut lists), number, "{writing:?}");
    }
}

/// Each value of each flag, with data and without: all but 0 and 1 are 1, and so is data with an OF
/// of 0.
fn every_flag(trial: &mut Trial) {
    let mut lists = Lists::new();
    for form in [17, 1, 16] {
        for (flag, data) in (0..=255).flat_map(|flag| [(flag, 0), (flag, 2)]) {
            let mut writing = Writing::new(form, 3, Some(data), 10);
            writing.init = flag;
            let done = if flag <= 1 { 10 << 8 } else { 1 };
            assert_eq!(writing.check(trial, &mut lists), done, "{writing:?}");
            (writing.init, writing.of) = (0, flag);
            let good = flag == 1 || flag == 0 && data == 0;
            let done = if good { 10 << 8 } else { 1 };
            assert_eq!(writing.check(trial, &mut lists), done, "{writing:?}");
        }
    }
}

/// Each number of a form, 256 of them, by the largest packet and by one with a byte more.
fn every_form(trial: &mut Trial) {
    let (mut lists, mut bed) = (Lists::new(), Bed::new());
    for form in 0..=255 {
        let largest = match form {
            SHORT => 28,
            17 => 152,
            _ => 10 * usize::from(form.min(20)),
        };
        for (table, data) in [(largest - 2, None), (1, Some(largest - 4))] {
            let mut writing = Writing::new(form, table, data, 200);
            let frame = writing.check_back(trial, &mut lists, &mut bed);
            assert_eq!(frame.is_some(), form <= 17, "form {form}");
            writing.table.push(1);
            let number = match form {
                SHORT => 23,
                1..=17 => 13,
                _ => 1,
            };
            assert_eq!(writing.check(trial, &mut lists), number, "{writing:?}");
        }
    }
}

/// Lengths of a table and of data: all about a segment, about the largest packet and about a byte,
/// and some others.
fn lengths(form: u8) -> Vec<usize> {
    let Sizes { segment, largest } = sizes(form);
    let around = |at: usize| at.saturating_sub(4)..=at;
    let mut lengths: Vec<usize> = (0..=segment + 1).collect();
    lengths.extend(around(2 * segment).chain(around(largest)));
    lengths.extend([largest + 1, 254, 255, 256, 257, 258, 300, 511, 512]);
    lengths
}

/// Every form, every two lengths, data that is absent and data that is empty; room that is exact,
/// a byte short and longer.
fn every_length(trial: &mut Trial) {
    let (mut lists, mut bed) = (Lists::new(), Bed::new());
    for form in 0..FORMS {
        let data: Vec<_> = lengths(form).into_iter().map(Some).chain([None]).collect();
        for (table, &data) in lengths(form)
            .into_iter()
            .flat_map(|t| data.iter().map(move |d| (t, d)))
        {
            let mut writing = Writing::new(form, table, data, 0);
            let needed = writing.laid_out().map_or(160, |frame| frame.len());
            for room in [needed, needed - 1, needed + 7] {
                (writing.room, writing.init) = (room, trial.random.byte() & 1);
                writing.check_back(trial, &mut lists, &mut bed);
            }
        }
    }
}

/// Frames of every length and form with each RTL, and with ODLs that run to the frame's end, just
/// past it and far past it; zeros after the packet, or not.
fn lengths_to_the_frame_s_end(trial: &mut Trial) {
    let most = trial.times(4, 18) as usize;
    for form in [SHORT, 17, 1, 2, 3, 16] {
        let Sizes { segment, largest } = sizes(form);
        let full = largest.div_ceil(segment);
        for segments in (1..=most).chain(full.max(2) - 1..=full + 1) {
            for (rtl, first) in (0..=255).flat_map(|rtl| (0x70..=0x73).map(move |b| (rtl, b))) {
                one_table_length(trial, form, segment * segments, [first, rtl]);
            }
        }
    }
}

fn one_table_length(trial: &mut Trial, form: u8, length: usize, front: [u8; 2]) {
    let mut bed = Bed::new();
    let table_end = 2 + usize::from(front[1]);
    let fits = length.saturating_sub(table_end + 1);
    let odls = [0, 1, fits.wrapping_sub(1), fits, fits + 1, 255];
    for odl in odls.into_iter().filter(|&odl| odl <= 255) {
        for fill in [0, 0xFF] {
            let mut frame = vec![fill; length];
            frame[..2].copy_from_slice(&front);
            if let (2, Some(place)) = (front[0] & 2, frame.get_mut(table_end)) {
                *place = odl as u8;
            }
            check_read(trial, &mut bed, form, &frame);
        }
        if front[0] & 2 == 0 {
            return; // no ODL to try
        }
    }
}

/// A ROUTE in so many bytes at most, good in every form; for OF and IN of any value.
pub fn some_route(random: &mut Random, form: u8) -> Vec<u8> {
    let Sizes { segment, largest } = sizes(form);
    let most = match random.below(6) {
        0 => largest + 2 * segment, // too long in itself, at times
        1 | 2 => largest,
        _ => 3 * segment,
    };
    let length = 3 + random.below(most.min(255) - 2);
    let mut frame = random.bytes(length);
    frame[0] = 0x70 | frame[0] & 3;
    let table = match frame[0] & 2 {
        0 => length - 2,
        _ => random.below(length - 2),
    };
    frame[1] = table as u8;
    if frame[0] & 2 != 0 {
        frame[2 + table] = (length - 3 - table) as u8;
    }
    frame.resize(length.next_multiple_of(segment), 0);
    frame
}

/// Each bit of whole frames, and each length that is cut or drawn out.
fn every_bit(trial: &mut Trial) {
    let mut bed = Bed::new();
    for form in [SHORT, 17, 1, 2, 3, 16] {
        for (table, data) in [
            (0, None),
            (0, Some(0)),
            (3, None),
            (3, Some(2)),
            (9, Some(4)),
        ] {
            let Ok(good) = Writing::new(form, table, data, 0).laid_out() else {
                continue;
            };
            for bit in 0..good.len() * 8 {
                let mut frame = good.clone();
                frame[bit / 8] ^= 1 << (bit % 8);
                check_read(trial, &mut bed, form, &frame);
            }
            for length in 0..45 {
                let mut frame = good.clone();
                frame.resize(length, 0);
                check_read(trial, &mut bed, form, &frame);
            }
        }
    }
}

/// Damages a ROUTE: its lengths, flags, padding, its own length, any byte.
fn damage(random: &mut Random, frame: &mut Vec<u8>) {
    if frame.len() < 2 {
        frame.extend([0x72, 0]);
        return;
    }
    let at = random.below(frame.len());
    let odl = (2 + usize::from(frame[1])).min(frame.len() - 1);
    let near_end = frame.len() - 1 - random.below(frame.len().min(10));
    match random.below(11) {
        0 => frame[0] ^= 1 << random.below(2),
        1 => frame[1] = frame[1].wrapping_add(random.pick(&[1, 255, 2, 254, 10, 246])),
        2 => frame[1] = random.byte(),
        3 => frame[odl] = frame[odl].wrapping_add(random.pick(&[1, 255, 2, 254, 10, 246])),
        4 => frame[odl] = random.byte(),
        5 | 6 => frame[near_end] = random.pick(&[0, 1, 0x80]),
        7 => frame.extend(vec![0; random.pick(&[1, 7, 10, 20])]),
        8 => frame.truncate(frame.len() - 1 - random.below(frame.len().min(11))),
        9 => frame[at] ^= 1 << random.below(8),
        _ => frame[at] = random.byte(),
    }
}

/// What a refusal of a ROUTE is given for, RTL and ODL first.
fn place(frame: &[u8], (number, at): (u8, usize)) -> usize {
    let table_end = 2 + usize::from(frame.get(1).copied().unwrap_or(0));
    match number {
        3 if at == 1 => 0,
        3 if frame[0] & 2 != 0 && at == table_end => 1,
        3 if frame[at] != 0 => 2,
        3 => 3,
        13 => 4,
        _ => 5,
    }
}

/// Every form by turns; each has to have been refused often for each thing.
fn written_and_damaged(trial: &mut Trial) {
    let mut bed = Bed::new();
    let mut seen = [[0u64; 6]; FORMS as usize];
    for turn in 0..trial.times(300_000, 3_000_000) {
        let form = (turn % u64::from(FORMS)) as u8;
        let mut frame = some_route(&mut trial.random, form);
        check_read(trial, &mut bed, form, &frame);
        for _ in 0..1 + trial.random.below(3) {
            damage(&mut trial.random, &mut frame);
            check_read(trial, &mut bed, form, &frame);
            match (frame.first(), by_place(plain_read(form, &frame))) {
                (Some(0x70..=0x73), Err(refused)) => {
                    seen[usize::from(form)][place(&frame, refused)] += 1
                }
                _ => continue,
            }
        }
    }
    let rare = |places: &[u64; 6]| places.iter().any(|&times| times < 20);
    assert!(!seen.iter().any(rare), "{seen:?}");
}

/// In a run of DATA frames a ROUTE that reads is told of its first byte, one that does not of its
/// fault.
fn among_data(trial: &mut Trial) {
    let mut bed = messages::Bed::new();
    for _ in 0..trial.times(10_000, 100_000) {
        let form = trial.random.below(usize::from(FORMS)) as u8;
        let count = 1 + trial.random.below(3);
        let mut joining = run_of_frames(&mut trial.random, form, count, 30);
        let index = trial.random.below(count);
        let mut frame = some_route(&mut trial.random, form);
        if trial.random.one_in(2) {
            damage(&mut trial.random, &mut frame);
        }
        let (start, end) = (joining.start_of(index), joining.start_of(index + 1));
        let wanted = match by_place(plain_read(form, &frame)) {
            Ok((Packet::Route(_), _)) => (3, start),
            Ok(_) => continue,
            Err((number, at)) => (number, start + at),
        };
        joining.frames.splice(start..end, frame.iter().copied());
        joining.lengths[index] = frame.len();
        let got = by_place(joining.check(trial, &mut bed));
        assert_eq!(got, Err(wanted), "{joining:x?}");
    }
}
