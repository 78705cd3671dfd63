//! The values that the rules give to check against: P1 to P12, and what is wanted over whole
//! histories.

use crate::frame::{self, Form};
use crate::packet::{ClearConfirmation, ClearRequest, Data, Packet};
use crate::resequencer::{Outcome, Resequencer, PLACES};
use crate::route::Table;
use crate::window::Sender;
use crate::Refusal;

/// One event's tickets, or nothing where it handed on none.
fn arrive(state: &mut Resequencer, sn: u8, ticket: u16) -> (Outcome, Vec<u16>) {
    let mut out = [0; PLACES];
    let answer = state.arrive(sn, ticket, &mut out).unwrap();
    (answer.outcome, out[..answer.count.into()].to_vec())
}

fn clock_end(state: &mut Resequencer, sn: u8) -> Vec<u16> {
    let mut out = [0; PLACES];
    let answer = state.clock_end(sn, &mut out).unwrap();
    out[..answer.count.into()].to_vec()
}

fn at(nesn: u8) -> Resequencer {
    Resequencer {
        nesn,
        ..Resequencer::fresh()
    }
}

#[test]
fn p1_p2_sending() {
    let sent = |next| {
        let mut end = Sender {
            edge: 9,
            next,
            held_off: false,
        };
        end.send()
    };
    assert_eq!(sent(7), Ok(7));
    assert_eq!(sent(8), Err(Refusal::WindowClosed));
}

#[test]
fn p3_p4_p5_window_of_32() {
    let mut state = at(62);
    assert_eq!(arrive(&mut state, 29, 1), (Outcome::Held, vec![]));
    assert_eq!(arrive(&mut state, 30, 2), (Outcome::Old, vec![]));
    assert_eq!(arrive(&mut state, 61, 3), (Outcome::Old, vec![]));
}

#[test]
fn p6_runs_over_the_wrap() {
    let mut state = at(62);
    assert_eq!(arrive(&mut state, 1, 101), (Outcome::Held, vec![]));
    assert_eq!(arrive(&mut state, 62, 162), (Outcome::HandedOn, vec![162]));
    assert_eq!(arrive(&mut state, 63, 163), (Outcome::HandedOn, vec![163]));
    assert_eq!(
        arrive(&mut state, 0, 100),
        (Outcome::HandedOn, vec![100, 101])
    );
    assert_eq!(state, at(2));
}

#[test]
fn p7_p8_clocks() {
    let mut state = at(10);
    for sn in [13, 14, 17, 11] {
        assert_eq!(arrive(&mut state, sn, sn.into()), (Outcome::Held, vec![]));
    }
    assert_eq!(state.clocks, 1 << 13 | 1 << 17);
    assert_eq!(clock_end(&mut state, 13), [11, 13, 14]);
    assert_eq!(
        (state.nesn, state.clocks, state.held),
        (15, 1 << 17, 1 << 17)
    );
}

fn written(packet: Packet, user: &[u8]) -> Vec<u8> {
    let mut out = [0xEE; 160];
    let length = frame::write(Form::LongUplink, &packet, user, &mut out).unwrap();
    assert_eq!(
        frame::read(Form::LongUplink, &out[..length]),
        Ok((packet, user))
    );
    out[..length].to_vec()
}

#[test]
fn p9_p10_p11_frames() {
    let data = Packet::Data(Data {
        m: true,
        sn: 5,
        ps: 3,
        pr: 2,
        ch: 4,
    });
    assert_eq!(
        written(data, &[0xAA; 4]),
        [0xC5, 0x32, 0x47, 0xAA, 0xAA, 0xAA, 0xAA, 0, 0, 0]
    );
    let (tc, sn, ch, am, ag) = (0, 9, 3, 2, 0x41);
    let request = Packet::ClearRequest(ClearRequest {
        tc,
        sn,
        ch,
        am,
        ag,
        cc: 141,
        dc: 162,
        s: false,
        f: false,
    });
    assert_eq!(
        written(request, &[]),
        [0x58, 0x09, 0x32, 0x41, 0x8D, 0xA2, 0x07, 0, 0, 0]
    );
    let confirmation = Packet::ClearConfirmation(ClearConfirmation { tc, sn, ch, am, ag });
    assert_eq!(
        written(confirmation, &[]),
        [0x5C, 0x09, 0x32, 0x41, 0, 0, 0, 0, 0, 0]
    );
}

#[test]
fn p12_additions_first() {
    for list in [
        [0x59, 0x12, 0x40, 0x50, 0x12],
        [0x50, 0x12, 0x59, 0x12, 0x40],
    ] {
        let (mut table, mut wanted) = (Table::empty(), Table::empty());
        assert_eq!(table.update(&list, &mut [7; 256]), Ok(0));
        wanted.codes[0x40] = 1 << 5;
        assert_eq!(table, wanted);
    }
}

/// A small generator, enough for these histories.
pub(crate) struct Random(pub(crate) u64);

impl Random {
    pub(crate) fn below(&mut self, bound: u64) -> u64 {
        self.0 ^= self.0 << 13;
        self.0 ^= self.0 >> 7;
        self.0 ^= self.0 << 17;
        (self.0 >> 11) % bound
    }
}

/// Follows one history by its true numbers; tickets are the true numbers' low 16 bits.
struct History {
    state: Resequencer,
    arrived: Vec<bool>,
    /// The true number expected.
    expected: usize,
    handed_on: Vec<u16>,
    taken: usize,
}

impl History {
    fn new() -> Self {
        History {
            state: Resequencer::fresh(),
            arrived: vec![false; 40_000],
            expected: 0,
            handed_on: Vec::new(),
            taken: 0,
        }
    }

    fn first_missing(&self, from: usize) -> usize {
        (from..).find(|&number| !self.arrived[number]).unwrap()
    }

    fn arrival(&mut self, number: usize) {
        let (outcome, left) = arrive(&mut self.state, (number % 64) as u8, number as u16);
        self.taken += usize::from(matches!(outcome, Outcome::Held | Outcome::HandedOn));
        self.handed_on.extend(left);
        self.arrived[number] = true;
        self.expected = self.first_missing(self.expected);
        self.check();
    }

    fn clock(&mut self, sn: u8) {
        let left = clock_end(&mut self.state, sn);
        self.handed_on.extend(left);
        let number = (self.expected..)
            .find(|n| n % 64 == usize::from(sn))
            .unwrap();
        self.expected = self.first_missing(number + 1);
        self.check();
    }

    fn check(&self) {
        let state = &self.state;
        assert!(state.in_order());
        assert_eq!(usize::from(state.nesn), self.expected % 64);
        assert_eq!(state.held == 0, state.clocks == 0);
        assert!(state.clocks.count_ones() <= 16);
        let held = state.held.count_ones() as usize;
        assert_eq!(self.taken, self.handed_on.len() + held);
    }

    /// A number at most 32 behind and 31 ahead of the expected one, mostly near it.
    fn some_number(&self, random: &mut Random) -> usize {
        let ahead = if random.below(4) == 0 { 32 } else { 6 };
        let behind = if random.below(8) == 0 { 33 } else { 1 };
        let number = self.expected + random.below(ahead) as usize;
        number.saturating_sub(random.below(behind) as usize)
    }

    fn some_clock(&self, random: &mut Random) -> Option<u8> {
        let running: Vec<u8> = (0..64)
            .filter(|n| self.state.clocks >> n & 1 == 1)
            .collect();
        let count = running.len() as u64;
        (count > 0).then(|| running[random.below(count) as usize])
    }
}

#[test]
fn without_clock_ends_tickets_leave_gaplessly() {
    let (mut random, mut history) = (Random(88172645463325252), History::new());
    while history.expected < 30_000 {
        let number = history.some_number(&mut random);
        history.arrival(number);
    }
    assert!((0..)
        .zip(&history.handed_on)
        .all(|(n, &ticket)| n == ticket));
}

#[test]
fn with_clock_ends_true_numbers_strictly_rise() {
    let (mut random, mut history) = (Random(2463534242), History::new());
    while history.expected < 39_000 {
        let clock = history.some_clock(&mut random);
        match clock.filter(|_| random.below(5) == 0) {
            Some(sn) => history.clock(sn),
            None => {
                let number = history.some_number(&mut random);
                history.arrival(number);
            }
        }
    }
    assert!(history.handed_on.windows(2).all(|pair| pair[0] < pair[1]));
    while let Some(sn) = history.some_clock(&mut random) {
        history.clock(sn);
    }
    assert_eq!(history.state.held, 0);
}
