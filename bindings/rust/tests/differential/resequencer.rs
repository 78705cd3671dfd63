//! The resequencer: long sequences, then single events on good, damaged and random states.

use pepperknoll::{raw, LinkNumber};
use plain::number::link_distance;
use plain::packed;
use plain::resequencer::{Answer, Outcome, Resequencer, BYTES, PLACES};

use crate::support::{by_number, safe_by_number, Call, Lent, Random, Trial};

pub fn run(trial: &mut Trial) {
    fresh(trial);
    several_refusals();
    sequence(trial);
    damaged_in_fields(trial);
    flipped_bits(trial);
    random_bytes(trial);
}

fn fresh(trial: &mut Trial) {
    let mut lent = Lent::of(&[0xEE; BYTES]);
    // SAFETY: the list is lent with its own length.
    let done = unsafe { raw::pk_resequencer_fresh(lent.as_mut_ptr(), lent.len()) };
    trial.tally.saw(Call::ResequencerFresh, done.into());
    assert_eq!(done, 0);
    lent.assert_holds(&[0; BYTES], || "fresh".into());
    assert_eq!(pepperknoll::Resequencer::fresh().as_bytes(), lent.content());
}

#[derive(Clone, Copy, Debug)]
enum Event {
    Arrive { sn: u8, ticket: u16 },
    ClockEnd { sn: u8 },
}

/// One state, kept by the library in lent memory, by a safe one, and by the plain one.
struct States {
    lent: Lent<u8>,
    tickets: Lent<u16>,
    safe: pepperknoll::Resequencer,
    plain: Resequencer,
}

impl States {
    fn new(bytes: [u8; BYTES]) -> Self {
        States {
            lent: Lent::of(&bytes),
            tickets: Lent::new(),
            safe: pepperknoll::Resequencer::from_bytes(bytes),
            plain: Resequencer::from_bytes(&bytes),
        }
    }

    fn set(&mut self, bytes: [u8; BYTES]) {
        self.lent.lend(&bytes);
        self.safe = pepperknoll::Resequencer::from_bytes(bytes);
        self.plain = Resequencer::from_bytes(&bytes);
    }

    fn in_order(&self, trial: &mut Trial) {
        let wanted = self.plain.in_order();
        // SAFETY: the list is lent with its own length.
        let got = unsafe { raw::pk_resequencer_in_order(self.lent.as_ptr(), self.lent.len()) };
        trial.tally.saw(Call::ResequencerInOrder, got.into());
        assert_eq!(got, if wanted { 0 } else { 14 }, "{:?}", self.plain);
        assert_eq!(self.safe.in_order(), wanted);
        let bytes = self.plain.to_bytes();
        self.lent.assert_holds(&bytes, || "in order".into());
    }

    /// One event on all three, with as many places for tickets as it takes, too few or more.
    fn event(&mut self, trial: &mut Trial, event: Event) -> Result<Answer, plain::Refusal> {
        let places = trial.random.places(PLACES);
        self.event_into(trial, event, places)
    }

    /// One event on all three; answers, tickets and states must agree.
    fn event_into(
        &mut self,
        trial: &mut Trial,
        event: Event,
        places: usize,
    ) -> Result<Answer, plain::Refusal> {
        let before = self.lent.content().to_vec();
        let what = || format!("{event:?}, {places} places, on {before:x?}");
        // The ticket places are lent dirty: a refusal leaves them, anything else fills the first
        // 32 of them and leaves the rest.
        let mut places = vec![trial.random.word() as u16; places];
        self.tickets.lend(&places);
        let got = self.raw_event(event);
        let (wanted, call) = match event {
            Event::Arrive { sn, ticket } => (
                self.plain.arrive(sn, ticket, &mut places),
                Call::ResequencerArrive,
            ),
            Event::ClockEnd { sn } => (
                self.plain.clock_end(sn, &mut places),
                Call::ResequencerClockEnd,
            ),
        };
        trial.tally.saw(call, got.into());
        assert_eq!(u64::from(got), packed::event(&wanted), "{}", what());
        let bytes = self.plain.to_bytes();
        self.tickets.assert_holds(&places, what);
        self.lent.assert_holds(&bytes, what);
        // The safe calls bring their own places, always enough.
        if wanted != Err(plain::Refusal::OutputTooShort) {
            self.safe_event(event, wanted, &places);
        }
        assert_eq!(self.safe.as_bytes(), &bytes, "safe call: {}", what());
        wanted
    }

    fn raw_event(&mut self, event: Event) -> u32 {
        let (state, length) = (self.lent.as_mut_ptr(), self.lent.len());
        let (tickets, places) = (self.tickets.as_mut_ptr(), self.tickets.len());
        // SAFETY: two lists apart, each lent with its own length.
        unsafe {
            match event {
                Event::Arrive { sn, ticket } => {
                    raw::pk_resequencer_arrive(state, length, tickets, places, sn, ticket)
                }
                Event::ClockEnd { sn } => {
                    raw::pk_resequencer_clock_end(state, length, tickets, places, sn)
                }
            }
        }
    }

    fn safe_event(&mut self, event: Event, wanted: Result<Answer, plain::Refusal>, places: &[u16]) {
        let left = |answer: &Answer| &places[..usize::from(answer.count)];
        let wanted = by_number(wanted);
        match event {
            Event::Arrive { sn, ticket } => {
                let safe = safe_by_number(self.safe.arrive(LinkNumber(sn), ticket));
                match (&safe, &wanted) {
                    (Ok(pepperknoll::Outcome::HandedOn(tickets)), Ok(answer)) => {
                        assert_eq!(answer.outcome, Outcome::HandedOn);
                        assert_eq!(**tickets, *left(answer));
                    }
                    (Ok(safe), Ok(answer)) => assert_eq!(plain_outcome(safe), answer.outcome),
                    (safe, wanted) => assert_eq!(safe.err(), wanted.err()),
                }
            }
            Event::ClockEnd { sn } => {
                let safe = safe_by_number(self.safe.clock_end(LinkNumber(sn)));
                match (&safe, &wanted) {
                    (Ok(tickets), Ok(answer)) => assert_eq!(**tickets, *left(answer)),
                    (safe, wanted) => assert_eq!(safe.err(), wanted.err()),
                }
            }
        }
    }
}

fn plain_outcome(outcome: &pepperknoll::Outcome) -> Outcome {
    match outcome {
        pepperknoll::Outcome::Held => Outcome::Held,
        pepperknoll::Outcome::HandedOn(_) => Outcome::HandedOn,
        pepperknoll::Outcome::Old => Outcome::Old,
        pepperknoll::Outcome::Duplicate => Outcome::Duplicate,
    }
}

/// One bit of a word, taken at random; none from an empty word.
fn some_bit(random: &mut Random, word: u64) -> Option<u8> {
    let turn = random.below(64) as u32;
    let turned = word.rotate_right(turn);
    (word != 0).then(|| ((turned.trailing_zeros() + turn) % 64) as u8)
}

/// What kind of traffic comes for a while.
#[derive(Clone, Copy)]
enum Traffic {
    /// Mostly the next number or one of the few after it.
    Near,
    /// Much is early, up to the far end of the window.
    Wide,
    /// Every second number is left out, so that many clocks run.
    Gaps,
    /// Any number.
    Any,
}

/// The distance from NESN of the next arrival.
fn distance(random: &mut Random, traffic: Traffic, state: &Resequencer) -> u8 {
    let past_hsnr = link_distance(state.nesn, state.hsnr) + random.below(3) as u8;
    match (traffic, random.below(16)) {
        (_, 0) => 29 + random.below(5) as u8,
        (_, 1) => past_hsnr,
        (_, 2) => random.below(64) as u8,
        (Traffic::Near, 3..=9) => 0,
        (Traffic::Near, _) => random.below(6) as u8,
        (Traffic::Wide, 3) => 0,
        (Traffic::Wide, _) => 1 + random.below(31) as u8,
        (Traffic::Gaps, 3..=12) => 2 + link_distance(state.nesn, state.hsnr),
        (Traffic::Gaps, _) => 1 + 2 * random.below(16) as u8,
        (Traffic::Any, _) => random.below(64) as u8,
    }
}

fn arrival(random: &mut Random, traffic: Traffic, state: &Resequencer) -> Event {
    let near = state.nesn.wrapping_add(distance(random, traffic, state)) % 64;
    let sn = match random.below(128) {
        0 => random.byte(),
        1 => 64 + near,
        _ => near,
    };
    let ticket = if random.one_in(8) {
        0
    } else {
        random.word() as u16
    };
    Event::Arrive { sn, ticket }
}

fn clock_end(random: &mut Random, state: &Resequencer) -> Event {
    let word = match random.below(16) {
        0 => state.held,
        1 => !0,
        _ => state.clocks,
    };
    let sn = match some_bit(random, word) {
        Some(sn) if !random.one_in(64) => sn,
        _ => random.byte(),
    };
    Event::ClockEnd { sn }
}

fn event(random: &mut Random, traffic: Traffic, state: &Resequencer) -> Event {
    let clocks_end = match traffic {
        Traffic::Near => 10,
        Traffic::Wide => 40,
        Traffic::Gaps => 24,
        Traffic::Any => 4,
    };
    if random.below(clocks_end) == 0 {
        clock_end(random, state)
    } else {
        arrival(random, traffic, state)
    }
}

fn some_traffic(random: &mut Random) -> Traffic {
    random.pick(&[
        Traffic::Near,
        Traffic::Near,
        Traffic::Wide,
        Traffic::Wide,
        Traffic::Gaps,
        Traffic::Any,
    ])
}

/// What has to hold over any events from a fresh state.
#[derive(Default)]
struct Books {
    taken: u64,
    handed_on: u64,
}

impl Books {
    fn check(&mut self, event: Event, answer: &Answer, state: &Resequencer) {
        let arrived = matches!(event, Event::Arrive { .. });
        let taken = matches!(answer.outcome, Outcome::Held | Outcome::HandedOn);
        self.taken += u64::from(arrived && taken);
        self.handed_on += u64::from(answer.count);
        assert_eq!(
            self.taken,
            self.handed_on + u64::from(state.held.count_ones())
        );
        assert_eq!(state.held == 0, state.clocks == 0);
        assert!(state.clocks.count_ones() <= 16);
    }
}

/// One state for many events, without a new one in between but once in a long while.
fn sequence(trial: &mut Trial) {
    let mut left = trial.times(3_000_000, 15_000_000);
    while left > 0 {
        let mut states = States::new(Resequencer::fresh().to_bytes());
        let mut books = Books::default();
        let mut traffic = Traffic::Near;
        for _ in 0..left.min(400_000) {
            left -= 1;
            if trial.random.one_in(300) {
                traffic = some_traffic(&mut trial.random);
                states.in_order(trial);
            }
            let event = event(&mut trial.random, traffic, &states.plain);
            if let Ok(answer) = states.event(trial, event) {
                books.check(event, &answer, &states.plain);
            }
        }
        end_all_clocks(trial, &mut states);
    }
}

/// Once each clock has ended, nothing is held.
fn end_all_clocks(trial: &mut Trial, states: &mut States) {
    while let Some(sn) = some_bit(&mut trial.random, states.plain.clocks) {
        states
            .event_into(trial, Event::ClockEnd { sn }, PLACES)
            .expect("it runs");
    }
    assert_eq!(states.plain.held, 0);
}

/// A state in good order, reached by events or not: any held set in the window, any clocks that
/// good order lets be.
fn good_state(random: &mut Random) -> Resequencer {
    let nesn = match random.below(3) {
        0 => (61 + random.below(6) as u8) % 64,
        _ => random.below(64) as u8,
    };
    let held = held_by_distance(random) & 0xFFFF_FFFE;
    let clocks = clocks_by_distance(random, held);
    let mut state = Resequencer {
        nesn,
        held: held.rotate_left(nesn.into()),
        clocks: clocks.rotate_left(nesn.into()),
        ..Resequencer::fresh()
    };
    if held != 0 {
        state.hsnr = (nesn + held.ilog2() as u8) % 64;
    }
    for sn in 0..64 {
        if state.held >> sn & 1 == 1 && !random.one_in(8) {
            state.tickets[sn] = random.word() as u16;
        }
    }
    assert!(state.in_order(), "{state:?}");
    state
}

/// Sparse, dense, in runs, full or empty.
fn held_by_distance(random: &mut Random) -> u64 {
    let (a, b, c) = (random.word(), random.word(), random.word());
    let short = u64::MAX >> random.below(64);
    match random.below(8) {
        0 => a & b & c,
        1 => a | b | c,
        2 => a & short,
        3 => a & a << 1 | b & c,
        4 => u64::MAX << (1 + random.below(31)),
        5 => 1 << random.below(32),
        6 => 0,
        _ => a,
    }
}

/// Clocks on held numbers, none on neighbours, and one in the furthest run.
fn clocks_by_distance(random: &mut Random, held: u64) -> u64 {
    let mut clocks = 0u64;
    let wish = random.word() | random.word();
    for distance in 1..32 {
        let bit = 1 << distance;
        if held & wish & bit != 0 && clocks & bit >> 1 == 0 {
            clocks |= bit;
        }
    }
    if held == 0 {
        return 0;
    }
    let furthest = held.ilog2();
    let run = (!(held << (63 - furthest))).leading_zeros();
    let lowest = 1u64 << (furthest + 1 - run);
    let in_run = !(lowest - 1);
    if clocks & in_run == 0 {
        clocks |= lowest;
    }
    clocks
}

/// Changes one field of a state, mostly to something near.
fn damage(random: &mut Random, state: &mut Resequencer) {
    let bit = 1u64 << random.below(64);
    let near = 1u64 << ((usize::from(state.nesn % 64) + random.below(34)) % 64);
    let held = some_bit(random, state.held).map_or(0, |sn| 1 << sn);
    match random.below(12) {
        0 => state.nesn = random.byte(),
        1 => state.nesn = state.nesn.wrapping_add(random.pick(&[1, 64, 128, 255])),
        2 => state.hsnr = random.byte(),
        3 => state.hsnr = state.hsnr.wrapping_add(random.pick(&[1, 64, 255])),
        4 => state.held ^= near,
        5 => state.held ^= bit,
        6 => state.clocks ^= near,
        7 => state.clocks ^= held,
        8 => state.clocks |= state.clocks << 1 & state.held,
        9 => state.held ^= held,
        10 => state.tickets[random.below(64)] ^= 1 << random.below(16),
        _ => {
            // Taken out whole, with clock and ticket: often still in good order.
            state.held &= !held;
            state.clocks &= !held;
            if held != 0 {
                state.tickets[held.ilog2() as usize] = 0;
            }
        }
    }
}

fn some_event(trial: &mut Trial, state: &Resequencer) -> Event {
    let traffic = some_traffic(&mut trial.random);
    if trial.random.one_in(2) {
        clock_end(&mut trial.random, state)
    } else {
        arrival(&mut trial.random, traffic, state)
    }
}

/// Good states, and such with one or two fields changed.
fn damaged_in_fields(trial: &mut Trial) {
    let mut states = States::new([0; BYTES]);
    for _ in 0..trial.times(300_000, 2_000_000) {
        let mut state = good_state(&mut trial.random);
        for _ in 0..trial.random.below(3) {
            damage(&mut trial.random, &mut state);
        }
        states.set(state.to_bytes());
        states.in_order(trial);
        let event = some_event(trial, &state);
        let _ = states.event(trial, event);
        states.in_order(trial);
    }
}

/// Every bit of good states, one at a time.
fn flipped_bits(trial: &mut Trial) {
    let mut states = States::new([0; BYTES]);
    for round in 0..trial.times(100, 700) {
        let good = match round {
            0 => Resequencer::fresh(),
            _ => good_state(&mut trial.random),
        };
        for bit in 0..BYTES * 8 {
            let mut bytes = good.to_bytes();
            bytes[bit / 8] ^= 1 << (bit % 8);
            states.set(bytes);
            states.in_order(trial);
            let event = some_event(trial, &good);
            let _ = states.event(trial, event);
        }
    }
}

fn random_bytes(trial: &mut Trial) {
    let mut states = States::new([0; BYTES]);
    for _ in 0..trial.times(50_000, 500_000) {
        let mut bytes = [0; BYTES];
        bytes.copy_from_slice(&trial.random.bytes(BYTES));
        // With the front left random, no ticket would ever decide; with none, the front does.
        match trial.random.below(3) {
            0 => bytes[18..].fill(0),
            1 => bytes[..18].fill(0),
            _ => (),
        }
        states.set(bytes);
        states.in_order(trial);
        let state = Resequencer::from_bytes(&bytes);
        let event = some_event(trial, &state);
        let _ = states.event(trial, event);
    }
}

/// Inputs that deserve several refusals, by the numbers that the rules put first; and the
/// replay case, by its values.
fn several_refusals() {
    let mut bytes = [0; BYTES];
    bytes[20] = 1; // a ticket for a number that is not held
    let mut bad = pepperknoll::Resequencer::from_bytes(bytes);
    assert_eq!(bad.arrive(LinkNumber(99), 0).unwrap_err().number(), 14);
    assert_eq!(bad.clock_end(LinkNumber(99)).unwrap_err().number(), 14);
    assert_eq!(bad.clock_end(LinkNumber(9)).unwrap_err().number(), 14);
    let mut good = pepperknoll::Resequencer::fresh();
    assert_eq!(good.clock_end(LinkNumber(64)).unwrap_err().number(), 1);
    assert_eq!(good.clock_end(LinkNumber(0)).unwrap_err().number(), 7);
    assert_eq!(good.arrive(LinkNumber(64), 0).unwrap_err().number(), 1);

    let mut handed_on = Vec::new();
    for (sn, ticket) in [(2, 7), (0, 5), (1, 6), (2, 7)] {
        if let Ok(pepperknoll::Outcome::HandedOn(tickets)) = good.arrive(LinkNumber(sn), ticket) {
            handed_on.push(tickets.to_vec());
        }
    }
    assert_eq!(handed_on, [vec![5], vec![6, 7]]);
    assert_eq!(good.clock_end(LinkNumber(4)).unwrap_err().number(), 7);
    assert_eq!(
        (good.nesn(), good.held(), good.clocks()),
        (LinkNumber(3), 0, 0)
    );
}
