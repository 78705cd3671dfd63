//! Sequence numbers and the two ends of the flow window.

use pepperknoll::{raw, LinkNumber, PacketNumber};
use plain::number;
use plain::window::{Receiver, Sender};

use crate::support::{answer, by_number, safe_by_number, Call, Lent, Random, Trial};

pub fn run(trial: &mut Trial) {
    numbers(trial);
    fresh(trial);
    senders(trial);
    receivers(trial);
    sender_sequence(trial);
    sender_damage(trial);
    receiver_sequence(trial);
    several_refusals();
}

/// All pairs of bytes.
fn numbers(trial: &mut Trial) {
    for from in 0..=255u8 {
        let (link, packet) = (LinkNumber(from), PacketNumber(from));
        assert_eq!(link.next().0, number::link_next(from));
        assert_eq!(packet.next().0, number::packet_next(from));
        trial.tally.saw(Call::LinkNext, 0);
        trial.tally.saw(Call::PacketNext, 0);
        for to in 0..=255u8 {
            let distance = link.distance_to(LinkNumber(to));
            assert_eq!(distance, number::link_distance(from, to));
            let distance = packet.distance_to(PacketNumber(to));
            assert_eq!(distance, number::packet_distance(from, to));
            trial.tally.saw(Call::LinkDistance, 0);
            trial.tally.saw(Call::PacketDistance, 0);
        }
    }
}

fn fresh(trial: &mut Trial) {
    let mut lent = Lent::of(&[0xEE; 3]);
    // SAFETY: the list is lent with its own length.
    let done = unsafe { raw::pk_sender_fresh(lent.as_mut_ptr(), lent.len()) };
    trial.tally.saw(Call::SenderFresh, done.into());
    assert_eq!(done, 0);
    lent.assert_holds(&Sender::fresh().to_bytes(), || "fresh sender".into());
    assert_eq!(pepperknoll::Sender::fresh().as_bytes(), lent.content());
    lent.lend(&[0xEE; 3]);
    // SAFETY: the list is lent with its own length.
    let done = unsafe { raw::pk_receiver_fresh(lent.as_mut_ptr(), lent.len()) };
    trial.tally.saw(Call::ReceiverFresh, done.into());
    assert_eq!(done, 0);
    lent.assert_holds(&Receiver::fresh().to_bytes(), || "fresh receiver".into());
    assert_eq!(pepperknoll::Receiver::fresh().as_bytes(), lent.content());
}

/// A packet whose PR is taken.
#[derive(Clone, Copy, Debug)]
enum Taken {
    Data,
    ReceiveReady,
    ReceiveNotReady,
    Reject,
}

const TAKEN: [Taken; 4] = [
    Taken::Data,
    Taken::ReceiveReady,
    Taken::ReceiveNotReady,
    Taken::Reject,
];

impl Taken {
    fn call(self) -> Call {
        match self {
            Taken::Data => Call::SenderAcknowledge,
            Taken::ReceiveReady => Call::SenderReady,
            Taken::ReceiveNotReady => Call::SenderNotReady,
            Taken::Reject => Call::SenderReject,
        }
    }

    fn raw(self, state: &mut Lent<u8>, pr: u8) -> u32 {
        let call = match self {
            Taken::Data => raw::pk_sender_acknowledge,
            Taken::ReceiveReady => raw::pk_sender_ready,
            Taken::ReceiveNotReady => raw::pk_sender_not_ready,
            Taken::Reject => raw::pk_sender_reject,
        };
        // SAFETY: the list is lent with its own length.
        unsafe { call(state.as_mut_ptr(), state.len(), pr) }
    }

    fn safe(self, state: &mut pepperknoll::Sender, pr: u8) -> Result<(), pepperknoll::Refusal> {
        let pr = PacketNumber(pr);
        match self {
            Taken::Data => state.acknowledge(pr),
            Taken::ReceiveReady => state.ready(pr),
            Taken::ReceiveNotReady => state.not_ready(pr),
            Taken::Reject => state.reject(pr),
        }
    }

    fn plain(self, state: &mut Sender, pr: u8) -> Result<(), plain::Refusal> {
        match self {
            Taken::Data => state.acknowledge(pr),
            Taken::ReceiveReady => state.ready(pr),
            Taken::ReceiveNotReady => state.not_ready(pr),
            Taken::Reject => state.reject(pr),
        }
    }
}

/// One sending end, kept by the library in lent memory, by a safe one, and by the plain one.
struct Senders {
    lent: Lent<u8>,
    safe: pepperknoll::Sender,
    /// No state at all where the mark is neither 0 nor 1.
    plain: Result<Sender, plain::Refusal>,
    bytes: [u8; 3],
}

impl Senders {
    fn new(bytes: [u8; 3]) -> Self {
        Senders {
            lent: Lent::of(&bytes),
            safe: pepperknoll::Sender::from_bytes(bytes),
            plain: Sender::from_bytes(bytes),
            bytes,
        }
    }

    fn set(&mut self, bytes: [u8; 3]) {
        self.lent.lend(&bytes);
        self.safe = pepperknoll::Sender::from_bytes(bytes);
        self.plain = Sender::from_bytes(bytes);
        self.bytes = bytes;
    }

    fn in_order(&self, trial: &mut Trial) {
        let wanted = self.plain.is_ok_and(|state| state.in_order());
        // SAFETY: the list is lent with its own length.
        let got = unsafe { raw::pk_sender_in_order(self.lent.as_ptr(), self.lent.len()) };
        trial.tally.saw(Call::SenderInOrder, got.into());
        assert_eq!(got, if wanted { 0 } else { 14 }, "{:?}", self.bytes);
        assert_eq!(self.safe.in_order(), wanted);
        assert_eq!(self.safe.held_off(), self.bytes[2] == 1);
        self.same("in order");
    }

    fn send(&mut self, trial: &mut Trial) {
        let wanted = match &mut self.plain {
            Ok(state) => state.send(),
            Err(refusal) => Err(*refusal),
        };
        // SAFETY: the list is lent with its own length.
        let got = unsafe { raw::pk_sender_send(self.lent.as_mut_ptr(), self.lent.len()) };
        trial.tally.saw(Call::SenderSend, got.into());
        let wanted_answer = answer(&wanted, |&ps| ps.into());
        assert_eq!(u64::from(got), wanted_answer, "{:?}", self.bytes);
        let safe = safe_by_number(self.safe.send());
        assert_eq!(safe.map(|ps| ps.0), by_number(wanted));
        self.keep();
        self.same("send");
    }

    fn take(&mut self, trial: &mut Trial, taken: Taken, pr: u8) {
        let wanted = match &mut self.plain {
            Ok(state) => taken.plain(state, pr),
            Err(refusal) => Err(*refusal),
        };
        let got = taken.raw(&mut self.lent, pr);
        trial.tally.saw(taken.call(), got.into());
        let wanted_answer = answer(&wanted, |_| 0);
        assert_eq!(
            u64::from(got),
            wanted_answer,
            "{taken:?}, {:?} PR {pr}",
            self.bytes
        );
        let safe = safe_by_number(taken.safe(&mut self.safe, pr));
        assert_eq!(safe, by_number(wanted));
        self.keep();
        self.same("take a PR");
    }

    fn keep(&mut self) {
        if let Ok(state) = self.plain {
            self.bytes = state.to_bytes();
        }
    }

    fn same(&self, what: &str) {
        self.lent.assert_holds(&self.bytes, || what.into());
        assert_eq!(self.safe.as_bytes(), &self.bytes, "{what}");
    }
}

/// Bytes around the ends of the fields.
fn ends() -> impl Iterator<Item = u8> + Clone {
    (0..=17).chain([31, 32, 63, 64, 127, 128, 240, 254, 255])
}

/// Bytes around the ends of the fields, in the long setting all.
fn edges(trial: &Trial) -> Vec<u8> {
    match trial.times(0, 1) {
        0 => ends().collect(),
        _ => (0..=255).collect(),
    }
}

/// Every pair of the bytes with each mark and more, every PR of each packet; in the long setting
/// all 65,536 pairs.
fn senders(trial: &mut Trial) {
    let bytes = edges(trial);
    let mut ends_kept = Senders::new([0; 3]);
    for &edge in &bytes {
        for &next in &bytes {
            for mark in [0, 1, 2, 3, 128, 255] {
                one_sender(trial, &mut ends_kept, [edge, next, mark]);
            }
        }
    }
}

fn one_sender(trial: &mut Trial, ends_kept: &mut Senders, state: [u8; 3]) {
    ends_kept.set(state);
    ends_kept.in_order(trial);
    ends_kept.send(trial);
    for (taken, pr) in TAKEN
        .iter()
        .flat_map(|&taken| ends().map(move |pr| (taken, pr)))
    {
        ends_kept.set(state);
        ends_kept.take(trial, taken, pr);
    }
}

/// A PR mostly in the window of a state.
fn some_pr(random: &mut Random, [edge, next, _]: [u8; 3]) -> u8 {
    let out = number::packet_distance(edge, next);
    match random.below(8) {
        0 => random.byte(),
        1 => number::packet_next(next),
        2 => next,
        3 => edge,
        _ => edge.wrapping_add(random.below(usize::from(out) + 1) as u8) % 16,
    }
}

fn some_taken(random: &mut Random) -> Taken {
    random.pick(&TAKEN)
}

/// Sending and taking PRs for a long time without a new state. Each way of holding off and of
/// lifting that has to have come often, and so have refused ones while held off.
fn sender_sequence(trial: &mut Trial) {
    let mut ends_kept = Senders::new(Sender::fresh().to_bytes());
    let mut seen = [[[0u64; 2]; 2]; 4];
    for _ in 0..trial.times(400_000, 4_000_000) {
        if trial.random.below(16) < 11 {
            ends_kept.send(trial);
            continue;
        }
        let (taken, before) = (some_taken(&mut trial.random), ends_kept.bytes);
        let pr = some_pr(&mut trial.random, before);
        ends_kept.take(trial, taken, pr);
        ends_kept.in_order(trial);
        let held_off = |state: [u8; 3]| usize::from(state[2]);
        seen[taken as usize][held_off(before)][held_off(ends_kept.bytes)] += 1;
    }
    let moved = |taken: Taken, from: usize, to: usize| seen[taken as usize][from][to] > 500;
    assert!(moved(Taken::ReceiveNotReady, 0, 1) && moved(Taken::ReceiveNotReady, 1, 1));
    assert!(
        moved(Taken::ReceiveReady, 1, 0) && moved(Taken::Reject, 1, 0),
        "{seen:?}"
    );
    // refused, so that the mark stays
    assert!(
        moved(Taken::ReceiveReady, 1, 1) && moved(Taken::Reject, 1, 1),
        "{seen:?}"
    );
    assert!(moved(Taken::ReceiveNotReady, 0, 0), "{seen:?}");
    assert!(
        moved(Taken::Data, 0, 0) && moved(Taken::Data, 1, 1),
        "{seen:?}"
    );
    assert_eq!(
        seen[Taken::Data as usize][0][1] + seen[Taken::Data as usize][1][0],
        0
    );
}

/// States of a history with a byte or a bit changed: one that is no longer in order is 14 to every
/// call and stays as it is.
fn sender_damage(trial: &mut Trial) {
    let mut ends_kept = Senders::new(Sender::fresh().to_bytes());
    let mut good = Sender::fresh().to_bytes();
    for _ in 0..trial.times(100_000, 1_000_000) {
        ends_kept.set(good);
        match trial.random.below(3) {
            0 => ends_kept.send(trial),
            _ => {
                let taken = some_taken(&mut trial.random);
                let pr = some_pr(&mut trial.random, good);
                ends_kept.take(trial, taken, pr);
            }
        }
        good = ends_kept.bytes;
        let mut damaged = good;
        let place = &mut damaged[trial.random.below(3)];
        match trial.random.below(2) {
            0 => *place ^= 1 << trial.random.below(8),
            _ => *place = trial.random.byte(),
        }
        ends_kept.set(damaged);
        ends_kept.in_order(trial);
        let taken = some_taken(&mut trial.random);
        let pr = some_pr(&mut trial.random, damaged);
        ends_kept.take(trial, taken, pr);
        ends_kept.send(trial);
    }
}

/// One receiving end, kept three times.
struct Receivers {
    lent: Lent<u8>,
    safe: pepperknoll::Receiver,
    /// No state at all where the mark is neither 0 nor 1.
    plain: Result<Receiver, plain::Refusal>,
    bytes: [u8; 3],
}

impl Receivers {
    fn new(bytes: [u8; 3]) -> Self {
        Receivers {
            lent: Lent::of(&bytes),
            safe: pepperknoll::Receiver::from_bytes(bytes),
            plain: Receiver::from_bytes(bytes),
            bytes,
        }
    }

    fn set(&mut self, bytes: [u8; 3]) {
        self.lent.lend(&bytes);
        self.safe = pepperknoll::Receiver::from_bytes(bytes);
        self.plain = Receiver::from_bytes(bytes);
        self.bytes = bytes;
    }

    fn in_order(&self, trial: &mut Trial) {
        let wanted = self.plain.is_ok_and(|state| state.in_order());
        // SAFETY: the list is lent with its own length.
        let got = unsafe { raw::pk_receiver_in_order(self.lent.as_ptr(), self.lent.len()) };
        trial.tally.saw(Call::ReceiverInOrder, got.into());
        assert_eq!(got, if wanted { 0 } else { 14 }, "{:?}", self.bytes);
        assert_eq!(self.safe.in_order(), wanted);
        self.same("in order");
    }

    fn receive(&mut self, trial: &mut Trial, ps: u8) {
        let wanted = match &mut self.plain {
            Ok(state) => state.receive(ps),
            Err(refusal) => Err(*refusal),
        };
        let (state, length) = (self.lent.as_mut_ptr(), self.lent.len());
        // SAFETY: the list is lent with its own length.
        let got = unsafe { raw::pk_receiver_receive(state, length, ps) };
        trial.tally.saw(Call::ReceiverReceive, got.into());
        let wanted_answer = answer(&wanted, |&due| due.into());
        assert_eq!(u64::from(got), wanted_answer, "{:?} PS {ps}", self.bytes);
        let safe = safe_by_number(self.safe.receive(PacketNumber(ps)));
        assert_eq!(safe, by_number(wanted));
        self.keep();
        self.same("receive");
    }

    fn tell(&mut self, trial: &mut Trial) {
        let wanted = match &mut self.plain {
            Ok(state) => state.tell(),
            Err(refusal) => Err(*refusal),
        };
        // SAFETY: the list is lent with its own length.
        let got = unsafe { raw::pk_receiver_tell(self.lent.as_mut_ptr(), self.lent.len()) };
        trial.tally.saw(Call::ReceiverTell, got.into());
        let wanted_answer = answer(&wanted, |&pr| pr.into());
        assert_eq!(u64::from(got), wanted_answer, "{:?}", self.bytes);
        let safe = safe_by_number(self.safe.tell());
        assert_eq!(safe.map(|pr| pr.0), by_number(wanted));
        self.keep();
        self.same("tell");
    }

    fn keep(&mut self) {
        if let Ok(state) = self.plain {
            self.bytes = state.to_bytes();
        }
    }

    fn same(&self, what: &str) {
        self.lent.assert_holds(&self.bytes, || what.into());
        assert_eq!(self.safe.as_bytes(), &self.bytes, "{what}");
    }
}

/// Every state from bytes around the ends of the fields, every PS; then states of random bytes.
fn receivers(trial: &mut Trial) {
    let mut ends = Receivers::new([0; 3]);
    let (marks, counts) = ([0, 1, 2, 3, 128, 255], [0, 1, 7, 8, 9, 10, 16, 255]);
    let bytes = edges(trial);
    for &expected in &bytes {
        for mark in marks {
            for count in counts {
                one_receiver(trial, &mut ends, [expected, mark, count], &bytes);
            }
        }
    }
    for _ in 0..trial.times(100_000, 1_000_000) {
        let random = trial.random.word().to_le_bytes();
        let near = [random[0] & 31, random[1] & 1, random[2] & 15];
        let any = [random[0], random[1], random[2]];
        ends.set(match random[3] & 7 {
            0 => any,
            1 => [0, 1, 0],
            _ => near,
        });
        ends.in_order(trial);
        ends.receive(trial, random[4] & 31);
    }
}

fn one_receiver(trial: &mut Trial, ends: &mut Receivers, state: [u8; 3], all_ps: &[u8]) {
    ends.set(state);
    ends.in_order(trial);
    ends.tell(trial);
    for &ps in all_ps {
        ends.set(state);
        ends.receive(trial, ps);
    }
}

/// Receiving and telling for a long time without a new state; PS mostly the expected one.
fn receiver_sequence(trial: &mut Trial) {
    let mut ends = Receivers::new(Receiver::fresh().to_bytes());
    for _ in 0..trial.times(300_000, 3_000_000) {
        let expected = ends.bytes[0];
        match trial.random.below(32) {
            0 | 1 => ends.tell(trial),
            2 => ends.receive(trial, expected.wrapping_sub(1) % 16),
            3 => ends.receive(trial, number::packet_next(expected)),
            4 => {
                let ps = trial.random.byte() & 31;
                ends.receive(trial, ps);
            }
            _ => ends.receive(trial, expected),
        }
    }
}

/// Inputs that deserve several refusals, by the numbers that the rules put first.
fn several_refusals() {
    for taken in TAKEN {
        let refused = |state, pr| {
            let mut end = pepperknoll::Sender::from_bytes(state);
            let number = taken.safe(&mut end, pr).unwrap_err().number();
            assert_eq!(end.as_bytes(), &state);
            number
        };
        assert_eq!(refused([16, 0, 0], 99), 14);
        assert_eq!(refused([0, 0, 2], 99), 14);
        assert_eq!(refused([0, 0, 0], 16), 1);
        assert_eq!(refused([0, 0, 1], 16), 1);
        assert_eq!(refused([0, 0, 0], 15), 16);
        assert_eq!(refused([3, 6, 1], 7), 16);
    }
    let sent = |state| {
        let mut end = pepperknoll::Sender::from_bytes(state);
        end.send().unwrap_err().number()
    };
    assert_eq!(sent([1, 16, 0]), 14);
    assert_eq!(sent([1, 16, 1]), 14);
    assert_eq!(sent([1, 1, 2]), 14);
    assert_eq!(sent([1, 1, 1]), 9);
    assert_eq!(sent([9, 8, 0]), 9);
    assert_eq!(sent([9, 8, 1]), 9);
    let received = |state, ps| {
        let mut end = pepperknoll::Receiver::from_bytes(state);
        end.receive(PacketNumber(ps)).unwrap_err().number()
    };
    assert_eq!(received([0, 2, 0], 16), 14);
    assert_eq!(received([1, 1, 0], 16), 14);
    assert_eq!(received([0, 1, 0], 16), 1);
    assert_eq!(received([0, 1, 0], 15), 12);
    assert_eq!(received([0, 0, 0], 15), 10);
    assert_eq!(received([0, 0, 0], 14), 11);
}
