//! The resequencer: puts packets that arrive with numbers modulo 64 into order.

use crate::number::{link_distance, link_next};
use crate::Refusal;

/// The highest SN.
const HIGHEST: u8 = 63;
/// Numbers in the window, and so the most tickets that leave in one event.
pub const PLACES: usize = 32;
/// The bytes of a stored state.
pub const BYTES: usize = 146;

#[derive(Clone, Debug, PartialEq, Eq)]
pub struct Resequencer {
    /// Next expected SN.
    pub nesn: u8,
    /// The furthest number held, 0 when nothing is.
    pub hsnr: u8,
    /// One bit for each number held.
    pub held: u64,
    /// One bit for each number whose clock runs.
    pub clocks: u64,
    /// 0 for a number that is not held.
    pub tickets: [u16; 64],
}

/// What became of an arrival.
#[derive(Clone, Copy, Debug, PartialEq, Eq)]
#[repr(u8)]
pub enum Outcome {
    Held = 0,
    HandedOn = 1,
    Old = 2,
    Duplicate = 3,
}

/// An event's answer: the outcome, and how many tickets left.
#[derive(Clone, Copy, Debug, PartialEq, Eq)]
pub struct Answer {
    pub outcome: Outcome,
    pub count: u8,
}

impl Resequencer {
    pub fn fresh() -> Self {
        Resequencer {
            nesn: 0,
            hsnr: 0,
            held: 0,
            clocks: 0,
            tickets: [0; 64],
        }
    }

    pub fn from_bytes(bytes: &[u8; BYTES]) -> Self {
        let word = |at: usize| u64::from_le_bytes(bytes[at..at + 8].try_into().unwrap());
        let mut tickets = [0; 64];
        for (ticket, pair) in tickets.iter_mut().zip(bytes[18..].chunks_exact(2)) {
            *ticket = u16::from_le_bytes([pair[0], pair[1]]);
        }
        Resequencer {
            nesn: bytes[0],
            hsnr: bytes[1],
            held: word(2),
            clocks: word(10),
            tickets,
        }
    }

    pub fn to_bytes(&self) -> [u8; BYTES] {
        let mut bytes = [0; BYTES];
        bytes[0] = self.nesn;
        bytes[1] = self.hsnr;
        bytes[2..10].copy_from_slice(&self.held.to_le_bytes());
        bytes[10..18].copy_from_slice(&self.clocks.to_le_bytes());
        for (pair, ticket) in bytes[18..].chunks_exact_mut(2).zip(self.tickets) {
            pair.copy_from_slice(&ticket.to_le_bytes());
        }
        bytes
    }

    #[inline]
    fn holds(&self, sn: u8) -> bool {
        self.held >> sn & 1 == 1
    }

    #[inline]
    fn clock_runs(&self, sn: u8) -> bool {
        self.clocks >> sn & 1 == 1
    }

    #[inline]
    pub fn in_order(&self) -> bool {
        self.nesn <= HIGHEST
            && self.held_in_order()
            && self.clocks_in_order()
            && self.hsnr_in_order()
            && self.tickets_in_order()
    }

    /// Held numbers stand at distance 1 to 31 from NESN.
    #[inline]
    fn held_in_order(&self) -> bool {
        let by_distance = self.held.rotate_right(u32::from(self.nesn));
        by_distance & !0xFFFF_FFFE == 0
    }

    /// Every clock is on a held number, and none on neighbours (63 and 0 are neighbours too).
    #[inline]
    fn clocks_in_order(&self) -> bool {
        self.clocks & !self.held == 0 && self.clocks & self.clocks.rotate_left(1) == 0
    }

    /// HSNR is 0 when nothing is held; else the furthest held number, with a clock on it or
    /// on a held number below it before the first gap.
    #[inline]
    fn hsnr_in_order(&self) -> bool {
        if self.held == 0 {
            return self.hsnr == 0;
        }
        let by_distance = self.held.rotate_right(u32::from(self.nesn));
        let furthest = (self.nesn + by_distance.ilog2() as u8) % 64;
        if self.hsnr != furthest {
            return false;
        }
        let mut number = self.hsnr;
        while self.holds(number) && !self.clock_runs(number) {
            number = number.wrapping_sub(1) % 64;
        }
        self.clock_runs(number)
    }

    /// Tickets of numbers that are not held are 0.
    #[inline]
    fn tickets_in_order(&self) -> bool {
        (0u8..)
            .zip(&self.tickets)
            .all(|(sn, &ticket)| ticket == 0 || self.holds(sn))
    }

    /// The places for tickets, after what both events check in this order: 14, 1, 5.
    #[inline]
    fn checked<'a>(&self, sn: u8, out: &'a mut [u16]) -> Result<&'a mut [u16; PLACES], Refusal> {
        if !self.in_order() {
            return Err(Refusal::NotInOrder);
        }
        if sn > HIGHEST {
            return Err(Refusal::OutOfRange);
        }
        out.first_chunk_mut().ok_or(Refusal::OutputTooShort)
    }

    /// A packet arrives. The tickets that leave stand at the front of `out`, the others of its
    /// first 32 places become 0, and places past these are left alone.
    #[inline]
    pub fn arrive(&mut self, sn: u8, ticket: u16, out: &mut [u16]) -> Result<Answer, Refusal> {
        let out = self.checked(sn, out)?;
        out.fill(0);
        let distance = link_distance(self.nesn, sn);
        let (outcome, count) = if distance > 31 {
            (Outcome::Old, 0)
        } else if self.holds(sn) {
            (Outcome::Duplicate, 0)
        } else if distance == 0 {
            out[0] = ticket;
            self.nesn = link_next(sn);
            (Outcome::HandedOn, self.hand_on_run(1, out))
        } else {
            self.hold(sn, ticket);
            (Outcome::Held, 0)
        };
        Ok(Answer { outcome, count })
    }

    /// Keeps an early packet; starts a clock where it opens a new run past all others.
    #[inline]
    fn hold(&mut self, sn: u8, ticket: u16) {
        let nothing_ran = self.clocks == 0;
        let distance = link_distance(self.nesn, sn);
        let past_hsnr = link_distance(self.nesn, self.hsnr) + 1;
        self.held |= 1 << sn;
        self.tickets[usize::from(sn)] = ticket;
        if nothing_ran || distance > past_hsnr {
            self.hsnr = sn;
            self.clocks |= 1 << sn;
        } else if distance == past_hsnr {
            self.hsnr = sn;
        }
    }

    /// The clock of a number ends; answers as an arrival does.
    #[inline]
    pub fn clock_end(&mut self, sn: u8, out: &mut [u16]) -> Result<Answer, Refusal> {
        let out = self.checked(sn, out)?;
        if !self.clock_runs(sn) {
            return Err(Refusal::NoClock);
        }
        out.fill(0);
        let mut count = 0;
        while self.nesn != sn {
            if self.holds(self.nesn) {
                out[usize::from(count)] = self.take(self.nesn);
                count += 1;
            }
            self.nesn = link_next(self.nesn);
        }
        Ok(Answer {
            outcome: Outcome::HandedOn,
            count: self.hand_on_run(count, out),
        })
    }

    /// Hands on the unbroken run of held numbers from NESN, behind the `count` tickets that
    /// already left; answers how many have left then.
    #[inline]
    fn hand_on_run(&mut self, mut count: u8, out: &mut [u16; PLACES]) -> u8 {
        while self.holds(self.nesn) {
            out[usize::from(count)] = self.take(self.nesn);
            count += 1;
            self.nesn = link_next(self.nesn);
        }
        if self.held == 0 {
            self.hsnr = 0;
        }
        count
    }

    /// Takes a held number out, stops its clock, gives its ticket.
    #[inline]
    fn take(&mut self, sn: u8) -> u16 {
        self.held &= !(1 << sn);
        self.clocks &= !(1 << sn);
        std::mem::take(&mut self.tickets[usize::from(sn)])
    }
}

#[cfg(test)]
mod tests {
    use super::*;

    const HELD: Answer = Answer {
        outcome: Outcome::Held,
        count: 0,
    };

    /// A state at NESN with these numbers arrived; each ticket is 100 + the number.
    fn state(nesn: u8, arrivals: &[u8]) -> Resequencer {
        let mut state = Resequencer {
            nesn,
            ..Resequencer::fresh()
        };
        for &sn in arrivals {
            let answer = state.arrive(sn, 100 + u16::from(sn), &mut [9; PLACES]);
            assert_eq!(answer, Ok(HELD));
        }
        state
    }

    fn ones(word: u64) -> Vec<u8> {
        (0..64).filter(|n| word >> n & 1 == 1).collect()
    }

    #[test]
    fn sixteen_clocks_and_the_last_one_ends_them_all() {
        let odd: Vec<u8> = (1..32).step_by(2).collect();
        let mut state = state(0, &odd);
        assert_eq!(state.clocks.count_ones(), 16);
        let mut out = [9; PLACES];
        assert_eq!(state.clock_end(31, &mut out).unwrap().count, 16);
        assert_eq!(out[15], 131);
        assert_eq!(out[16..], [0; 16]);
        assert_eq!((state.nesn, state.clocks, state.hsnr), (32, 0, 0));
    }

    #[test]
    fn thirty_two_tickets_leave_at_once() {
        let early: Vec<u8> = (1..32).map(|d| (50 + d) % 64).collect();
        let mut state = state(50, &early);
        assert_eq!(ones(state.clocks), [51]);
        let mut out = [0; PLACES];
        let answer = state.arrive(50, 7, &mut out).unwrap();
        assert_eq!((answer.outcome, answer.count), (Outcome::HandedOn, 32));
        assert_eq!((out[0], out[1], out[31]), (7, 151, 117));
        assert_eq!(
            state,
            Resequencer {
                nesn: 18,
                ..Resequencer::fresh()
            }
        );
    }

    #[test]
    fn nothing_is_further_than_hsnr_at_31() {
        let mut state = state(33, &[0]);
        assert_eq!((state.hsnr, ones(state.clocks)), (0, vec![0]));
        assert_eq!(state.arrive(34, 5, &mut [0; PLACES]), Ok(HELD));
        assert_eq!((state.hsnr, ones(state.clocks)), (0, vec![0]));
    }

    #[test]
    fn a_late_low_arrival_keeps_hsnr_and_starts_no_clock() {
        let state = state(60, &[2, 61, 3, 1]);
        assert_eq!((state.hsnr, ones(state.clocks)), (3, vec![2]));
    }

    #[test]
    fn a_ticket_of_0_is_held_all_the_same() {
        let mut state = Resequencer::fresh();
        let mut out = [1; PLACES];
        assert_eq!(state.arrive(1, 0, &mut out), Ok(HELD));
        let again = state.arrive(1, 8, &mut out).unwrap();
        assert_eq!(again.outcome, Outcome::Duplicate);
        assert_eq!(state.tickets[1], 0);
        assert_eq!(state.clock_end(1, &mut out).unwrap().count, 1);
    }

    #[test]
    fn refusals_in_order_and_nothing_touched() {
        let mut bad = state(0, &[3]);
        bad.tickets[9] = 1;
        let before = bad.clone();
        let mut out = [4; PLACES];
        assert_eq!(bad.arrive(99, 0, &mut out), Err(Refusal::NotInOrder));
        assert_eq!(bad.clock_end(99, &mut out), Err(Refusal::NotInOrder));
        assert_eq!(bad, before);
        let mut good = state(0, &[3, 4]);
        assert_eq!(good.clock_end(64, &mut out), Err(Refusal::OutOfRange));
        assert_eq!(good.clock_end(4, &mut out), Err(Refusal::NoClock));
        assert_eq!(good.arrive(64, 0, &mut out), Err(Refusal::OutOfRange));
        assert_eq!((good, out), (state(0, &[3, 4]), [4; PLACES]));
    }

    #[test]
    fn fewer_places_are_refused_after_1_and_before_7() {
        let mut bad = state(0, &[3]);
        bad.tickets[9] = 1;
        let mut short = [4; PLACES - 1];
        assert_eq!(bad.arrive(99, 0, &mut short), Err(Refusal::NotInOrder));
        assert_eq!(bad.clock_end(99, &mut short), Err(Refusal::NotInOrder));
        let mut good = state(0, &[3]);
        assert_eq!(good.arrive(64, 0, &mut short), Err(Refusal::OutOfRange));
        assert_eq!(good.clock_end(64, &mut short), Err(Refusal::OutOfRange));
        for sn in [0, 3, 4, 40] {
            let refused = Err(Refusal::OutputTooShort);
            assert_eq!(good.arrive(sn, 0, &mut short), refused);
            assert_eq!(good.clock_end(sn, &mut short), refused);
        }
        assert_eq!((good, short), (state(0, &[3]), [4; PLACES - 1]));
    }

    #[test]
    fn places_past_32_keep_what_they_held() {
        let mut out = [4; PLACES + 2];
        let mut state = state(0, &[3]);
        assert_eq!(state.arrive(5, 8, &mut out), Ok(HELD));
        assert_eq!(
            (&out[..PLACES], &out[PLACES..]),
            (&[0; PLACES][..], &[4; 2][..])
        );
        assert_eq!(state.clock_end(5, &mut out).unwrap().count, 2);
        assert_eq!(
            (&out[..3], &out[PLACES - 1..]),
            (&[103, 8, 0][..], &[0, 4, 4][..])
        );
    }

    #[test]
    fn good_order_clause_by_clause() {
        let good = state(62, &[63, 1, 2, 5, 6]);
        assert_eq!((good.hsnr, ones(good.clocks)), (6, vec![1, 5, 63]));
        let bad = |change: fn(&mut Resequencer)| {
            let mut state = good.clone();
            change(&mut state);
            assert!(!state.in_order(), "{state:?}");
        };
        assert!(good.in_order());
        bad(|s| s.nesn = 64);
        bad(|s| s.nesn = 63);
        bad(|s| s.hsnr = 5);
        bad(|s| s.hsnr = 70);
        bad(|s| s.held |= 1 << 62);
        bad(|s| s.held |= 1 << 30);
        bad(|s| s.clocks |= 1 << 3);
        bad(|s| s.clocks |= 1 << 6);
        bad(|s| s.clocks &= !(1 << 5));
        bad(|s| s.tickets[0] = 1);
        let nothing_held = Resequencer {
            hsnr: 1,
            ..Resequencer::fresh()
        };
        assert!(!nothing_held.in_order());
        let mut wrapped = state(60, &[63, 0]);
        wrapped.clocks |= 1;
        assert!(!wrapped.in_order());
    }

    #[test]
    fn lower_runs_need_no_clock() {
        let mut state = state(0, &[1, 5]);
        state.clocks &= !(1 << 1);
        assert!(state.in_order());
    }

    #[test]
    fn bytes_and_back() {
        let state = state(62, &[63, 1, 2, 5, 6]);
        assert_eq!(Resequencer::from_bytes(&state.to_bytes()), state);
        let bytes = state.to_bytes();
        assert_eq!(bytes[..3], [62, 6, 0b0110_0110]);
        assert_eq!(bytes[18 + 2..18 + 4], [101, 0]);
    }
}
