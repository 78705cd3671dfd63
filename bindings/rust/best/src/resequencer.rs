//! The resequencer on words relative to NESN: bit d is the number at distance d.

use plain::resequencer::{Answer, Outcome, PLACES};
use plain::Refusal;

/// Tickets come first so that they stand at a multiple of 16.
#[derive(Clone, Debug, PartialEq, Eq)]
#[repr(C, align(16))]
pub struct Resequencer {
    pub tickets: [u16; 64],
    pub held: u64,
    pub clocks: u64,
    pub nesn: u8,
    pub hsnr: u8,
}

impl Resequencer {
    pub fn from_plain(state: &plain::resequencer::Resequencer) -> Self {
        Resequencer {
            tickets: state.tickets,
            held: state.held,
            clocks: state.clocks,
            nesn: state.nesn,
            hsnr: state.hsnr,
        }
    }

    pub fn to_plain(&self) -> plain::resequencer::Resequencer {
        plain::resequencer::Resequencer {
            nesn: self.nesn,
            hsnr: self.hsnr,
            held: self.held,
            clocks: self.clocks,
            tickets: self.tickets,
        }
    }

    /// The held numbers relative to NESN, if the state is in good order.
    #[inline]
    fn held_in_order(&self) -> Option<u64> {
        let turn = u32::from(self.nesn);
        let held = self.held.rotate_right(turn);
        let clocks = self.clocks.rotate_right(turn);
        // Held at 1 to 31 only, so a clock's neighbour never lies over the end of the word.
        let wrong = held & !0xFFFF_FFFE | clocks & !held | clocks & clocks << 1;
        let sets = self.nesn <= 63 && wrong == 0 && self.top_in_order(held, clocks);
        (sets && tickets_in_order(&self.tickets, self.held)).then_some(held)
    }

    /// HSNR is the furthest held number, and a clock stands in the run that ends with it.
    #[inline]
    fn top_in_order(&self, held: u64, clocks: u64) -> bool {
        if held == 0 {
            return self.hsnr == 0;
        }
        let above = held.leading_zeros();
        let run = (!(held << above)).leading_zeros();
        self.hsnr == (self.nesn + 63 - above as u8) & 63 && (clocks << above).leading_zeros() < run
    }

    /// A packet arrives.
    #[inline]
    pub fn arrive(&mut self, sn: u8, ticket: u16, out: &mut [u16]) -> Result<Answer, Refusal> {
        let held = self.held_in_order().ok_or(Refusal::NotInOrder)?;
        if sn > 63 {
            return Err(Refusal::OutOfRange);
        }
        let out = out.first_chunk_mut().ok_or(Refusal::OutputTooShort)?;
        *out = [0; PLACES];
        let distance = sn.wrapping_sub(self.nesn) & 63;
        let (outcome, count) = if distance == 0 {
            (Outcome::HandedOn, self.hand_on_run(held, ticket, out))
        } else if distance > 31 {
            (Outcome::Old, 0)
        } else if held >> distance & 1 == 1 {
            (Outcome::Duplicate, 0)
        } else {
            self.hold(held, distance, sn, ticket);
            (Outcome::Held, 0)
        };
        Ok(Answer { outcome, count })
    }

    #[inline]
    fn hold(&mut self, held: u64, distance: u8, sn: u8, ticket: u16) {
        self.tickets[usize::from(sn & 63)] = ticket;
        self.held |= 1 << sn;
        // One past HSNR; 0 where nothing is held, so that every distance lies past it.
        let past = 64 - held.leading_zeros() as u8;
        if distance >= past {
            self.hsnr = sn;
        }
        if distance > past {
            self.clocks |= 1 << sn;
        }
    }

    /// Hands on the packet at NESN and the run of held ones after it.
    #[inline]
    fn hand_on_run(&mut self, held: u64, ticket: u16, out: &mut [u16; PLACES]) -> u8 {
        let run = (!(held >> 1)).trailing_zeros() as u8 & 31;
        out[0] = ticket;
        if run > 0 {
            let first = self.nesn + 1;
            for (place, offset) in out[1..].iter_mut().zip(0..run) {
                *place = std::mem::take(&mut self.tickets[usize::from((first + offset) & 63)]);
            }
            self.pass(held, run + 1);
        }
        self.nesn = (self.nesn + run + 1) & 63;
        run + 1
    }

    /// Drops the first `count` numbers of the window from both sets.
    #[inline]
    fn pass(&mut self, held: u64, count: u8) {
        let left = u64::MAX << count;
        let stay = left.rotate_left(u32::from(self.nesn));
        self.held &= stay;
        self.clocks &= stay;
        if held & left == 0 {
            self.hsnr = 0;
        }
    }

    /// The clock of a number ends.
    #[inline]
    pub fn clock_end(&mut self, sn: u8, out: &mut [u16]) -> Result<Answer, Refusal> {
        let held = self.held_in_order().ok_or(Refusal::NotInOrder)?;
        if sn > 63 {
            return Err(Refusal::OutOfRange);
        }
        let out = out
            .first_chunk_mut::<PLACES>()
            .ok_or(Refusal::OutputTooShort)?;
        if self.clocks >> sn & 1 == 0 {
            return Err(Refusal::NoClock);
        }
        *out = [0; PLACES];
        let distance = sn.wrapping_sub(self.nesn) & 31;
        let end = distance + (!(held >> distance)).trailing_zeros() as u8;
        let mut leaving = held & !(u64::MAX << (end & 63));
        let mut count = 0u8;
        while leaving != 0 {
            let number = self.nesn + leaving.trailing_zeros() as u8;
            out[usize::from(count & 31)] =
                std::mem::take(&mut self.tickets[usize::from(number & 63)]);
            count += 1;
            leaving &= leaving - 1;
        }
        self.pass(held, end & 63);
        self.nesn = (self.nesn + end) & 63;
        Ok(Answer {
            outcome: Outcome::HandedOn,
            count,
        })
    }
}

/// For eight bits the places of those that are 0, each a ticket wide.
static NOT_HELD: [[u16; 8]; 256] = not_held();

const fn not_held() -> [[u16; 8]; 256] {
    let mut table = [[0; 8]; 256];
    let mut at = 0;
    while at < 256 * 8 {
        let (bits, place) = (at / 8, at % 8);
        if bits >> place & 1 == 0 {
            table[bits][place] = u16::MAX;
        }
        at += 1;
    }
    table
}

/// Whether tickets of numbers not held are 0, eight at a time: each eight are one vector.
#[inline]
fn tickets_in_order(tickets: &[u16; 64], held: u64) -> bool {
    let mut stray = [0; 8];
    for (eight, bits) in tickets.chunks_exact(8).zip(held.to_le_bytes()) {
        let not_held = &NOT_HELD[usize::from(bits)];
        for place in 0..8 {
            stray[place] |= eight[place] & not_held[place];
        }
    }
    // Not compared with zeros as a list: that is made one ticket at a time.
    stray.iter().fold(0, |any, &one| any | one) == 0
}
