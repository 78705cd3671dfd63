//! The flow window, both ends.

use crate::number::{packet_distance, packet_next};
use crate::Refusal;

/// The highest PS, PR.
const HIGHEST: u8 = 15;
/// So many packets taken and not told make a PR due; the count stays there.
const DUE: u8 = 8;

/// The sending end.
#[derive(Clone, Copy, Debug, PartialEq, Eq)]
pub struct Sender {
    pub edge: u8,
    pub next: u8,
    /// Stands from an RNR until an RR or a REJECT.
    pub held_off: bool,
}

impl Sender {
    pub fn fresh() -> Self {
        Sender {
            edge: 0,
            next: 0,
            held_off: false,
        }
    }

    /// Refuses a mark that is neither 0 nor 1, which is no state at all.
    pub fn from_bytes([edge, next, mark]: [u8; 3]) -> Result<Self, Refusal> {
        let held_off = mark_of(mark)?;
        Ok(Sender {
            edge,
            next,
            held_off,
        })
    }

    pub fn to_bytes(self) -> [u8; 3] {
        [self.edge, self.next, u8::from(self.held_off)]
    }

    #[inline]
    pub fn in_order(&self) -> bool {
        self.edge <= HIGHEST && self.next <= HIGHEST
    }

    /// Asks for a PS to send the next packet with.
    #[inline]
    pub fn send(&mut self) -> Result<u8, Refusal> {
        if !self.in_order() {
            return Err(Refusal::NotInOrder);
        }
        if self.held_off || packet_distance(self.edge, self.next) > 14 {
            return Err(Refusal::WindowClosed);
        }
        let ps = self.next;
        self.next = packet_next(ps);
        Ok(ps)
    }

    /// Takes a PR that came in with DATA; whether the end is held off stays as it was.
    #[inline]
    pub fn acknowledge(&mut self, pr: u8) -> Result<(), Refusal> {
        if !self.in_order() {
            return Err(Refusal::NotInOrder);
        }
        if pr > HIGHEST {
            return Err(Refusal::OutOfRange);
        }
        if packet_distance(self.edge, pr) > packet_distance(self.edge, self.next) {
            return Err(Refusal::NeverSent);
        }
        self.edge = pr;
        Ok(())
    }

    /// Takes an RR by its PR: the end is no longer held off.
    #[inline]
    pub fn ready(&mut self, pr: u8) -> Result<(), Refusal> {
        self.acknowledge(pr)?;
        self.held_off = false;
        Ok(())
    }

    /// Takes an RNR by its PR: the end is held off.
    #[inline]
    pub fn not_ready(&mut self, pr: u8) -> Result<(), Refusal> {
        self.acknowledge(pr)?;
        self.held_off = true;
        Ok(())
    }

    /// Takes a REJECT by its PR: the end is no longer held off, and the next PS stays as it was.
    #[inline]
    pub fn reject(&mut self, pr: u8) -> Result<(), Refusal> {
        self.acknowledge(pr)?;
        self.held_off = false;
        Ok(())
    }
}

/// What a byte says that holds a mark.
fn mark_of(byte: u8) -> Result<bool, Refusal> {
    match byte {
        0 => Ok(false),
        1 => Ok(true),
        _ => Err(Refusal::NotInOrder),
    }
}

/// The receiving end.
#[derive(Clone, Copy, Debug, PartialEq, Eq)]
pub struct Receiver {
    pub expected: u8,
    /// Stands until a packet is accepted.
    pub mark: bool,
    /// Packets taken and not yet told.
    pub count: u8,
}

impl Receiver {
    pub fn fresh() -> Self {
        Receiver {
            expected: 0,
            mark: true,
            count: 0,
        }
    }

    /// Refuses a mark that is neither 0 nor 1, which is no state at all.
    pub fn from_bytes([expected, mark, count]: [u8; 3]) -> Result<Self, Refusal> {
        let mark = mark_of(mark)?;
        Ok(Receiver {
            expected,
            mark,
            count,
        })
    }

    pub fn to_bytes(self) -> [u8; 3] {
        [self.expected, u8::from(self.mark), self.count]
    }

    #[inline]
    pub fn in_order(&self) -> bool {
        self.expected <= HIGHEST
            && self.count <= DUE
            && (!self.mark || (self.expected == 0 && self.count == 0))
    }

    /// Takes the PS of a packet that came in; says whether a PR is due.
    #[inline]
    pub fn receive(&mut self, ps: u8) -> Result<bool, Refusal> {
        if !self.in_order() {
            return Err(Refusal::NotInOrder);
        }
        if ps > HIGHEST {
            return Err(Refusal::OutOfRange);
        }
        if ps != self.expected {
            return Err(self.why_not(ps));
        }
        self.mark = false;
        self.expected = packet_next(ps);
        self.count = (self.count + 1).min(DUE);
        Ok(self.count == DUE)
    }

    fn why_not(&self, ps: u8) -> Refusal {
        if self.mark {
            Refusal::FirstNotZero
        } else if packet_distance(self.expected, ps) == 15 {
            Refusal::OutsideWindow
        } else {
            Refusal::OutOfSequence
        }
    }

    /// The PR to send now; all packets taken are then told.
    #[inline]
    pub fn tell(&mut self) -> Result<u8, Refusal> {
        if !self.in_order() {
            return Err(Refusal::NotInOrder);
        }
        self.count = 0;
        Ok(self.expected)
    }
}

#[cfg(test)]
mod tests {
    use super::*;

    /// A sending end that is not held off.
    fn open(edge: u8, next: u8) -> Sender {
        Sender {
            edge,
            next,
            held_off: false,
        }
    }

    fn held(edge: u8, next: u8) -> Sender {
        Sender {
            held_off: true,
            ..open(edge, next)
        }
    }

    /// Edge 3, next 6, held off: what each packet's PR does.
    #[test]
    fn rnr_holds_off_until_rr_or_reject() {
        let mut end = open(3, 6);
        assert_eq!(end.not_ready(3), Ok(()));
        assert_eq!(end, held(3, 6));
        assert_eq!(end.send(), Err(Refusal::WindowClosed));
        assert_eq!(end.ready(7), Err(Refusal::NeverSent));
        assert_eq!(end.reject(2), Err(Refusal::NeverSent));
        assert_eq!(end.ready(16), Err(Refusal::OutOfRange));
        assert_eq!(end, held(3, 6));
        assert_eq!(end.acknowledge(5), Ok(()));
        assert_eq!(end, held(5, 6));
        let mut other = end;
        assert_eq!(end.reject(5), Ok(()));
        assert_eq!(end, open(5, 6));
        assert_eq!(end.send(), Ok(6));
        assert_eq!(other.not_ready(6), Ok(()));
        assert_eq!(other, held(6, 6));
        assert_eq!(other.ready(6), Ok(()));
        assert_eq!(other.send(), Ok(6));
    }

    #[test]
    fn a_refused_rnr_does_not_hold_off() {
        let mut end = open(3, 6);
        assert_eq!(end.not_ready(7), Err(Refusal::NeverSent));
        assert_eq!(end.not_ready(99), Err(Refusal::OutOfRange));
        assert_eq!(end, open(3, 6));
    }

    /// Held off and closed are the same refusal; lifting the one leaves the other.
    #[test]
    fn held_off_and_closed() {
        let mut end = held(9, 8);
        assert_eq!(end.send(), Err(Refusal::WindowClosed));
        assert_eq!(end.ready(9), Ok(()));
        assert_eq!(end.send(), Err(Refusal::WindowClosed));
        assert_eq!(end.reject(10), Ok(()));
        assert_eq!(end.send(), Ok(8));
    }

    #[test]
    fn fifteen_packets_may_be_out() {
        let mut end = Sender::fresh();
        for ps in 0..15 {
            assert_eq!(end.send(), Ok(ps));
        }
        assert_eq!(end.send(), Err(Refusal::WindowClosed));
        assert_eq!(end.acknowledge(1), Ok(()));
        assert_eq!(end.send(), Ok(15));
        assert_eq!(end.send(), Err(Refusal::WindowClosed));
    }

    #[test]
    fn pr_may_be_edge_and_next_and_no_further() {
        let mut end = open(14, 2);
        assert_eq!(end.acknowledge(3), Err(Refusal::NeverSent));
        assert_eq!(end.acknowledge(13), Err(Refusal::NeverSent));
        assert_eq!(end.acknowledge(14), Ok(()));
        assert_eq!(end.acknowledge(2), Ok(()));
        assert_eq!(end, open(2, 2));
        assert_eq!(end.acknowledge(16), Err(Refusal::OutOfRange));
    }

    #[test]
    fn bad_order_is_said_first() {
        let mut end = open(16, 0);
        assert_eq!(end.acknowledge(99), Err(Refusal::NotInOrder));
        assert_eq!(end.ready(99), Err(Refusal::NotInOrder));
        assert_eq!(end.not_ready(99), Err(Refusal::NotInOrder));
        assert_eq!(end.reject(99), Err(Refusal::NotInOrder));
        assert_eq!(end, open(16, 0));
        let mut end = Receiver {
            expected: 1,
            mark: true,
            count: 0,
        };
        assert_eq!(end.receive(99), Err(Refusal::NotInOrder));
    }

    #[test]
    fn pr_is_due_from_the_eighth_packet_until_told() {
        let mut end = Receiver::fresh();
        let due: Vec<_> = (0..10).map(|ps| end.receive(ps)).collect();
        assert_eq!(due[6..], [Ok(false), Ok(true), Ok(true), Ok(true)]);
        assert_eq!(end.count, 8);
        assert_eq!(end.tell(), Ok(10));
        assert_eq!(end.receive(10), Ok(false));
    }

    #[test]
    fn refused_ps_by_their_own_rule() {
        let mut end = Receiver::fresh();
        assert_eq!(end.receive(15), Err(Refusal::FirstNotZero));
        assert_eq!(end.receive(1), Err(Refusal::FirstNotZero));
        assert_eq!(end.tell(), Ok(0));
        assert_eq!(end, Receiver::fresh());
        assert_eq!(end.receive(0), Ok(false));
        assert_eq!(end.receive(0), Err(Refusal::OutsideWindow));
        assert_eq!(end.receive(2), Err(Refusal::OutOfSequence));
        assert_eq!(end.receive(15), Err(Refusal::OutOfSequence));
        assert_eq!(end.receive(16), Err(Refusal::OutOfRange));
    }

    #[test]
    fn mark_fallen_at_zero_is_good_order() {
        let mut end = Receiver::fresh();
        for ps in 0..16 {
            end.receive(ps).unwrap();
        }
        end.tell().unwrap();
        assert_eq!(end.to_bytes(), [0, 0, 0]);
        assert!(end.in_order());
        assert_eq!(end.receive(15), Err(Refusal::OutsideWindow));
    }

    #[test]
    fn a_mark_is_0_or_1() {
        assert_eq!(Receiver::from_bytes([0, 2, 0]), Err(Refusal::NotInOrder));
        assert_eq!(Receiver::from_bytes([0, 1, 0]), Ok(Receiver::fresh()));
        assert_eq!(Sender::from_bytes([0, 0, 0]), Ok(Sender::fresh()));
        assert_eq!(Sender::from_bytes([3, 6, 1]), Ok(held(3, 6)));
        for mark in 2..=255 {
            assert_eq!(Sender::from_bytes([3, 6, mark]), Err(Refusal::NotInOrder));
        }
    }
}
