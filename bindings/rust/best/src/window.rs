//! The flow window, both ends.

use plain::Refusal;

#[derive(Clone, Copy, Debug, PartialEq, Eq)]
pub struct Sender {
    pub edge: u8,
    pub next: u8,
    pub held_off: bool,
}

impl Sender {
    /// Asks for a PS to send the next packet with.
    #[inline]
    pub fn send(&mut self) -> Result<u8, Refusal> {
        let ps = self.next;
        if self.edge | ps > 15 {
            return Err(Refusal::NotInOrder);
        }
        if self.held_off | (ps.wrapping_sub(self.edge) & 15 == 15) {
            return Err(Refusal::WindowClosed);
        }
        self.next = (ps + 1) & 15;
        Ok(ps)
    }

    /// Takes the PR of a DATA packet.
    #[inline]
    pub fn acknowledge(&mut self, pr: u8) -> Result<(), Refusal> {
        self.take(pr, self.held_off)
    }

    /// Takes an RR by its PR.
    #[inline]
    pub fn ready(&mut self, pr: u8) -> Result<(), Refusal> {
        self.take(pr, false)
    }

    /// Takes an RNR by its PR.
    #[inline]
    pub fn not_ready(&mut self, pr: u8) -> Result<(), Refusal> {
        self.take(pr, true)
    }

    /// Takes a REJECT by its PR.
    #[inline]
    pub fn reject(&mut self, pr: u8) -> Result<(), Refusal> {
        self.take(pr, false)
    }

    #[inline]
    fn take(&mut self, pr: u8, held_off: bool) -> Result<(), Refusal> {
        if self.edge | self.next > 15 {
            return Err(Refusal::NotInOrder);
        }
        if pr > 15 {
            return Err(Refusal::OutOfRange);
        }
        if pr.wrapping_sub(self.edge) & 15 > self.next.wrapping_sub(self.edge) & 15 {
            return Err(Refusal::NeverSent);
        }
        (self.edge, self.held_off) = (pr, held_off);
        Ok(())
    }
}

#[derive(Clone, Copy, Debug, PartialEq, Eq)]
pub struct Receiver {
    pub expected: u8,
    pub mark: bool,
    pub count: u8,
}

impl Receiver {
    /// Takes the PS of a packet that came in; says whether a PR is due.
    #[inline]
    pub fn receive(&mut self, ps: u8) -> Result<bool, Refusal> {
        let fresh = self.expected | self.count == 0;
        if self.expected > 15 || self.count > 8 || (self.mark && !fresh) {
            return Err(Refusal::NotInOrder);
        }
        if ps != self.expected {
            return Err(self.why_not(ps));
        }
        self.mark = false;
        self.expected = (ps + 1) & 15;
        self.count += u8::from(self.count < 8);
        Ok(self.count == 8)
    }

    #[cold]
    fn why_not(&self, ps: u8) -> Refusal {
        if ps > 15 {
            Refusal::OutOfRange
        } else if self.mark {
            Refusal::FirstNotZero
        } else if self.expected.wrapping_sub(ps) & 15 == 1 {
            Refusal::OutsideWindow
        } else {
            Refusal::OutOfSequence
        }
    }
}
