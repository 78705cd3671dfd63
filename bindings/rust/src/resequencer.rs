use std::fmt;
use std::ops::Deref;

use crate::answer::{unknown, values};
use crate::{raw, LinkNumber, Refusal};

/// Puts packets that arrive with an SN in order, and says which clocks run.
///
/// The caller has a ticket of 16 bits for each packet, and gets the tickets back in the order in
/// which the packets are to be handed on.
///
/// ```
/// use pepperknoll::{LinkNumber, Outcome, Refusal, Resequencer};
///
/// let mut link = Resequencer::fresh();
/// assert_eq!(link.arrive(LinkNumber(2), 7)?, Outcome::Held);
/// assert_eq!(link.clocks(), 1 << 2); // a clock has started for 2
/// assert_eq!(*link.clock_end(LinkNumber(2))?, [7]); // 0 and 1 are given up
/// assert_eq!(link.nesn(), LinkNumber(3));
/// assert_eq!(link.arrive(LinkNumber(1), 6)?, Outcome::Old);
/// assert_eq!(link.clock_end(LinkNumber(2)), Err(Refusal::NoClock));
/// # Ok::<(), Refusal>(())
/// ```
#[derive(Clone, Copy, Debug, PartialEq, Eq, Hash)]
pub struct Resequencer([u8; Resequencer::BYTES]);

impl Resequencer {
    /// The bytes of a state: `[0]` NESN, `[1]` HSNR, `[2..10]` held numbers, `[10..18]` numbers
    /// whose clock runs, `[18..146]` the tickets; the lowest byte of each word first.
    pub const BYTES: usize = 146;

    /// A fresh state: NESN 0, nothing held.
    #[inline]
    pub fn fresh() -> Self {
        let mut bytes = [0; Self::BYTES];
        // SAFETY: the array is lent whole, with its own length.
        let answer = unsafe { raw::pk_resequencer_fresh(bytes.as_mut_ptr(), bytes.len()) };
        debug_assert_eq!(answer, 0);
        Resequencer(bytes)
    }

    /// A state from bytes that were stored. Any bytes are taken; what is no state in good order
    /// is refused by the calls.
    ///
    /// ```
    /// use pepperknoll::{LinkNumber, Outcome, Resequencer};
    ///
    /// let mut link = Resequencer::fresh();
    /// link.arrive(LinkNumber(5), 50)?;
    /// let stored: [u8; 146] = *link.as_bytes();
    /// let mut again = Resequencer::from_bytes(stored);
    /// assert_eq!(again.arrive(LinkNumber(5), 51)?, Outcome::Duplicate);
    /// # Ok::<(), pepperknoll::Refusal>(())
    /// ```
    #[inline]
    pub const fn from_bytes(bytes: [u8; Self::BYTES]) -> Self {
        Resequencer(bytes)
    }

    /// The bytes of this state, to be stored.
    #[inline]
    pub const fn as_bytes(&self) -> &[u8; Self::BYTES] {
        &self.0
    }

    /// Whether this is a state in good order.
    #[inline]
    pub fn in_order(&self) -> bool {
        // SAFETY: the state is lent whole, with its own length.
        unsafe { raw::pk_resequencer_in_order(self.0.as_ptr(), self.0.len()) == 0 }
    }

    /// The next expected SN, as the state has it.
    #[inline]
    pub const fn nesn(&self) -> LinkNumber {
        LinkNumber(self.0[0])
    }

    /// The held numbers, one bit for each.
    #[inline]
    pub fn held(&self) -> u64 {
        self.word(2)
    }

    /// The numbers whose clock runs, one bit for each.
    #[inline]
    pub fn clocks(&self) -> u64 {
        self.word(10)
    }

    fn word(&self, at: usize) -> u64 {
        let mut bytes = [0; 8];
        bytes.copy_from_slice(&self.0[at..at + 8]);
        u64::from_le_bytes(bytes)
    }

    /// A packet arrives. Refused with 14, 1.
    #[inline]
    pub fn arrive(&mut self, sn: LinkNumber, ticket: u16) -> Result<Outcome, Refusal> {
        let mut places = [0; Tickets::MOST];
        let (state, lent) = (&mut self.0, &mut places);
        // SAFETY: state and places are two arrays, each lent whole with its own length.
        let answer = unsafe {
            raw::pk_resequencer_arrive(
                state.as_mut_ptr(),
                state.len(),
                lent.as_mut_ptr(),
                lent.len(),
                sn.0,
                ticket,
            )
        };
        values(answer.into()).map(|values| Outcome::new(values, places))
    }

    /// The clock of a number ends: the tickets of all held numbers that this passes, never none.
    /// Refused with 14, 1, 7.
    #[inline]
    pub fn clock_end(&mut self, sn: LinkNumber) -> Result<Tickets, Refusal> {
        let mut places = [0; Tickets::MOST];
        let (state, lent) = (&mut self.0, &mut places);
        // SAFETY: state and places are two arrays, each lent whole with its own length.
        let answer = unsafe {
            raw::pk_resequencer_clock_end(
                state.as_mut_ptr(),
                state.len(),
                lent.as_mut_ptr(),
                lent.len(),
                sn.0,
            )
        };
        values(answer.into()).map(|values| Tickets::new(values, places))
    }
}

impl Default for Resequencer {
    fn default() -> Self {
        Resequencer::fresh()
    }
}

/// What became of a packet that arrived.
#[derive(Clone, Copy, Debug, PartialEq, Eq)]
pub enum Outcome {
    /// It is early and is kept.
    Held,
    /// It was the expected one: these tickets are handed on, its own first.
    HandedOn(Tickets),
    /// It is old and was dropped.
    Old,
    /// Its number is already held; it was dropped.
    Duplicate,
}

impl Outcome {
    #[inline]
    fn new(values: u64, places: [u16; Tickets::MOST]) -> Self {
        match values as u8 {
            0 => Outcome::Held,
            1 => Outcome::HandedOn(Tickets::new(values, places)),
            2 => Outcome::Old,
            3 => Outcome::Duplicate,
            _ => unknown(values << 8),
        }
    }
}

/// The tickets that leave in one event, in order: at most 32. Used as a slice.
///
/// ```
/// use pepperknoll::{LinkNumber, Resequencer};
///
/// let mut link = Resequencer::fresh();
/// for sn in [3, 5] {
///     link.arrive(LinkNumber(sn), 100 + u16::from(sn))?;
/// }
/// let tickets = link.clock_end(LinkNumber(5))?;
/// assert_eq!(tickets.iter().sum::<u16>(), 103 + 105);
/// # Ok::<(), pepperknoll::Refusal>(())
/// ```
#[derive(Clone, Copy)]
pub struct Tickets {
    places: [u16; Tickets::MOST],
    count: usize,
}

impl Tickets {
    /// At most so many tickets leave in one event.
    pub const MOST: usize = 32;

    #[inline]
    fn new(values: u64, places: [u16; Tickets::MOST]) -> Self {
        let count = usize::from((values >> 8) as u8).min(Self::MOST);
        Tickets { places, count }
    }
}

impl Deref for Tickets {
    type Target = [u16];

    #[inline]
    fn deref(&self) -> &[u16] {
        &self.places[..self.count]
    }
}

impl PartialEq for Tickets {
    fn eq(&self, other: &Self) -> bool {
        **self == **other
    }
}

impl Eq for Tickets {}

impl fmt::Debug for Tickets {
    fn fmt(&self, f: &mut fmt::Formatter<'_>) -> fmt::Result {
        f.debug_list().entries(self.iter()).finish()
    }
}
