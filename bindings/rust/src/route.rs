use std::fmt;
use std::ops::Deref;

use crate::answer::values;
use crate::{raw, Refusal};

/// How the library is told that no code was used before.
const NO_CODE: u16 = 0xFFFF;

/// For each of the 256 ground addresses the set of its interrogator codes, II.
///
/// ```
/// use pepperknoll::{Refusal, Table};
///
/// let mut table = Table::empty();
/// // Code 5 is added at 12 and 40 hex, and deleted at 12 hex: additions come first.
/// let lost = table.update(&[0x59, 0x12, 0x40, 0x50, 0x12])?;
/// assert!(lost.is_empty());
/// assert_eq!((table.codes(0x40), table.count(0x12)), (1 << 5, 0));
/// assert_eq!(table.choose(0x40, None, 0), Ok(5));
/// assert_eq!(table.choose(0x12, None, 0), Err(Refusal::NoInterrogator));
/// assert_eq!(*table.update(&[0x50, 0x40])?, [0x40]);
/// # Ok::<(), Refusal>(())
/// ```
#[derive(Clone, Copy, PartialEq, Eq, Hash)]
pub struct Table([u8; Table::BYTES]);

impl Table {
    /// The bytes of a table: two for each address, the set as a word of 16 bits, lowest byte
    /// first.
    pub const BYTES: usize = 512;

    /// A table in which no address has a code.
    #[inline]
    pub fn empty() -> Self {
        let mut bytes = [0; Self::BYTES];
        // SAFETY: the array is lent whole, with its own length.
        let answer = unsafe { raw::pk_table_empty(bytes.as_mut_ptr(), bytes.len()) };
        debug_assert_eq!(answer, 0);
        Table(bytes)
    }

    /// A table from bytes that were stored; any bytes are one.
    #[inline]
    pub const fn from_bytes(bytes: [u8; Self::BYTES]) -> Self {
        Table(bytes)
    }

    /// The bytes of this table, to be stored.
    #[inline]
    pub const fn as_bytes(&self) -> &[u8; Self::BYTES] {
        &self.0
    }

    /// The set of an address's codes, one bit for each.
    #[inline]
    pub fn codes(&self, address: u8) -> u16 {
        // SAFETY: the table is lent whole, with its own length.
        let answer = unsafe { raw::pk_table_codes(self.0.as_ptr(), self.0.len(), address) };
        (answer >> 8) as u16
    }

    /// How many interrogators an address has.
    #[inline]
    pub fn count(&self, address: u8) -> u8 {
        // SAFETY: the table is lent whole, with its own length.
        let answer = unsafe { raw::pk_table_count(self.0.as_ptr(), self.0.len(), address) };
        (answer >> 8) as u8
    }

    /// Chooses an interrogator for an address, as [`choose`] does from its codes. Refused with 1,
    /// 8, 15.
    #[inline]
    pub fn choose(&self, address: u8, last: Option<u8>, failed: u16) -> Result<u8, Refusal> {
        let (table, last) = (&self.0, last.map_or(NO_CODE, u16::from));
        // SAFETY: the table is lent whole, with its own length.
        let answer =
            unsafe { raw::pk_table_choose(table.as_ptr(), table.len(), address, last, failed) };
        values(answer.into()).map(|code| code as u8)
    }

    /// Changes the table by a route list; answers the addresses that had a code before and have
    /// none after. Refused with 6.
    #[inline]
    pub fn update(&mut self, list: &[u8]) -> Result<Lost, Refusal> {
        let mut places = [0; Lost::MOST];
        let (table, lost) = (&mut self.0, &mut places);
        // SAFETY: each list is lent whole with its own length; the table is borrowed alone and
        // the places are new, so they overlap nothing.
        let answer = unsafe {
            raw::pk_table_update(
                table.as_mut_ptr(),
                table.len(),
                list.as_ptr(),
                list.len(),
                lost.as_mut_ptr(),
                lost.len(),
            )
        };
        values(answer.into()).map(|count| Lost {
            places,
            count: (count as usize).min(Lost::MOST),
        })
    }
}

impl Default for Table {
    fn default() -> Self {
        Table::empty()
    }
}

impl fmt::Debug for Table {
    fn fmt(&self, f: &mut fmt::Formatter<'_>) -> fmt::Result {
        let taken = (0..=255).filter(|&address| self.codes(address) != 0);
        f.debug_map()
            .entries(taken.map(|address| (address, self.codes(address))))
            .finish()
    }
}

/// The addresses that lost their last code by a route list, rising. Used as a slice.
#[derive(Clone, Copy)]
pub struct Lost {
    places: [u8; Lost::MOST],
    count: usize,
}

impl Lost {
    const MOST: usize = 256;
}

impl Deref for Lost {
    type Target = [u8];

    #[inline]
    fn deref(&self) -> &[u8] {
        &self.places[..self.count]
    }
}

impl PartialEq for Lost {
    fn eq(&self, other: &Self) -> bool {
        **self == **other
    }
}

impl Eq for Lost {}

impl fmt::Debug for Lost {
    fn fmt(&self, f: &mut fmt::Formatter<'_>) -> fmt::Result {
        f.debug_list().entries(self.iter()).finish()
    }
}

/// Chooses an interrogator from a set of codes: not one of the failed ones; the last-used one if
/// it can be, else the lowest. Refused with 1 (a last-used code over 15), 8 (there is no code),
/// 15 (all have failed).
///
/// ```
/// use pepperknoll::{choose, Refusal};
///
/// assert_eq!(choose(0b1010, None, 0), Ok(1));
/// assert_eq!(choose(0b1010, Some(3), 0), Ok(3));
/// assert_eq!(choose(0b1010, Some(3), 0b1000), Ok(1));
/// assert_eq!(choose(0b1010, None, 0b1010), Err(Refusal::AllFailed));
///
/// let refusal = choose(0, None, 0).unwrap_err();
/// let codes = refusal.clearing().expect("a call is cleared with these");
/// assert_eq!((codes.cause, codes.diagnostic), (141, 162));
/// ```
#[inline]
pub fn choose(codes: u16, last: Option<u8>, failed: u16) -> Result<u8, Refusal> {
    // SAFETY: the call takes numbers only, any of them.
    let answer = unsafe { raw::pk_choose(codes, last.map_or(NO_CODE, u16::from), failed) };
    values(answer.into()).map(|code| code as u8)
}
