//! Interrogator codes against ground addresses, and the choice of an interrogator.

use crate::Refusal;

/// The longest route list, in bytes.
const LONGEST_LIST: usize = 255;

/// Places for the addresses that lose their last code.
pub const LOST: usize = 256;
/// The bytes of a stored table.
pub const BYTES: usize = 512;

/// For each ground address the set of its codes II.
#[derive(Clone, Debug, PartialEq, Eq)]
pub struct Table {
    pub codes: [u16; 256],
}

/// One entry of a route list.
struct Entry<'a> {
    ii: u8,
    add: bool,
    addresses: &'a [u8],
}

/// Reads the entry at the front of a list; gives what comes after it too.
#[inline]
fn read_entry(list: &[u8]) -> Result<(Entry<'_>, &[u8]), Refusal> {
    let (&first, rest) = list.split_first().ok_or(Refusal::RouteListMalformed)?;
    let count = usize::from(first & 7) + 1;
    let (addresses, after) = rest
        .split_at_checked(count)
        .ok_or(Refusal::RouteListMalformed)?;
    let entry = Entry {
        ii: first >> 4,
        add: first & 8 != 0,
        addresses,
    };
    Ok((entry, after))
}

/// Walks a list from entry to entry.
#[inline]
fn for_each_entry(mut list: &[u8], mut work: impl FnMut(Entry<'_>)) -> Result<(), Refusal> {
    while !list.is_empty() {
        let (entry, rest) = read_entry(list)?;
        work(entry);
        list = rest;
    }
    Ok(())
}

impl Table {
    pub fn empty() -> Self {
        Table { codes: [0; 256] }
    }

    pub fn from_bytes(bytes: &[u8; BYTES]) -> Self {
        let mut codes = [0; 256];
        for (set, pair) in codes.iter_mut().zip(bytes.chunks_exact(2)) {
            *set = u16::from_le_bytes([pair[0], pair[1]]);
        }
        Table { codes }
    }

    pub fn to_bytes(&self) -> [u8; BYTES] {
        let mut bytes = [0; BYTES];
        for (pair, set) in bytes.chunks_exact_mut(2).zip(self.codes) {
            pair.copy_from_slice(&set.to_le_bytes());
        }
        bytes
    }

    #[inline]
    pub fn codes(&self, address: u8) -> u16 {
        self.codes[usize::from(address)]
    }

    #[inline]
    pub fn count(&self, address: u8) -> u8 {
        self.codes(address).count_ones() as u8
    }

    #[inline]
    pub fn choose(&self, address: u8, last: Option<u16>, failed: u16) -> Result<u8, Refusal> {
        choose(self.codes(address), last, failed)
    }

    /// Changes the table by a route list: all additions, then all deletions. The first 256 places
    /// of `lost` then have the addresses that had a code before and have none after, and 0 after
    /// these; the answer is their number. Fewer places are refused before the list is looked at.
    #[inline]
    pub fn update(&mut self, list: &[u8], lost: &mut [u8]) -> Result<usize, Refusal> {
        let lost = lost.first_chunk_mut().ok_or(Refusal::OutputTooShort)?;
        if list.len() > LONGEST_LIST {
            return Err(Refusal::RouteListMalformed);
        }
        for_each_entry(list, |_| ())?;
        let before = self.codes;
        for_each_entry(list, |entry| {
            if entry.add {
                for &address in entry.addresses {
                    self.codes[usize::from(address)] |= 1 << entry.ii;
                }
            }
        })?;
        for_each_entry(list, |entry| {
            if !entry.add {
                for &address in entry.addresses {
                    self.codes[usize::from(address)] &= !(1 << entry.ii);
                }
            }
        })?;
        Ok(report(&before, &self.codes, lost))
    }
}

/// Lists the addresses that had a code and have none now.
#[inline]
fn report(before: &[u16; 256], after: &[u16; 256], lost: &mut [u8; LOST]) -> usize {
    lost.fill(0);
    let mut count = 0;
    for address in 0..=255u8 {
        let at = usize::from(address);
        if before[at] != 0 && after[at] == 0 {
            lost[count] = address;
            count += 1;
        }
    }
    count
}

/// The choice from a set of codes: the last-used one if it can be, else the lowest.
#[inline]
pub fn choose(codes: u16, last: Option<u16>, failed: u16) -> Result<u8, Refusal> {
    if last.is_some_and(|code| code > 15) {
        return Err(Refusal::OutOfRange);
    }
    if codes == 0 {
        return Err(Refusal::NoInterrogator);
    }
    let usable = codes & !failed;
    if usable == 0 {
        return Err(Refusal::AllFailed);
    }
    match last {
        Some(code) if usable >> code & 1 == 1 => Ok(code as u8),
        _ => Ok(usable.trailing_zeros() as u8),
    }
}

#[cfg(test)]
mod tests {
    use super::*;

    fn updated(table: &Table, list: &[u8]) -> (Table, Vec<u8>) {
        let (mut after, mut lost) = (table.clone(), [9; 256]);
        let count = after.update(list, &mut lost).unwrap();
        assert!(lost[count..].iter().all(|&place| place == 0));
        (after, lost[..count].to_vec())
    }

    fn refused(list: &[u8]) -> bool {
        let (mut table, mut lost) = (Table::empty(), [9; 256]);
        table.codes[3] = 5;
        let before = table.clone();
        let answer = table.update(list, &mut lost);
        let refused = answer == Err(Refusal::RouteListMalformed);
        assert!(!refused || (table == before && lost == [9; 256]));
        refused
    }

    #[test]
    fn lists_that_are_cut_or_too_long() {
        assert!(refused(&[0x58]));
        assert!(refused(&[0x58, 1, 0x59, 1]));
        assert!(refused(&[0x58, 1, 0x50]));
        assert!(!refused(&[]));
        let mut whole = [0x58, 1].repeat(128);
        assert!(refused(&whole));
        whole.truncate(252);
        whole.extend([0x51, 1, 2]);
        assert_eq!((whole.len(), refused(&whole)), (255, false));
    }

    #[test]
    fn fewer_places_are_refused_first_and_more_are_kept() {
        let (table, _) = updated(&Table::empty(), &[0x38, 7]);
        let (mut after, mut short) = (table.clone(), [9; 255]);
        for list in [&[0x30, 7][..], &[0x30], &[0x30; 300]] {
            let answer = after.update(list, &mut short);
            assert_eq!(answer, Err(Refusal::OutputTooShort));
        }
        assert_eq!((&after, short), (&table, [9; 255]));
        let mut long = [9; 258];
        assert_eq!(after.update(&[0x30, 7], &mut long), Ok(1));
        assert_eq!((long[0], long[1], long[255]), (7, 0, 0));
        assert_eq!(long[256..], [9, 9]);
    }

    #[test]
    fn nine_byte_entries() {
        let (table, lost) = updated(&Table::empty(), &[0xFF, 1, 2, 3, 4, 5, 6, 7, 8]);
        assert!((1..=8).all(|address| table.codes(address) == 0x8000));
        assert_eq!((table.codes(0), table.codes(9), lost.len()), (0, 0, 0));
    }

    #[test]
    fn lost_addresses_rise_and_stand_once() {
        let (table, _) = updated(&Table::empty(), &[0x3A, 200, 7, 100]);
        assert_eq!(table.count(200), 1);
        let (after, lost) = updated(&table, &[0x33, 200, 7, 200, 100]);
        assert_eq!((after, lost), (Table::empty(), vec![7, 100, 200]));
    }

    #[test]
    fn replaced_and_never_there_are_not_reported() {
        let (table, _) = updated(&Table::empty(), &[0x38, 7]);
        let (after, lost) = updated(&table, &[0x30, 7, 0x48, 7, 0x58, 9, 0x50, 9]);
        assert_eq!((after.codes(7), after.codes(9), lost), (1 << 4, 0, vec![]));
    }

    #[test]
    fn choices() {
        let none = None;
        assert_eq!(choose(0, Some(16), 0), Err(Refusal::OutOfRange));
        assert_eq!(choose(0, none, 0xFFFF), Err(Refusal::NoInterrogator));
        assert_eq!(choose(0b11, none, 0b111), Err(Refusal::AllFailed));
        assert_eq!(choose(0b11, Some(0), 0b1), Ok(1));
        assert_eq!(choose(0b1100, Some(3), 0b1), Ok(3));
        assert_eq!(choose(0b1100, Some(5), 0b1), Ok(2));
        assert_eq!(choose(0x8000, Some(15), 0x7FFF), Ok(15));
    }
}
