//! Route lists and the choice. Only an address that a deletion names can be lost, so no copy of
//! the table is kept and no other address is looked at.

use plain::Refusal;

/// A set of addresses.
type Addresses = [u64; 4];

#[inline]
fn insert(set: &mut Addresses, address: u8) {
    set[usize::from(address >> 6)] |= 1 << (address & 63);
}

#[derive(Clone, Debug, PartialEq, Eq)]
pub struct Table {
    pub codes: [u16; 256],
}

/// Whether a list ends with a whole entry.
#[inline]
fn is_whole(list: &[u8]) -> bool {
    let mut at = 0;
    while let Some(&first) = list.get(at) {
        at += usize::from(first & 7) + 2;
    }
    at == list.len()
}

/// Goes through the entries of a whole list that have this AD.
#[inline]
fn for_each(mut list: &[u8], ad: u8, mut work: impl FnMut(u16, u8)) {
    while let Some((&first, rest)) = list.split_first() {
        let (addresses, after) = rest.split_at(usize::from(first & 7) + 1);
        if first & 8 == ad {
            let code = 1 << (first >> 4);
            addresses.iter().for_each(|&address| work(code, address));
        }
        list = after;
    }
}

impl Table {
    /// Changes the table by a route list; answers how many addresses stand in `lost`.
    #[inline]
    pub fn update(&mut self, list: &[u8], lost: &mut [u8]) -> Result<usize, Refusal> {
        let lost = lost.first_chunk_mut().ok_or(Refusal::OutputTooShort)?;
        if list.len() > 255 || !is_whole(list) {
            return Err(Refusal::RouteListMalformed);
        }
        let (mut was_empty, mut emptied): (Addresses, Addresses) = ([0; 4], [0; 4]);
        for_each(list, 8, |code, address| {
            let set = &mut self.codes[usize::from(address)];
            if *set == 0 {
                insert(&mut was_empty, address);
            }
            *set |= code;
        });
        for_each(list, 0, |code, address| {
            let set = &mut self.codes[usize::from(address)];
            if *set == code {
                insert(&mut emptied, address);
            }
            *set &= !code;
        });
        for (set, before) in emptied.iter_mut().zip(was_empty) {
            *set &= !before;
        }
        Ok(report(emptied, lost))
    }

    #[inline]
    pub fn choose(&self, address: u8, last: Option<u16>, failed: u16) -> Result<u8, Refusal> {
        choose(self.codes[usize::from(address)], last, failed)
    }
}

/// Lists a set of addresses, rising.
#[inline]
fn report(set: Addresses, lost: &mut [u8; 256]) -> usize {
    *lost = [0; 256];
    let mut count = 0u8;
    for (base, mut word) in (0..=192u8).step_by(64).zip(set) {
        while word != 0 {
            lost[usize::from(count)] = base + word.trailing_zeros() as u8;
            count = count.wrapping_add(1);
            word &= word - 1;
        }
    }
    usize::from(count)
}

/// The choice from a set of codes.
#[inline]
pub fn choose(codes: u16, last: Option<u16>, failed: u16) -> Result<u8, Refusal> {
    let usable = codes & !failed;
    if let Some(code) = last {
        if code > 15 {
            return Err(Refusal::OutOfRange);
        }
        if usable >> code & 1 == 1 {
            return Ok(code as u8);
        }
    }
    if usable != 0 {
        Ok(usable.trailing_zeros() as u8)
    } else if codes == 0 {
        Err(Refusal::NoInterrogator)
    } else {
        Err(Refusal::AllFailed)
    }
}
