//! The table of interrogators: route lists on a table that is kept, and on tables of any bytes.

use pepperknoll::raw;
use plain::route::{Table, LOST};

use crate::support::{answer, by_number, safe_by_number, Call, Lent, Random, Trial};

pub fn run(trial: &mut Trial) {
    empty(trial);
    several_refusals();
    every_short_list(trial);
    sequence(trial);
    any_table(trial);
}

fn empty(trial: &mut Trial) {
    let mut lent = Lent::of(&[0xEE; 512]);
    // SAFETY: the list is lent with its own length.
    let done = unsafe { raw::pk_table_empty(lent.as_mut_ptr(), lent.len()) };
    trial.tally.saw(Call::TableEmpty, done.into());
    assert_eq!(done, 0);
    lent.assert_holds(&[0; 512], || "empty".into());
    assert_eq!(pepperknoll::Table::empty().as_bytes(), lent.content());
}

/// One table, kept by the library in lent memory, by a safe one, and by the plain one.
struct Tables {
    lent: Lent<u8>,
    list: Lent<u8>,
    lost: Lent<u8>,
    safe: pepperknoll::Table,
    plain: Table,
}

impl Tables {
    fn new(table: Table) -> Self {
        let bytes = table.to_bytes();
        Tables {
            lent: Lent::of(&bytes),
            list: Lent::new(),
            lost: Lent::new(),
            safe: pepperknoll::Table::from_bytes(bytes),
            plain: table,
        }
    }

    fn set(&mut self, table: Table) {
        let bytes = table.to_bytes();
        self.lent.lend(&bytes);
        self.safe = pepperknoll::Table::from_bytes(bytes);
        self.plain = table;
    }

    /// One update of all three, with as many places for the report as it takes, too few or more.
    fn update(&mut self, trial: &mut Trial, list: &[u8]) {
        let count = trial.random.places(LOST);
        let what = || format!("list {list:x?}, {count} places");
        let mut places = vec![trial.random.byte(); count];
        self.lost.lend(&places);
        self.list.lend(list);
        // SAFETY: three lists apart, each lent with its own length.
        let got = unsafe {
            raw::pk_table_update(
                self.lent.as_mut_ptr(),
                self.lent.len(),
                self.list.as_ptr(),
                self.list.len(),
                self.lost.as_mut_ptr(),
                self.lost.len(),
            )
        };
        trial.tally.saw(Call::TableUpdate, got.into());
        let wanted = self.plain.update(list, &mut places);
        let wanted_answer = answer(&wanted, |&count| count as u64);
        assert_eq!(u64::from(got), wanted_answer, "{}", what());
        self.lost.assert_holds(&places, what);
        self.list.assert_holds(list, what);
        let bytes = self.plain.to_bytes();
        self.lent.assert_holds(&bytes, what);
        // The safe call brings its own places, always enough.
        if wanted != Err(plain::Refusal::OutputTooShort) {
            let safe = safe_by_number(self.safe.update(list)).map(|lost| lost.to_vec());
            let wanted = by_number(wanted).map(|count| places[..count].to_vec());
            assert_eq!(safe, wanted, "{}", what());
        }
        assert_eq!(self.safe.as_bytes(), &bytes, "{}", what());
    }

    fn look(&self, trial: &mut Trial, address: u8) {
        let (table, length) = (self.lent.as_ptr(), self.lent.len());
        // SAFETY: the list is lent with its own length.
        let codes = unsafe { raw::pk_table_codes(table, length, address) };
        trial.tally.saw(Call::TableCodes, codes.into());
        assert_eq!(codes, u32::from(self.plain.codes(address)) << 8);
        // SAFETY: the list is lent with its own length.
        let count = unsafe { raw::pk_table_count(table, length, address) };
        trial.tally.saw(Call::TableCount, count.into());
        assert_eq!(count, u32::from(self.plain.count(address)) << 8);
        assert_eq!(self.safe.codes(address), self.plain.codes(address));
        assert_eq!(self.safe.count(address), self.plain.count(address));
        let bytes = self.plain.to_bytes();
        self.lent.assert_holds(&bytes, || "look".into());
    }
}

/// Few addresses, so that lists meet; both ends of the range among them.
const ADDRESSES: [u8; 8] = [0, 1, 0x12, 0x40, 0x41, 0x7F, 0xFE, 0xFF];

fn some_address(random: &mut Random) -> u8 {
    if random.one_in(8) {
        random.byte()
    } else {
        random.pick(&ADDRESSES)
    }
}

/// One whole entry.
fn some_entry(random: &mut Random, add: bool) -> Vec<u8> {
    let code = random.pick(&[0, 5, 5, 6, 15]);
    let nd = match random.below(4) {
        0 => random.below(8),
        1 => 7,
        _ => random.below(3),
    };
    let mut entry = vec![code << 4 | u8::from(add) << 3 | nd as u8];
    entry.extend((0..=nd).map(|_| some_address(random)));
    entry
}

fn some_list(random: &mut Random) -> Vec<u8> {
    let entries = match random.below(16) {
        0 => 0,
        1 => 80,
        _ => 1 + random.below(12),
    };
    let adds = 1 + random.below(6);
    let mut list = Vec::new();
    for _ in 0..entries {
        let add = random.below(7) < adds;
        list.extend(some_entry(random, add));
    }
    match random.below(24) {
        0 => drop(list.pop()),
        1 => list.truncate(random.below(list.len() + 1)),
        2 => list.push(random.byte()),
        3 => fit(random, &mut list, 255),
        4 => fit(random, &mut list, 256),
        5 => fit(random, &mut list, 254),
        _ if random.one_in(2) => list.truncate(255),
        _ => (),
    }
    list
}

/// Makes a list of exactly this length out of whole entries.
fn fit(random: &mut Random, list: &mut Vec<u8>, length: usize) {
    list.clear();
    while list.len() < length {
        let left = length - list.len();
        let add = random.one_in(2);
        let entry = some_entry(random, add);
        // What is left has to be no byte or at least two.
        if entry.len() == left || entry.len() + 2 <= left {
            list.extend(entry);
        }
    }
}

/// One table for many lists, without a new one in between.
fn sequence(trial: &mut Trial) {
    let mut tables = Tables::new(Table::empty());
    for _ in 0..trial.times(120_000, 1_000_000) {
        let list = some_list(&mut trial.random);
        tables.update(trial, &list);
        let address = some_address(&mut trial.random);
        tables.look(trial, address);
    }
}

/// Tables of any bytes, and such with few codes, so that many addresses are lost at once.
fn any_table(trial: &mut Trial) {
    let mut tables = Tables::new(Table::empty());
    for _ in 0..trial.times(10_000, 100_000) {
        let mut table = Table::empty();
        let code = trial.random.pick(&[0, 5, 15]);
        for set in &mut table.codes {
            *set = match trial.random.below(3) {
                0 => 0,
                1 => 1 << code,
                _ => trial.random.word() as u16,
            };
        }
        if trial.random.one_in(4) {
            table.codes.fill(1 << code);
        }
        tables.set(table);
        let list = match trial.random.below(3) {
            0 => some_list(&mut trial.random),
            _ => deletions(&mut trial.random, code),
        };
        tables.update(trial, &list);
        let step = 1 + trial.random.below(64);
        for address in (0..=255).step_by(step) {
            tables.look(trial, address);
        }
    }
}

/// As many deletions of one code as a list can have, of any addresses, some of them twice.
fn deletions(random: &mut Random, code: u8) -> Vec<u8> {
    let mut list = Vec::new();
    for _ in 0..1 + random.below(28) {
        list.push(code << 4 | 7);
        list.extend(random.bytes(8));
    }
    list
}

/// Every first byte with every number of bytes after it.
fn every_short_list(trial: &mut Trial) {
    let mut start = Table::empty();
    start.codes[1] = 0x8421;
    start.codes[2] = 1 << 5;
    let mut tables = Tables::new(start.clone());
    for first in 0..=255u8 {
        for length in 0..12 {
            let mut list = vec![first];
            list.extend((0..length).map(|at| [1, 2, 3][at % 3]));
            tables.set(start.clone());
            tables.update(trial, &list);
        }
    }
}

/// What the rules give: too long and cut is 6 all the same, and nothing is applied before the
/// whole list is judged.
fn several_refusals() {
    let mut table = pepperknoll::Table::empty();
    let mut list = [0x58, 0x12].repeat(128);
    assert_eq!(table.update(&list).unwrap_err().number(), 6);
    list.push(0x5F);
    assert_eq!(table.update(&list).unwrap_err().number(), 6);
    assert_eq!(
        table
            .update(&[0x58, 0x12, 0x59, 0x12])
            .unwrap_err()
            .number(),
        6
    );
    assert_eq!(table, pepperknoll::Table::empty());
    for list in [
        [0x59, 0x12, 0x40, 0x50, 0x12],
        [0x50, 0x12, 0x59, 0x12, 0x40],
    ] {
        let mut table = pepperknoll::Table::empty();
        assert!(table.update(&list).is_ok_and(|lost| lost.is_empty()));
        assert_eq!((table.codes(0x12), table.codes(0x40)), (0, 1 << 5));
    }
}
