//! The choice of an interrogator, from a set and from a table.

use pepperknoll::raw;
use plain::packed::{last_used, NO_CODE};
use plain::route::{self, Table};

use crate::support::{answer, by_number, safe_by_number, Call, Lent, Random, Trial};

pub fn run(trial: &mut Trial) {
    several_refusals();
    clearing_codes();
    small_sets(trial);
    random_sets(trial);
    from_tables(trial);
}

/// The safe calls take a byte; a code over that can be lent to the library only.
fn safe_last(last: u16) -> Option<Option<u8>> {
    match last_used(last) {
        None => Some(None),
        Some(code) => u8::try_from(code).ok().map(Some),
    }
}

fn check(trial: &mut Trial, codes: u16, last: u16, failed: u16) {
    let wanted = route::choose(codes, last_used(last), failed);
    // SAFETY: the call takes numbers only.
    let got = unsafe { raw::pk_choose(codes, last, failed) };
    trial.tally.saw(Call::Choose, got.into());
    let what = || format!("codes {codes:x}, last {last}, failed {failed:x}");
    let wanted_answer = answer(&wanted, |&code| code.into());
    assert_eq!(u64::from(got), wanted_answer, "{}", what());
    if let Some(last) = safe_last(last) {
        let safe = pepperknoll::choose(codes, last, failed);
        assert_eq!(safe_by_number(safe), by_number(wanted), "{}", what());
        let codes = safe.err().and_then(safe_clearing);
        assert_eq!(codes, wanted.err().and_then(plain::Refusal::clearing));
    }
}

/// Cause and diagnostic code of a refusal of the safe crate.
fn safe_clearing(refusal: pepperknoll::Refusal) -> Option<(u8, u8)> {
    let codes = refusal.clearing()?;
    Some((codes.cause, codes.diagnostic))
}

/// They belong to refusal 8 and to no other, and no answer has them.
fn clearing_codes() {
    for refusal in pepperknoll::Refusal::ALL {
        let wanted = (refusal.number() == 8).then_some((141, 162));
        assert_eq!(safe_clearing(refusal), wanted, "{refusal}");
    }
    let table = Lent::of(&[0; 512]);
    // SAFETY: the list is lent with its own length; the other call takes numbers only.
    let answers = unsafe {
        [
            raw::pk_choose(0, NO_CODE, 0),
            raw::pk_table_choose(table.as_ptr(), table.len(), 7, NO_CODE, 0),
        ]
    };
    assert_eq!(answers, [8, 8]);
}

const LASTS: [u16; 12] = [0, 1, 2, 3, 7, 14, 15, 16, 255, 256, 0xFFFE, NO_CODE];

/// Sets of up to four neighbouring codes, all failures among them, at each place.
fn small_sets(trial: &mut Trial) {
    for place in 0..=12 {
        for codes in 0..16 {
            for failed in 0..16 {
                for last in (0..=17).chain(LASTS) {
                    check(trial, codes << place, last, failed << place);
                }
            }
        }
    }
}

/// Sets of codes: many, few, one, none.
fn some_set(random: &mut Random) -> u16 {
    let (a, b) = (random.word() as u16, random.word() as u16);
    match random.below(6) {
        0 => 0,
        1 => 1 << (a % 16),
        2 => a & b & random.word() as u16,
        3 => 0xFFFF,
        _ => a,
    }
}

fn some_last(random: &mut Random) -> u16 {
    match random.below(8) {
        0 => NO_CODE,
        1 => random.pick(&LASTS),
        2 => random.word() as u16,
        _ => random.below(16) as u16,
    }
}

/// Failures: any, none, all that are present, all but one of these.
fn some_failed(random: &mut Random, codes: u16) -> u16 {
    match random.below(5) {
        0 => codes,
        1 => codes & !(1 << random.below(16)),
        2 => !codes,
        3 => codes | random.word() as u16,
        _ => some_set(random),
    }
}

fn random_sets(trial: &mut Trial) {
    for _ in 0..trial.times(2_000_000, 20_000_000) {
        let codes = some_set(&mut trial.random);
        let failed = some_failed(&mut trial.random, codes);
        let last = some_last(&mut trial.random);
        check(trial, codes, last, failed);
    }
}

fn from_tables(trial: &mut Trial) {
    let mut lent = Lent::new();
    for _ in 0..trial.times(300, 3_000) {
        let mut table = Table::empty();
        for set in &mut table.codes {
            *set = some_set(&mut trial.random);
        }
        let bytes = table.to_bytes();
        lent.lend(&bytes);
        let safe = pepperknoll::Table::from_bytes(bytes);
        for address in 0..=255 {
            let last = some_last(&mut trial.random);
            let failed = some_failed(&mut trial.random, table.codes(address));
            let wanted = table.choose(address, last_used(last), failed);
            let (start, length) = (lent.as_ptr(), lent.len());
            // SAFETY: the list is lent with its own length.
            let got = unsafe { raw::pk_table_choose(start, length, address, last, failed) };
            trial.tally.saw(Call::TableChoose, got.into());
            let wanted_answer = answer(&wanted, |&code| code.into());
            assert_eq!(
                u64::from(got),
                wanted_answer,
                "{address}, {last}, {failed:x}"
            );
            if let Some(last) = safe_last(last) {
                let safe = safe.choose(address, last, failed);
                assert_eq!(safe_by_number(safe), by_number(wanted));
            }
        }
        lent.assert_holds(&bytes, || "choose".into());
    }
}

/// Inputs that deserve several refusals, by the numbers that the rules put first.
fn several_refusals() {
    let number = |codes, last, failed| {
        // SAFETY: the call takes numbers only.
        unsafe { raw::pk_choose(codes, last, failed) as u8 }
    };
    assert_eq!(number(0, 16, 0xFFFF), 1);
    assert_eq!(number(0, 0xFFFE, 0), 1);
    assert_eq!(number(3, 16, 3), 1);
    assert_eq!(number(0, NO_CODE, 0xFFFF), 8);
    assert_eq!(number(3, NO_CODE, 0xFFFF), 15);
    assert_eq!(number(3, 0, 1), 0);
}
