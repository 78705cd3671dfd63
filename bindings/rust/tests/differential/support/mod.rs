//! What all subjects use: the setting, the generator, lent memory, the table of refusals.

mod lent;
mod random;
mod tally;

pub use lent::Lent;
pub use random::Random;
pub use tally::{Call, Tally};

pub use plain::packed::answer;

use std::io::Write;
use std::sync::{Mutex, Once, PoisonError};

/// What a subject works with.
pub struct Trial {
    pub random: Random,
    pub tally: Tally,
    long: bool,
}

impl Trial {
    /// One of two amounts of work, by the setting.
    pub fn times(&self, short: u64, long: u64) -> u64 {
        if self.long {
            long
        } else {
            short
        }
    }
}

/// Subjects run one after the other, so that no more than one core is taken.
static TURN: Mutex<()> = Mutex::new(());

/// Runs one subject; fails if it never saw a refusal that the header lists for its calls.
pub fn subject(name: &'static str, run: fn(&mut Trial)) {
    let _turn = TURN.lock().unwrap_or_else(PoisonError::into_inner);
    let (seed, long) = setting();
    let mut trial = Trial {
        random: Random::new(seed, name),
        tally: Tally::new(name),
        long,
    };
    run(&mut trial);
    trial.tally.finish();
}

/// The seed, and whether the setting is the long one; both are said once.
fn setting() -> (u64, bool) {
    static SAID: Once = Once::new();
    let seed = match std::env::var("PEPPERKNOLL_SEED") {
        Ok(text) => text.parse().expect("PEPPERKNOLL_SEED is a number"),
        Err(_) => 1,
    };
    let long = std::env::var("PEPPERKNOLL_LONG").is_ok_and(|value| value == "1");
    SAID.call_once(|| {
        let setting = if long { "long" } else { "short" };
        say(&format!("seed {seed}, {setting} setting\n"));
    });
    (seed, long)
}

/// Prints past the harness, which keeps what a passing test prints to itself.
pub fn say(text: &str) {
    std::io::stderr()
        .write_all(text.as_bytes())
        .expect("stderr takes it");
}

/// A result of the plain version, to be compared with one of the safe calls.
pub fn by_number<T>(result: Result<T, plain::Refusal>) -> Result<T, u8> {
    result.map_err(plain::Refusal::number)
}

/// A result of a safe call, to be compared with one of the plain version.
pub fn safe_by_number<T>(result: Result<T, pepperknoll::Refusal>) -> Result<T, u8> {
    result.map_err(pepperknoll::Refusal::number)
}

/// The same of reading and joining: the refusal's number, and the position beside it.
pub fn by_place<T>(result: Result<T, plain::Fault>) -> Result<T, (u8, usize)> {
    result.map_err(|fault| (fault.refusal.number(), fault.at))
}

/// The same of the safe calls that read and join.
pub fn safe_by_place<T>(result: Result<T, pepperknoll::Refused>) -> Result<T, (u8, usize)> {
    result.map_err(|refused| (refused.why.number(), refused.at))
}
