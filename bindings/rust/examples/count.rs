//! Makes one measured call so many times, for counting its instructions: `count CALL VERSION N`,
//! with VERSION one of library, plain, best, and nothing for the loop with an empty call. `count
//! list` names the calls. The call `copy` is a copy of 4,096 bytes, the same for every version.
//! The script `instructions` uses it.

#[path = "../benches/calls/mod.rs"]
mod calls;

use std::process::ExitCode;

use calls::{copy, Run, CALLS};

fn main() -> ExitCode {
    let words: Vec<String> = std::env::args().skip(1).collect();
    let words: Vec<&str> = words.iter().map(String::as_str).collect();
    match words[..] {
        ["list"] => list(),
        [call, version, times] => match (run_of(call, version), times.parse()) {
            (Some(mut run), Ok(times)) => println!("{}", run(times)),
            _ => return usage(),
        },
        _ => return usage(),
    }
    ExitCode::SUCCESS
}

fn usage() -> ExitCode {
    eprintln!("count CALL library|plain|best|nothing N, or count list");
    ExitCode::FAILURE
}

/// The calls' names; `+` marks those beside which a copy is counted.
fn list() {
    for call in CALLS {
        println!("{}{}", call.name, if call.beside_copy { "+" } else { "" });
    }
}

fn run_of(call: &str, version: &str) -> Option<Run> {
    if call == "copy" {
        return Some(copy());
    }
    let call = CALLS.iter().find(|known| known.name == call)?;
    match version {
        "library" => Some((call.library)()),
        "plain" => Some((call.plain)()),
        "best" => Some((call.best)()),
        "nothing" => Some((call.nothing)()),
        _ => None,
    }
}
