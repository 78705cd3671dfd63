//! The replay program: reads a script of resequencer events, one a line, and prints the state after
//! each and what became of it.

use std::io::{self, BufRead, Write};

use crate::resequencer::{Answer, Outcome, Resequencer, PLACES};
use crate::Refusal;

const HEADER: &[u8] = b"nesn held clocks result\n";

/// What a line asks for; its numbers have up to 16 bits.
enum Event {
    Arrive { sn: u16, ticket: u16 },
    ClockEnd { sn: u16 },
}

/// Replays a script from a fresh state. Only a line feed ends a line; the last one may lack it.
pub fn replay(mut script: impl BufRead, mut report: impl Write) -> io::Result<()> {
    report.write_all(HEADER)?;
    let mut state = Resequencer::fresh();
    let (mut line, mut printed) = (Vec::new(), Vec::new());
    while script.read_until(b'\n', &mut line)? > 0 {
        replay_line(
            &mut state,
            line.strip_suffix(b"\n").unwrap_or(&line),
            &mut printed,
        );
        report.write_all(&printed)?;
        line.clear();
        printed.clear();
    }
    report.flush()
}

/// One line of the script, without its end, to one line of the report.
fn replay_line(state: &mut Resequencer, line: &[u8], printed: &mut Vec<u8>) {
    let mut tickets = [0; PLACES];
    let result = match parse(line) {
        Some(Event::Arrive { sn, ticket }) => state.arrive(field(sn), ticket, &mut tickets),
        Some(Event::ClockEnd { sn }) => state.clock_end(field(sn), &mut tickets),
        None => Err(Refusal::Malformed),
    };
    let (held, clocks) = (state.held.count_ones(), state.clocks.count_ones());
    for value in [state.nesn.into(), held as u16, clocks as u16] {
        print_number(value, printed);
        printed.push(b' ');
    }
    print_result(result, &tickets, printed);
    printed.push(b'\n');
}

/// A number as a call takes it; one that does not fit is over every field.
fn field(number: u16) -> u8 {
    u8::try_from(number).unwrap_or(u8::MAX)
}

/// `A sn ticket` or `E sn` with single blanks; nothing else is an event.
fn parse(line: &[u8]) -> Option<Event> {
    let mut words = line.split(|&byte| byte == b' ');
    let event = match words.next()? {
        b"A" => Event::Arrive {
            sn: number(words.next()?)?,
            ticket: number(words.next()?)?,
        },
        b"E" => Event::ClockEnd {
            sn: number(words.next()?)?,
        },
        _ => return None,
    };
    words.next().is_none().then_some(event)
}

/// One to five decimal digits, at most 65,535.
fn number(digits: &[u8]) -> Option<u16> {
    if digits.is_empty() || digits.len() > 5 {
        return None;
    }
    let mut value = 0;
    for &digit in digits {
        if !digit.is_ascii_digit() {
            return None;
        }
        value = value * 10 + u32::from(digit - b'0');
    }
    u16::try_from(value).ok()
}

fn print_result(result: Result<Answer, Refusal>, tickets: &[u16; PLACES], printed: &mut Vec<u8>) {
    match result {
        Ok(answer) => match answer.outcome {
            Outcome::Held => printed.push(b'-'),
            Outcome::Old => printed.extend(b"old"),
            Outcome::Duplicate => printed.extend(b"dup"),
            Outcome::HandedOn => print_tickets(&tickets[..answer.count.into()], printed),
        },
        Err(refusal) => {
            printed.extend(b"refused ");
            print_number(refusal.number().into(), printed);
        }
    }
}

fn print_tickets(tickets: &[u16], printed: &mut Vec<u8>) {
    for (place, &ticket) in tickets.iter().enumerate() {
        if place > 0 {
            printed.push(b' ');
        }
        print_number(ticket, printed);
    }
}

/// In decimal, without leading zeros.
fn print_number(mut value: u16, printed: &mut Vec<u8>) {
    let mut digits = [0; 5];
    let mut first = digits.len();
    loop {
        first -= 1;
        digits[first] = b'0' + (value % 10) as u8;
        value /= 10;
        if value == 0 {
            break;
        }
    }
    printed.extend_from_slice(&digits[first..]);
}
