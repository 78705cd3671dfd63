//! The command line tool `./call` as docs/CALL.md describes it, over this crate instead of the
//! proved library. It works out what the tool has to print for `crates/call/stdin`, and so checks
//! `crates/call/stdout`, with which the gate compares what the tool prints.
//!
//! `PEPPERKNOLL_WRITE_CASES=1` writes `crates/call/stdout` instead of checking it.

mod calls;
mod line;

use std::collections::BTreeSet;
use std::path::{Path, PathBuf};
use std::{env, fs};

use line::{Printed, Words};

/// The longest line, without its end.
const LONGEST_LINE: usize = 65_535;

/// What the tool prints for the lines of a file.
fn report(file: &[u8]) -> Vec<u8> {
    let mut report = Vec::new();
    for (line, number) in lines(file).zip(1..) {
        match printed(line) {
            Ok(printed) => report.extend(printed),
            Err(reason) => report.extend(format!("line {number}: {reason}").bytes()),
        }
        report.push(b'\n');
    }
    report
}

/// The lines of a file without their ends; the last one may lack its end.
fn lines(file: &[u8]) -> impl Iterator<Item = &[u8]> {
    let ended = file.strip_suffix(b"\n").unwrap_or(file);
    let lines = if file.is_empty() { 0 } else { usize::MAX };
    ended.split(|&byte| byte == b'\n').take(lines)
}

/// What is printed for a line, or why it cannot be read.
fn printed(line: &[u8]) -> Result<Vec<u8>, String> {
    if line.len() > LONGEST_LINE {
        return Err("longer than 65,535 bytes".into());
    }
    if line.is_empty() || line.starts_with(b"#") {
        return Ok(line.to_vec());
    }
    let (name, words) = Words::of(line);
    calls::make(name, words).map(Printed::into_bytes)
}

/// A file of this repository.
fn in_repository(path: &str) -> PathBuf {
    Path::new(env!("CARGO_MANIFEST_DIR"))
        .join("../../..")
        .join(path)
}

fn read(path: &str) -> Vec<u8> {
    fs::read(in_repository(path)).unwrap_or_else(|error| panic!("{path}: {error}"))
}

#[test]
fn every_case_comes_out_as_written_down() {
    let wanted = report(&read("crates/call/stdin"));
    if env::var("PEPPERKNOLL_WRITE_CASES").is_ok_and(|value| value == "1") {
        fs::write(in_repository("crates/call/stdout"), wanted).expect("stdout can be written");
        return;
    }
    let found = read("crates/call/stdout");
    if found == wanted {
        return;
    }
    let text = |line: Option<&[u8]>| match line {
        Some(line) => String::from_utf8_lossy(line).into_owned(),
        None => "(no such line)".into(),
    };
    let (mut found, mut wanted) = (found.split(is_line_end), wanted.split(is_line_end));
    for number in 1.. {
        let (found, wanted) = (found.next(), wanted.next());
        assert!(
            found == wanted,
            "crates/call/stdout, line {number}\n found:  {}\n wanted: {}",
            text(found),
            text(wanted)
        );
    }
}

fn is_line_end(byte: &u8) -> bool {
    *byte == b'\n'
}

/// The calls that the header declares: what stands before a bracket at the start of a line.
fn declared() -> Vec<String> {
    let header = String::from_utf8(read("bindings/c/pepperknoll.h")).expect("the header is text");
    let name = |line: &str| {
        let (answer, call) = line.split_once('(')?.0.split_once(' ')?;
        let declared = answer.starts_with("uint") || answer == "size_t";
        declared.then(|| call.to_string())
    };
    header.lines().filter_map(name).collect()
}

#[test]
fn calls_are_found_by_what_they_answer() {
    let declared = declared();
    for name in [
        "pk_link_next",
        "pk_choose",
        "pk_frame_read",
        "pk_frame_fault",
    ] {
        assert!(declared.iter().any(|call| call == name), "{name}");
    }
}

#[test]
fn the_cases_make_every_call_and_meet_every_refusal() {
    let file = read("crates/call/stdin");
    let mut met = BTreeSet::new();
    for name in declared() {
        let made: Vec<_> = lines(&file)
            .filter(|line| Words::of(line).0 == name.as_bytes())
            .filter_map(|line| printed(line).ok())
            .collect();
        assert!(!made.is_empty(), "{name} is never made");
        if has_refusals(&name) {
            met.extend(made.iter().map(|printed| refusal_number(printed)));
        }
    }
    // 18 to 22 belong to calls that there are none of
    let wanted: BTreeSet<u8> = (0..=17).chain([23]).collect();
    assert_eq!(met, wanted, "refusals by their numbers");
}

/// Whether the last two digits of a call's answer are a refusal number.
fn has_refusals(name: &str) -> bool {
    let on_numbers = name.starts_with("pk_link_") || name.starts_with("pk_packet_");
    !on_numbers && !name.ends_with("_fault")
}

fn refusal_number(printed: &[u8]) -> u8 {
    let text = std::str::from_utf8(printed).expect("a call prints text");
    let answer = text.split(' ').next().expect("an answer comes first");
    u8::from_str_radix(&answer[answer.len() - 2..], 16).expect("an answer is hex")
}

/// The description has an example: three lines, and the three that are printed for them.
#[test]
fn the_example_of_the_description() {
    let text = String::from_utf8(read("docs/CALL.md")).expect("the description is text");
    let indented = text.lines().filter_map(|line| line.strip_prefix("    "));
    let example: Vec<&str> = indented
        .skip_while(|line| !line.starts_with('#'))
        .take(6)
        .collect();
    let (lines, printed) = example.split_at(3);
    let wanted = String::from_utf8(report(lines.join("\n").as_bytes())).unwrap();
    assert_eq!(wanted.lines().collect::<Vec<_>>(), printed);
}

/// Lines of the two calls that answer a position, and what is printed for each.
#[test]
fn positions() {
    for (line, wanted) in [
        ("pk_frame_fault 17 8000030000,00*5", "at 0"),
        ("pk_frame_fault 17 800002,00*7", "at 2"),
        ("pk_frame_fault 17 5809324,18DA206000000", "not a list"),
        ("pk_frame_fault 17 580932418DA206,00*3", "at 6"),
        ("pk_frame_fault 17 5C093241,00*16", "at 10"),
        ("pk_frame_fault 0 -", "at 0"),
        ("pk_frame_fault 17 FF*161", "at 161"),
        ("pk_frame_fault 17 80000A,FF*157", "at 152"),
        ("pk_frame_fault 18 -", "at 0"),
        ("pk_frame_fault 256 -", "number too large"),
        ("pk_frame_fault 17", "missing"),
        ("pk_frame_fault 17 - -", "too many arguments"),
        ("pk_message_fault 17 - - 0", "at 0"),
        ("pk_message_fault 17 - 00*7 0", "at 7"),
        ("pk_message_fault 17 0000000A 800004,00*7 1", "at 0"),
        ("pk_message_fault 17 0000000A 800004,00*7 0", "at 10"),
        ("pk_message_fault 17 0000000A C00004,00*7 65535", "at 0"),
        (
            "pk_message_fault 17 0000000A*2 C00003,00*7,811003,00*6,01 0",
            "at 19",
        ),
        (
            "pk_message_fault 17 0000000A*2 C00003,00*7,811003,00*7 0",
            "at 0",
        ),
        (
            "pk_message_fault 17 0000000A*2 C00003,00*7,821003,00*7 00000",
            "at 10",
        ),
        ("pk_message_fault 17 - - 100000", "not a number"),
        ("pk_message_fault 17 - - -", "not a number"),
    ] {
        match printed(line.as_bytes()) {
            Ok(printed) => assert_eq!(printed, wanted.as_bytes(), "{line}"),
            Err(reason) => assert!(reason.ends_with(wanted), "{line}: {reason}"),
        }
    }
}

#[test]
fn lines_of_a_file() {
    let report = |file: &[u8]| String::from_utf8(report(file)).unwrap();
    assert_eq!(report(b""), "");
    assert_eq!(report(b"\n"), "\n");
    assert_eq!(report(b"# a\n\n# b"), "# a\n\n# b\n");
    assert_eq!(report(b"\r\n"), "line 1: no such call\n");
}

#[test]
fn the_longest_line() {
    let mut line = b"pk_sender_in_order ".to_vec();
    line.extend(b"00*1,".repeat(13_103));
    line.push(b'0');
    assert_eq!(line.len(), LONGEST_LINE);
    assert_eq!(printed(&line), Err("argument 1: not a list".into()));
    line.push(b'0');
    assert_eq!(printed(&line), Err("longer than 65,535 bytes".into()));
}
