//! The replay program on the scripts of this repository: the reports that stand beside them.

use std::fs;
use std::io::BufReader;
use std::path::{Path, PathBuf};

fn in_repository(path: &str) -> PathBuf {
    Path::new(env!("CARGO_MANIFEST_DIR"))
        .join("../../..")
        .join(path)
}

fn read(path: &Path) -> Vec<u8> {
    fs::read(path).unwrap_or_else(|error| panic!("{}: {error}", path.display()))
}

/// The report on a script of which so many bytes are read at a time.
fn report(script: &[u8], at_a_time: usize) -> String {
    let mut report = Vec::new();
    let script = BufReader::with_capacity(at_a_time, script);
    plain::replay::replay(script, &mut report).expect("nothing fails in memory");
    String::from_utf8(report).expect("a report is text")
}

fn check(script: &Path, wanted: &Path) {
    let (script_bytes, wanted) = (read(script), read(wanted));
    for at_a_time in [1, 7, 4096] {
        let wanted = String::from_utf8_lossy(&wanted);
        assert_eq!(
            report(&script_bytes, at_a_time),
            wanted,
            "{}",
            script.display()
        );
    }
}

#[test]
fn every_example() {
    let folder = in_repository("examples/replay");
    let mut scripts = 0;
    for entry in fs::read_dir(folder).expect("the examples are there") {
        let script = entry.expect("it can be read").path();
        if script.extension().is_some_and(|end| end == "txt") {
            check(&script, &script.with_extension("out"));
            scripts += 1;
        }
    }
    assert!(scripts > 0);
}

#[test]
fn the_case_that_the_gate_runs() {
    let script = in_repository("crates/replay/stdin");
    check(&script, &in_repository("crates/replay/stdout"));
}

#[test]
fn the_whole_case_of_the_rules() {
    let script = b"A 2 7\nA 0 5\nA 1 6\nA 2 7\nE 4\n";
    let wanted = "nesn held clocks result\n\
                  0 1 1 -\n1 1 1 5\n3 0 0 6 7\n3 0 0 old\n3 0 0 refused 7\n";
    assert_eq!(report(script, 4096), wanted);
}

#[test]
fn lines_that_are_malformed_or_out_of_range() {
    let result = |line: &str| {
        let report = report(line.as_bytes(), 4096);
        let printed = report.lines().nth(1).expect("one event, one line");
        printed.strip_prefix("0 0 0 ").map(str::to_owned)
    };
    let long = format!("A 1 {}", "0".repeat(100_000));
    for line in [
        "\n",
        " A 0 1",
        "A 0 1 ",
        "A  0 1",
        "A 0 1\r\n",
        "A\t0 1",
        "a 0 1",
        "A 0",
        "A 0 1 2",
        "E",
        "E 0 1",
        "E 000002",
        "A +1 2",
        "A 1 65536",
        "A 99999 1",
        "AA 0 1",
        "A",
        &long,
    ] {
        assert_eq!(result(line).as_deref(), Some("refused 2"), "{line:?}");
    }
    for line in ["A 64 1", "A 256 1", "A 65535 1", "E 64", "E 320"] {
        assert_eq!(result(line).as_deref(), Some("refused 1"), "{line:?}");
    }
    assert_eq!(
        report(b"A 00002 00007", 4096).lines().nth(1),
        Some("0 1 1 -")
    );
    assert_eq!(report(b"", 4096), "nesn held clocks result\n");
}
