//! The replay program over this crate's resequencer: the script on standard input, the report on
//! standard output, both buffered. `bindings/rust/replay-speed` measures the proved one beside it.

use std::io::{self, BufReader, BufWriter};

/// So much is read and written at a time.
const BUFFER: usize = 64 * 1024;

fn main() -> io::Result<()> {
    let script = BufReader::with_capacity(BUFFER, io::stdin().lock());
    let report = BufWriter::with_capacity(BUFFER, io::stdout().lock());
    plain::replay::replay(script, report)
}
