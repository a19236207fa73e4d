// The analysis of a receiver script in plain Rust: a script on standard input, its report on standard output.
//
// The method is that of the crates of this repository, so that the two can be measured side by side.
mod analysis;
mod books;
mod kinds;
mod reader;
mod report;
mod words;

use std::io::{self, Read, Write};
use std::process::ExitCode;

// One byte past the limit of a script tells that it is too long.
const ENOUGH: u64 = reader::MOST_BYTES as u64 + 1;

fn main() -> io::Result<ExitCode> {
    let mut script = Vec::new();
    io::stdin().take(ENOUGH).read_to_end(&mut script)?;
    let (text, status) = match report::report(&script) {
        Ok(report) => (report, ExitCode::SUCCESS),
        Err(refusal) => (format!("{refusal}\n"), ExitCode::FAILURE),
    };
    io::stdout().write_all(text.as_bytes())?;
    Ok(status)
}
