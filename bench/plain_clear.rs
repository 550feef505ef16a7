// Reads a bid file on standard input and prints its listing.

#[allow(dead_code)]
mod plain;

use std::io::{self, Read, Write};
use std::process::ExitCode;

// One byte more than a file may have is enough to know that it is too long.
fn run() -> io::Result<()> {
    let mut bytes = Vec::with_capacity(plain::MOST_BYTES + 1);
    io::stdin().lock().take(plain::MOST_BYTES as u64 + 1).read_to_end(&mut bytes)?;
    let mut out = io::stdout().lock();
    out.write_all(&plain::listing(&bytes))?;
    out.flush()
}

fn main() -> ExitCode {
    match run() {
        Ok(()) => ExitCode::SUCCESS,
        Err(error) => {
            eprintln!("plain_clear: {error}");
            ExitCode::FAILURE
        }
    }
}
