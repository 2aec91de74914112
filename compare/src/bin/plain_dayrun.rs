//! `plain-dayrun [FILE]`: play a day from a file or from standard input.

use plain::dayrun::{transcript, MOST_BYTES};
use std::fs::File;
use std::io::{self, Read, Write};

fn main() -> io::Result<()> {
    let mut bytes = Vec::new();
    let most = MOST_BYTES as u64;
    match std::env::args_os().nth(1) {
        Some(path) => File::open(path)?.take(most).read_to_end(&mut bytes)?,
        None => io::stdin().lock().take(most).read_to_end(&mut bytes)?,
    };
    io::stdout().lock().write_all(transcript(&bytes).as_bytes())
}
