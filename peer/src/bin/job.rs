//! Reads one job from standard input and prints its report.

use std::io::{self, Read, Write};

use peer::job::{job, MAX_BYTES};

fn main() -> io::Result<()> {
    // One byte past the limit is enough to know that a job is too long.
    let mut input = Vec::new();
    io::stdin()
        .lock()
        .take(MAX_BYTES as u64 + 1)
        .read_to_end(&mut input)?;
    io::stdout().lock().write_all(&job(&input))
}
