//! The program "list" of document 01: a capture on standard input, its listing on standard output.

use std::io::{Read, Write};

fn main() -> std::io::Result<()> {
    let mut capture = Vec::new();
    // One byte past the limit is enough to know that a capture is too long.
    let most = second::captures::MOST_CAPTURE as u64 + 1;
    std::io::stdin().take(most).read_to_end(&mut capture)?;
    std::io::stdout().write_all(second::captures::list(&capture).as_bytes())
}
