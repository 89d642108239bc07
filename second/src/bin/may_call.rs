//! A pointer and an image on standard input; on standard output whether a call would pass.

use std::io::{self, Read, Write};

fn main() -> io::Result<()> {
    let mut bytes = Vec::new();
    io::stdin().lock().read_to_end(&mut bytes)?;
    let mut out = io::stdout().lock();
    out.write_all(second::may_call_text(&bytes).as_bytes())?;
    out.flush()
}
