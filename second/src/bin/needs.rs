//! An image on standard input; on standard output what it will need.

use std::io::{self, Read, Write};

fn main() -> io::Result<()> {
    let mut image = Vec::new();
    io::stdin().lock().read_to_end(&mut image)?;
    let mut out = io::stdout().lock();
    out.write_all(second::needs_text(&image).as_bytes())?;
    out.flush()
}
