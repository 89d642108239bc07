//! A table of brackets and an image on standard input; on standard output the image with the brackets set.

use std::io::{self, Read, Write};

fn main() -> io::Result<()> {
    let mut bytes = Vec::new();
    io::stdin().lock().read_to_end(&mut bytes)?;
    let mut out = io::stdout().lock();
    out.write_all(&second::brackets_output(&bytes))?;
    out.flush()
}
