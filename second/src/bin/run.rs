//! An image on standard input, its listing on standard output.

use std::io::{self, BufWriter, Read, Write};

fn main() -> io::Result<()> {
    let mut image = Vec::new();
    io::stdin().lock().read_to_end(&mut image)?;
    let mut text = BufWriter::new(io::stdout().lock());
    second::list(&image, &mut text)?;
    text.flush()
}
