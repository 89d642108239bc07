//! A stored image on standard input; on standard output the image that today's rules load alike.

use std::io::{self, Read, Write};

fn main() -> io::Result<()> {
    let mut old = Vec::new();
    io::stdin().lock().read_to_end(&mut old)?;
    let mut out = io::stdout().lock();
    out.write_all(&second::converted(&old))?;
    out.flush()
}
