//! A direction and descriptors on standard input; on standard output the descriptors converted.

use std::io::{self, Read, Write};
use std::process::ExitCode;

fn main() -> io::Result<ExitCode> {
    let mut bytes = Vec::new();
    io::stdin().lock().read_to_end(&mut bytes)?;
    match second::old_words_output(&bytes) {
        Ok(output) => {
            let mut out = io::stdout().lock();
            out.write_all(&output)?;
            out.flush()?;
            Ok(ExitCode::SUCCESS)
        }
        Err(unread) => {
            eprintln!("old_words: {unread}");
            Ok(ExitCode::FAILURE)
        }
    }
}
