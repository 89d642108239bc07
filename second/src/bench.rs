//! The call of the bench's firmware: an image and a text buffer, both as bytes.

use crate::image::read_image;
use crate::listing::list_run;

/// Puts the listing at the start of `text` and answers its length, or answers the number, negated, of the question that
/// refused. Bytes after the text, and on refusal all, keep what they held.
pub fn bench(image: &[u8], text: &mut [u8]) -> i64 {
    let image = match read_image(image) {
        Ok(image) => image,
        Err(number) => return -i64::from(number),
    };
    // 45: has the buffer 64 × (budget + 1) bytes?
    if (text.len() as u64) < 64 * (u64::from(image.budget) + 1) {
        return -45;
    }
    let held = text.len();
    let mut rest = text;
    match list_run(image, &mut rest) {
        Ok(()) => (held - rest.len()) as i64,
        // Not reached: no line is longer than 64 bytes.
        Err(_) => -45,
    }
}
