//! The program for stored images: ST gets the switch and both segments, of the WDs it keeps the last of each address.

use crate::image::{read_stored_image, records, Record, Rules};

/// ME, ST with five zero bytes more, RN, and the last WD of each address, each where it stood; or the number by which the
/// stored rules refuse the image.
pub fn convert(old: &[u8]) -> Result<Vec<u8>, u8> {
    let stored = read_stored_image(old)?;
    // By address, the place of its last WD among the records. 44 has passed: every address is below ME's number.
    let mut last = vec![0; stored.memory.len()];
    for (place, (record, _)) in records(old, Rules::Stored).enumerate() {
        if let Record::Wd { address, .. } = record {
            last[address as usize] = place;
        }
    }
    let mut new = Vec::new();
    for (place, (record, bytes)) in records(old, Rules::Stored).enumerate() {
        match record {
            Record::Wd { address, .. } if last[address as usize] != place => {}
            Record::St { .. } => {
                new.extend_from_slice(bytes);
                new.extend([0; 5]);
            }
            _ => new.extend_from_slice(bytes),
        }
    }
    Ok(new)
}

/// What the program writes.
pub fn converted(old: &[u8]) -> Vec<u8> {
    convert(old).unwrap_or_else(|number| format!("refused {number}\n").into_bytes())
}
