//! 02, point 1: entries of a generic NACK (RFC 4585, section 6.2.1), four bytes each, high byte first: a first number, and a mask of the
//! sixteen that follow it, the lowest bit for the next. An addition to the original, written from the document alone.

/// The entries of due extended numbers, which ascend.
pub fn write(due: &[u64]) -> Vec<u8> {
    let mut entries = Vec::new();
    let mut rest = due;
    while let [first, later @ ..] = rest {
        let named = later.iter().take_while(|number| **number <= first + 16);
        let mask = named
            .clone()
            .fold(0u16, |mask, number| mask | 1 << (number - first - 1));
        entries.extend((*first as u16).to_be_bytes());
        entries.extend(mask.to_be_bytes());
        rest = &later[named.count()..];
    }
    entries
}

/// The numbers that entries name, in order; refused where the list lent has too few places (15), or the bytes are no whole entries (17).
pub fn read(entries: &[u8], places: u64) -> Result<Vec<u16>, u8> {
    if places < 17 * (entries.len() as u64 / 4) {
        return Err(15);
    }
    if entries.len() % 4 != 0 {
        return Err(17);
    }
    let mut numbers = Vec::new();
    for entry in entries.chunks(4) {
        let first = u16::from_be_bytes([entry[0], entry[1]]);
        let mask = u16::from_be_bytes([entry[2], entry[3]]);
        let following = (0..16).filter(|bit| mask >> bit & 1 == 1);
        numbers.push(first);
        numbers.extend(following.map(|bit| first.wrapping_add(bit + 1)));
    }
    Ok(numbers)
}
