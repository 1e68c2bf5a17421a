//! The messages that are measured, as functions of their sizes.
//!
//! Each has one byte behind its reading.

/// Two bytes that look random, from a number.
fn scrambled(number: usize) -> [u8; 2] {
    ((number as u32 + 1).wrapping_mul(2_654_435_761) >> 16).to_be_bytes()[2..].try_into().unwrap_or_default()
}

/// `{ n : u16, pts : i16[n] }`, of at most 32,766 points.
pub fn trace(points: u16) -> Vec<u8> {
    let mut message = points.to_be_bytes().to_vec();
    for k in 0..usize::from(points) {
        message.extend(scrambled(k));
    }
    message.push(0x7f);
    message
}

/// `{ m : u16, recs : { k : u8, vals : u16[k] }[m] }`, of at most 8,191 records, with k from 0 to 7.
pub fn records(count: u16) -> Vec<u8> {
    let mut message = count.to_be_bytes().to_vec();
    for record in 0..usize::from(count) {
        let values = record * 5 % 8;
        message.push(values as u8);
        for value in 0..values {
            message.extend(scrambled(8 * record + value));
        }
    }
    message.push(0x7f);
    message
}

/// `{ m : u16, pad : u8[m], flag : bool, items : alt(flag, u8, u16)[m] }`, the flag true, with m at most 32,765.
pub fn lookups(count: u16) -> Vec<u8> {
    let mut message = count.to_be_bytes().to_vec();
    message.extend((0..usize::from(count)).map(|k| scrambled(k)[0]));
    message.push(1);
    message.extend((0..usize::from(count)).map(|k| scrambled(k)[1]));
    message.push(0x7f);
    message
}
