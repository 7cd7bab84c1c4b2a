//! The seal (document 01, "The file, bit by bit"): a CRC with generator x^16 + x^12 + x^5 + 1,
//! start all ones, most significant bit first, nothing inverted at the end.

/// The generator without its x^16: bits 12, 5 and 0.
const GENERATOR: u16 = 1 << 12 | 1 << 5 | 1;

pub fn seal(bytes: &[u8]) -> u16 {
    let mut rest = 0xFFFF;
    for byte in bytes {
        for place in (0..8).rev() {
            rest = after_bit(rest, (byte >> place & 1) as u16);
        }
    }
    rest
}

/// One step of the division: the bit that leaves at the top, with the message's bit added,
/// decides whether the generator is taken away.
fn after_bit(rest: u16, bit: u16) -> u16 {
    if rest >> 15 != bit {
        rest << 1 ^ GENERATOR
    } else {
        rest << 1
    }
}
