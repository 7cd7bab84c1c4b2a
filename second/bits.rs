//! Packed fields (document 01, "The file, bit by bit": packed most significant bit first with no
//! gaps).

/// Takes fields out of bytes, from the front. The caller sees to it that the bytes last.
pub struct Taker<'a> {
    bytes: &'a [u8],
    at: usize,
}

impl<'a> Taker<'a> {
    pub fn new(bytes: &'a [u8]) -> Taker<'a> {
        Taker { bytes, at: 0 }
    }

    pub fn take(&mut self, width: usize) -> u32 {
        let mut value = 0;
        for _ in 0..width {
            value = value << 1 | self.bit();
        }
        value
    }

    /// How many bits are left in the byte that the last field ended in.
    pub fn left_in_byte(&self) -> usize {
        (8 - self.at % 8) % 8
    }

    fn bit(&mut self) -> u32 {
        let byte = self.bytes[self.at / 8];
        let bit = byte >> (7 - self.at % 8) & 1;
        self.at += 1;
        bit as u32
    }
}

/// Puts fields behind each other.
#[derive(Default)]
pub struct Putter {
    bytes: Vec<u8>,
    at: usize,
}

impl Putter {
    pub fn put(&mut self, value: u32, width: usize) {
        for place in (0..width).rev() {
            self.put_bit(value >> place & 1);
        }
    }

    /// The bytes put so far; a byte begun is filled with zero bits to its end.
    pub fn bytes(self) -> Vec<u8> {
        self.bytes
    }

    fn put_bit(&mut self, bit: u32) {
        if self.at % 8 == 0 {
            self.bytes.push(0);
        }
        self.bytes[self.at / 8] |= (bit as u8) << (7 - self.at % 8);
        self.at += 1;
    }
}
