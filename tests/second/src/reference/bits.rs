//! Bytes as a string of the characters 0 and 1, first bit first, and fields cut out of that string.

/// The bits of the bytes, most significant bit of each byte first.
pub fn string_of(bytes: &[u8]) -> String {
    let mut text = String::with_capacity(8 * bytes.len());
    for byte in bytes {
        for place in (0..8).rev() {
            text.push(if byte & (1 << place) != 0 { '1' } else { '0' });
        }
    }
    text
}

/// The bytes of the bits, the last byte filled with zero bits.
pub fn bytes_of(text: &str) -> Vec<u8> {
    let mut filled = text.to_string();
    while filled.len() % 8 != 0 {
        filled.push('0');
    }
    (0..filled.len() / 8).map(|k| u8::from_str_radix(&filled[8 * k..8 * k + 8], 2).expect("eight bits")).collect()
}

/// `value` in `width` bits.
pub fn field(value: u64, width: usize) -> String {
    let text = format!("{value:0width$b}");
    assert!(text.len() == width, "{value} does not fit {width} bits");
    text
}

/// A string of bits that is read from the front.
pub struct Tape {
    text: String,
    at: usize,
}

impl Tape {
    pub fn new(bytes: &[u8]) -> Tape {
        Tape { text: string_of(bytes), at: 0 }
    }

    /// Whether `width` bits are left.
    pub fn holds(&self, width: usize) -> bool {
        self.text.len() - self.at >= width
    }

    /// The next field. Its bits must be there.
    pub fn take(&mut self, width: usize) -> u64 {
        let value = u64::from_str_radix(&self.text[self.at..self.at + width], 2).expect("bits");
        self.at += width;
        value
    }

    /// The bits that were not taken.
    pub fn rest(&self) -> &str {
        &self.text[self.at..]
    }
}
