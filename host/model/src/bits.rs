//! Bits and codes. Bit i of a stream is bit i mod 8 of byte i div 8, lowest first; the end is padded with zero bits.

/// The bytes of a stream of bits.
pub fn bytes_of(bits: &[bool]) -> Vec<u8> {
    let mut bytes = vec![0; bits.len().div_ceil(8)];
    for (i, &bit) in bits.iter().enumerate() {
        bytes[i / 8] |= u8::from(bit) << (i % 8);
    }
    bytes
}

/// The low `count` bits of a number, lowest first.
fn low_bits(value: u64, count: u32, bits: &mut Vec<bool>) {
    for i in 0..count {
        bits.push((value >> i) & 1 == 1);
    }
}

/// gamma(v): with s = v + 1 and b its highest set bit, b zeros, a one, then the low b bits of s.
pub fn gamma(value: u64, bits: &mut Vec<bool>) {
    let s = value + 1;
    let b = s.ilog2();
    for _ in 0..b {
        bits.push(false);
    }
    bits.push(true);
    low_bits(s, b, bits);
}

/// delta(v): gamma(b), then the low b bits of s.
pub fn delta(value: u64, bits: &mut Vec<bool>) {
    let s = value + 1;
    let b = s.ilog2();
    gamma(u64::from(b), bits);
    low_bits(s, b, bits);
}

/// A code that ends behind the stream. `width` is the number of bits that should follow at the place where it breaks off,
/// as far as the stream tells it.
#[derive(Debug, Clone, Copy, PartialEq, Eq)]
pub struct CodeCut {
    pub width: u128,
}

/// A place in a stream of bits.
pub struct Bits<'a> {
    bytes: &'a [u8],
    at: usize,
}

impl<'a> Bits<'a> {
    pub fn new(bytes: &'a [u8]) -> Self {
        Bits { bytes, at: 0 }
    }

    /// How many bits are left.
    pub fn left(&self) -> usize {
        self.bytes.len() * 8 - self.at
    }

    pub fn bit(&mut self) -> Option<bool> {
        let byte = self.bytes.get(self.at / 8)?;
        let bit = (byte >> (self.at % 8)) & 1 == 1;
        self.at += 1;
        Some(bit)
    }

    /// The number whose highest set bit is `width` and whose low bits come next. A number of more than 120 bits is given as
    /// the largest there is: no limit of the specification is that high.
    fn topped(&mut self, width: u128) -> Result<u128, CodeCut> {
        if (self.left() as u128) < width {
            return Err(CodeCut { width });
        }
        let mut s = if width <= 120 { 1 << width } else { u128::MAX };
        for i in 0..width {
            if self.bit() == Some(true) && width <= 120 {
                s |= 1 << i;
            }
        }
        Ok(s)
    }

    pub fn gamma(&mut self) -> Result<u128, CodeCut> {
        let mut zeros = 0;
        loop {
            match self.bit() {
                None => return Err(CodeCut { width: 0 }),
                Some(true) => break,
                Some(false) => zeros += 1,
            }
        }
        Ok(self.topped(zeros)? - 1)
    }

    pub fn delta(&mut self) -> Result<u128, CodeCut> {
        let b = self.gamma()?;
        Ok(self.topped(b)? - 1)
    }
}
