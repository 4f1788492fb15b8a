//! The payload of a set in its three regimes.

use crate::bits::{Bits, CodeCut, bytes_of, delta};

/// Why a payload is not that of a set: the first rule that it breaks, read from its front.
#[derive(Debug, Clone, PartialEq, Eq)]
pub enum NoSet {
    /// A code ends behind the payload.
    CodeCut { width: u128 },
    /// The bitmap ends behind the payload.
    BitmapCut,
    /// More ids are announced than there are colours.
    LenAbove(u128),
    /// An id, of which this was the code, is not below N.
    IdNotBelow { code: u128 },
    /// An absent id, of which this was the code, is not below N.
    AbsentNotBelow { code: u128 },
    /// The bitmap has these ids, which are not as many as announced.
    BitmapCount(Vec<u32>),
    /// A needless whole byte follows the set.
    Trailing(Vec<u32>),
    /// A padding bit is set behind the set.
    Padding(Vec<u32>),
}

impl From<CodeCut> for NoSet {
    fn from(cut: CodeCut) -> Self {
        NoSet::CodeCut { width: cut.width }
    }
}

#[derive(Debug, Clone, Copy, PartialEq, Eq)]
pub enum Regime {
    Sparse,
    Bitmap,
    Dense,
}

/// The regime of a set of `len` ids out of `n`.
pub fn regime(n: u32, len: u64) -> Regime {
    let n = u64::from(n);
    if len < n / 4 {
        Regime::Sparse
    } else if len < 3 * n / 4 {
        Regime::Bitmap
    } else {
        Regime::Dense
    }
}

/// The ids below `n` that are not among these, which ascend.
pub fn absent_from(n: u32, ids: &[u32]) -> Vec<u32> {
    let mut present = ids.iter().copied().peekable();
    (0..n)
        .filter(|id| present.next_if_eq(id).is_none())
        .collect()
}

/// delta of the first, then delta of each other's distance from the one before, less one.
fn gaps(ids: &[u32], bits: &mut Vec<bool>) {
    let mut next = 0;
    for &id in ids {
        delta(u64::from(id) - next, bits);
        next = u64::from(id) + 1;
    }
}

/// The payload of a set: ids below `n`, ascending.
pub fn encode_set(n: u32, ids: &[u32]) -> Vec<u8> {
    let mut bits = Vec::new();
    delta(ids.len() as u64, &mut bits);
    if !ids.is_empty() {
        match regime(n, ids.len() as u64) {
            Regime::Sparse => gaps(ids, &mut bits),
            Regime::Bitmap => {
                let start = bits.len();
                bits.resize(start + n as usize, false);
                for &id in ids {
                    bits[start + id as usize] = true;
                }
            }
            Regime::Dense => gaps(&absent_from(n, ids), &mut bits),
        }
    }
    bytes_of(&bits)
}

/// `count` ids below `n`, or the code of the first that is not.
fn read_gaps(bits: &mut Bits, n: u32, count: u64) -> Result<Result<Vec<u32>, u128>, CodeCut> {
    let mut ids = Vec::new();
    let mut next: u128 = 0;
    for _ in 0..count {
        let code = bits.delta()?;
        let id = next.saturating_add(code);
        if id >= u128::from(n) {
            return Ok(Err(code));
        }
        ids.push(id as u32);
        next = id + 1;
    }
    Ok(Ok(ids))
}

/// The set whose payload this is.
pub fn decode_set(n: u32, payload: &[u8]) -> Result<Vec<u32>, NoSet> {
    let mut bits = Bits::new(payload);
    let len = bits.delta()?;
    if len > u128::from(n) {
        return Err(NoSet::LenAbove(len));
    }
    let len = len as u64;
    let mut ids = Vec::new();
    if len > 0 {
        match regime(n, len) {
            Regime::Sparse => match read_gaps(&mut bits, n, len)? {
                Ok(read) => ids = read,
                Err(code) => return Err(NoSet::IdNotBelow { code }),
            },
            Regime::Bitmap => {
                if bits.left() < n as usize {
                    return Err(NoSet::BitmapCut);
                }
                for id in 0..n {
                    if bits.bit() == Some(true) {
                        ids.push(id);
                    }
                }
                if ids.len() as u64 != len {
                    return Err(NoSet::BitmapCount(ids));
                }
            }
            Regime::Dense => match read_gaps(&mut bits, n, u64::from(n) - len)? {
                Ok(absent) => ids = absent_from(n, &absent),
                Err(code) => return Err(NoSet::AbsentNotBelow { code }),
            },
        }
    }
    if bits.left() >= 8 {
        return Err(NoSet::Trailing(ids));
    }
    while let Some(bit) = bits.bit() {
        if bit {
            return Err(NoSet::Padding(ids));
        }
    }
    Ok(ids)
}
