//! Length prefixes, records and the index of a record file.

use crate::sets::{decode_set, encode_set};
use crate::{MAX_COLORS, Why};

/// LEB128: seven bits a byte, low group first, 80 (hexadecimal) set on all but the last.
pub fn prefix_of(value: u32) -> Vec<u8> {
    let mut bytes = Vec::new();
    let mut rest = value;
    while rest > 127 {
        bytes.push((rest % 128) as u8 + 128);
        rest /= 128;
    }
    bytes.push(rest as u8);
    bytes
}

/// The value of a prefix, and its length.
pub fn read_prefix(bytes: &[u8]) -> Result<(u32, usize), Why> {
    let front = &bytes[..bytes.len().min(5)];
    let Some(last) = front.iter().position(|&byte| byte < 128) else {
        return Err(if front.len() < 5 {
            Why::PrefixCut
        } else {
            Why::PrefixEndless
        });
    };
    if last > 0 && front[last] == 0 {
        return Err(Why::PrefixNeedless);
    }
    let mut value = 0;
    for &byte in front[..=last].iter().rev() {
        value = value * 128 + u64::from(byte % 128);
    }
    match u32::try_from(value) {
        Ok(value) => Ok((value, last + 1)),
        Err(_) => Err(Why::PrefixWide),
    }
}

/// The record of a set.
pub fn record_of(n: u32, ids: &[u32]) -> Vec<u8> {
    let payload = encode_set(n, ids);
    let mut record = prefix_of(payload.len() as u32);
    record.extend(payload);
    record
}

fn limit_colors(n: u32) -> Result<(), Why> {
    if n == 0 || n > MAX_COLORS {
        return Err(Why::Colors);
    }
    Ok(())
}

/// Whether the ids ascend strictly and stay below `n`.
pub fn limit_ids(n: u32, ids: &[u32]) -> Result<(), Why> {
    for (i, &id) in ids.iter().enumerate() {
        if i > 0 && id <= ids[i - 1] {
            return Err(Why::NotAscending);
        }
        if id >= n {
            return Err(Why::NotBelow);
        }
    }
    Ok(())
}

/// The bytes to write: 1, 2.
pub fn write_record(n: u32, ids: &[u32]) -> Result<Vec<u8>, Why> {
    limit_colors(n)?;
    limit_ids(n, ids)?;
    Ok(record_of(n, ids))
}

/// The ids of the record at the front, and the bytes it takes, whatever `n` is: 4, 5.
pub fn read_any(n: u32, input: &[u8]) -> Result<(Vec<u32>, u64), Why> {
    let (len, start) = read_prefix(input)?;
    let Some(payload) = input[start..].get(..len as usize) else {
        return Err(Why::PayloadCut);
    };
    let ids = decode_set(n, payload).map_err(Why::Payload)?;
    Ok((ids, start as u64 + u64::from(len)))
}

/// The ids to give, and the bytes taken: 1, 4, 5.
pub fn read_record(n: u32, input: &[u8]) -> Result<(Vec<u32>, u64), Why> {
    limit_colors(n)?;
    read_any(n, input)
}

/// The first test of an index: 3, fewer than `count + 1` entries.
pub fn index_fits(count: u64, entries: usize) -> Result<(), Why> {
    if entries as u64 <= count {
        return Err(Why::Space);
    }
    Ok(())
}

/// The start of each record and the end of the last: record by record 4 or 5.
pub fn make_index(bytes: &[u8], count: u64) -> Result<Vec<u64>, Why> {
    let mut entries = vec![0];
    let mut at = 0;
    for _ in 0..count {
        let (len, prefix) = read_prefix(&bytes[at..])?;
        let start = at + prefix;
        if bytes.len() - start < len as usize {
            return Err(Why::PayloadCut);
        }
        at = start + len as usize;
        entries.push(at as u64);
    }
    Ok(entries)
}
