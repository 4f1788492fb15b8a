//! Calls of the reference on plain numbers and bytes, for a comparison that must survive whatever the reference does.
//!
//! This file is not part of the reference. It has to stand in this crate: code of a generic function is made in the crate
//! that calls it and follows that crate's overflow checks, and `oracle_debug` is to have its own.

use crate::color::{self, BitReader, ColorWorkerWriter};
use crate::state::{ColorCoordinate, UnitigColor};
use std::cell::Cell;
use std::io::Result;
use std::panic::{AssertUnwindSafe, catch_unwind};

/// What a call of the reference came to. The outer error is a panic. `None`: the call was not made, since it would end
/// the process (a failed allocation aborts, and nothing can catch that) or take minutes.
pub type Caught<T> = Option<std::thread::Result<Result<T>>>;

/// More items than this are not asked of the reference where it would set aside space for them at once.
const MANY: u64 = 1 << 24;

/// The same for the bytes of a payload.
const LARGE: u32 = 1 << 30;

thread_local! {
    static DRIVING: Cell<bool> = const { Cell::new(false) };
}

/// Whether this thread is inside a call of the reference, whose panics are caught.
pub fn driving() -> bool {
    DRIVING.get()
}

fn catch<T>(call: impl FnOnce() -> T) -> std::thread::Result<T> {
    DRIVING.set(true);
    let caught = catch_unwind(AssertUnwindSafe(call));
    DRIVING.set(false);
    caught
}

fn caught<T>(call: impl FnOnce() -> Result<T>) -> Caught<T> {
    Some(catch(call))
}

fn unpacked(words: &[u64]) -> Vec<UnitigColor> {
    words
        .iter()
        .map(|&w| UnitigColor::new((w & 0xff_ffff) as u32, ColorCoordinate::from_u40(w >> 24)))
        .collect()
}

fn packed(runs: &[UnitigColor]) -> Vec<u64> {
    runs.iter().map(|run| run.raw()).collect()
}

/// The record of a set.
#[inline(never)]
pub fn write_record(n: u32, ids: &[u32]) -> Caught<Vec<u8>> {
    // The dense regime walks every number below each id.
    let dense = ids.len() as u64 >= u64::from(n) * 3 / 4;
    if dense && ids.iter().any(|&id| u64::from(id) > MANY) {
        return None;
    }
    caught(|| {
        let mut writer = ColorWorkerWriter::default();
        color::write_color_record(&mut writer, ids, n)?;
        Ok(writer.output)
    })
}

/// Whether reading this record would set aside more than can be counted on: space for the payload and then for as many ids
/// as it announces is taken before anything is tested.
fn asks_too_much(mut input: &[u8]) -> bool {
    let Ok(len) = color::read_varint(&mut input) else {
        return false;
    };
    if len > LARGE {
        return true;
    }
    // A payload that is cut is refused before its ids are counted.
    let Some(payload) = input.get(..len as usize) else {
        return false;
    };
    let announced = catch(|| color::read_delta(&mut BitReader::new(payload)));
    matches!(announced, Ok(Ok(ids)) if ids > MANY)
}

/// The ids of a record, and the bytes taken.
#[inline(never)]
pub fn read_record(n: u32, input: &[u8]) -> Caught<(Vec<u32>, u64)> {
    if asks_too_much(input) {
        return None;
    }
    caught(|| {
        let mut rest = input;
        let ids = color::read_color_record(&mut rest, n)?;
        Ok((ids, (input.len() - rest.len()) as u64))
    })
}

/// `read_record` without the test for an abort: the process may end here.
pub fn read_record_unguarded(n: u32, mut input: &[u8]) -> Result<Vec<u32>> {
    color::read_color_record(&mut input, n)
}

/// The index of a record file.
#[inline(never)]
pub fn make_index(bytes: &[u8], count: u64) -> Caught<Vec<u64>> {
    if count > MANY {
        return None;
    }
    caught(|| {
        let mut rest = bytes;
        color::index_worker(&mut rest, count as u32)
    })
}

#[inline(never)]
pub fn reverse_runs(runs: &[u64], n: u32) -> Caught<Vec<u64>> {
    caught(|| Ok(packed(&color::reverse_color_runs(&unpacked(runs), n))))
}

#[inline(never)]
pub fn reverse_runs_in_place(runs: &[u64], n: u32) -> Caught<Vec<u64>> {
    caught(|| {
        let mut runs = unpacked(runs);
        color::reverse_color_runs_in_place(&mut runs, n);
        Ok(packed(&runs))
    })
}

/// The output's runs and those appended.
#[inline(never)]
pub fn append_runs(
    output: &[u64],
    output_count: u32,
    piece: &[u64],
    piece_count: u32,
    reverse: bool,
) -> Caught<Vec<u64>> {
    caught(|| {
        let mut output = unpacked(output);
        color::append_color_runs(
            &mut output,
            output_count,
            &unpacked(piece),
            piece_count,
            reverse,
        );
        Ok(packed(&output))
    })
}

#[inline(never)]
pub fn rotate_runs(runs: &[u64], n: u32, pivot: u32, reverse: bool) -> Caught<Vec<u64>> {
    // One number for each vertex is set aside.
    if u64::from(n) > MANY + 1 {
        return None;
    }
    caught(|| {
        let turned = color::rotate_cycle_color_runs(&unpacked(runs), n, pivot, reverse);
        Ok(packed(&turned))
    })
}

#[inline(never)]
pub fn write_runs(runs: &[u64]) -> Caught<Vec<u8>> {
    caught(|| {
        let mut output = Vec::new();
        color::write_unitig_color_runs(&mut output, &unpacked(runs))?;
        Ok(output)
    })
}

/// Whether the reference fails to write a list that is too long to be copied for it.
pub fn refuses_runs(runs: &[u64]) -> bool {
    // SAFETY: `UnitigColor` is a transparent struct of one u64.
    let runs =
        unsafe { std::slice::from_raw_parts(runs.as_ptr().cast::<UnitigColor>(), runs.len()) };
    color::write_unitig_color_runs(&mut std::io::sink(), runs).is_err()
}

/// The runs, and the bytes taken.
#[inline(never)]
pub fn read_runs(bytes: &[u8]) -> Caught<(Vec<u64>, u64)> {
    caught(|| {
        let mut rest = bytes;
        let mut runs = Vec::new();
        color::read_unitig_color_runs(&mut rest, &mut runs)?;
        Ok((packed(&runs), (bytes.len() - rest.len()) as u64))
    })
}

/// What `read_unitig_color_runs` leaves in the list that it is lent where it fails.
pub fn runs_left_behind(mut bytes: &[u8], before: &[u64]) -> Vec<u64> {
    let mut runs = unpacked(before);
    let read = color::read_unitig_color_runs(&mut bytes, &mut runs);
    assert!(read.is_err());
    packed(&runs)
}

/// The value of a length prefix, and its length, by both readers of the reference: where they differ this panics.
#[inline(never)]
pub fn read_prefix(bytes: &[u8]) -> Caught<(u32, u64)> {
    caught(|| {
        let mut rest = bytes;
        let value = color::read_varint(&mut rest).map_err(|error| error.kind());
        let taken = bytes.len() - rest.len();
        let with_len = color::read_varint_len(&mut &bytes[..]).map_err(|error| error.kind());
        assert_eq!(value.map(|value| (value, taken)), with_len);
        let (value, len) = with_len?;
        Ok((value, len as u64))
    })
}

/// A length prefix, by both writers of the reference: where they differ this panics.
#[inline(never)]
pub fn write_prefix(value: u32) -> Caught<Vec<u8>> {
    caught(|| {
        let mut written = Vec::new();
        color::write_varint(&mut written, value)?;
        let mut appended = Vec::new();
        color::append_varint_u32(&mut appended, value);
        assert_eq!(written, appended);
        Ok(written)
    })
}

/// The padded bytes of a gamma code, or of a delta code.
pub fn code_bytes(delta: bool, value: u64) -> Vec<u8> {
    let mut out = color::BitWriter::default();
    if delta {
        color::write_delta(&mut out, value);
    } else {
        color::write_gamma(&mut out, value);
    }
    out.finish().to_vec()
}

// For the benchmark: the generic functions on slices, compiled in this crate as the reference's callers are in its own.
// Elsewhere the small functions under them would not be inlined.

#[inline(never)]
pub fn read_color_record(mut input: &[u8], num_colors: u32) -> Result<Vec<u32>> {
    color::read_color_record(&mut input, num_colors)
}

#[inline(never)]
pub fn index_worker(mut input: &[u8], count: u32) -> Result<Vec<u64>> {
    color::index_worker(&mut input, count)
}

#[inline(never)]
pub fn write_unitig_color_runs(output: &mut Vec<u8>, colors: &[UnitigColor]) -> Result<()> {
    color::write_unitig_color_runs(output, colors)
}

#[inline(never)]
pub fn read_unitig_color_runs(mut input: &[u8], colors: &mut Vec<UnitigColor>) -> Result<()> {
    color::read_unitig_color_runs(&mut input, colors)
}
