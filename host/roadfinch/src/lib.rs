//! Safe Rust functions over Roadfinch's proved record and run operations.
//!
//! A *record* holds a set of ids below a colour count N: a length prefix and a payload in one of three regimes. A *run* is
//! one 64-bit number: the low 24 bits are the offset, the first vertex that it colours, and the high 40 its coordinate
//! ([`run`], [`offset`], [`coordinate`]). For a vertex count n a run list is *steady* if it is empty, or starts at offset 0,
//! never descends and has no offset above n; it is *sharp* if it is not empty, starts at 0, ascends strictly and stays
//! below n.
//!
//! Nothing here allocates: every result goes to the front of memory that the caller lends. Each function is total. It
//! succeeds and alters only what its comment names, or it answers a [`Refusal`] and has altered nothing.
//!
//! ```
//! let mut record = [0; 16];
//! let len = roadfinch::write_record(8, &[0, 7], &mut record)?;
//! assert_eq!(record[..len], [0x02, 0x1A, 0x08]);
//!
//! let mut ids = [0; 8];
//! let read = roadfinch::read_record(8, &record, &mut ids)?;
//! assert_eq!(ids[..read.items], [0, 7]);
//! assert_eq!(read.bytes, len);
//!
//! assert_eq!(roadfinch::write_record(8, &[7, 0], &mut record), Err(roadfinch::Refusal::Ids));
//! # Ok::<(), roadfinch::Refusal>(())
//! ```

pub mod raw;
mod refusal;

pub use refusal::Refusal;

/// The most colours that a set may be chosen from.
pub const MAX_COLORS: u32 = 1_048_576;

/// The most vertices that a run list may have.
pub const MAX_VERTICES: u32 = 16_777_215;

/// What a read came to.
#[derive(Debug, Clone, Copy, PartialEq, Eq)]
pub struct Read {
    /// The items given.
    pub items: usize,
    /// The bytes of the input that they were read from.
    pub bytes: usize,
}

/// What an append came to.
#[derive(Debug, Clone, Copy, PartialEq, Eq)]
pub struct Appended {
    /// The runs that the output has now.
    pub runs: usize,
    /// Its vertices.
    pub vertices: u32,
}

/// The bytes that the record of any set out of `n` colours fits into: a payload has at most 4 (n + 1) bytes.
pub const fn max_record_len(n: u32) -> usize {
    5 + 4 * (n as usize + 1)
}

/// A run, or none where the offset takes more than 24 bits or the coordinate more than 40.
pub const fn run(offset: u32, coordinate: u64) -> Option<u64> {
    if offset < 1 << 24 && coordinate < 1 << 40 {
        Some(coordinate << 24 | offset as u64)
    } else {
        None
    }
}

/// The first vertex of a run.
pub const fn offset(run: u64) -> u32 {
    (run & 0xff_ffff) as u32
}

/// The coordinate of a run.
pub const fn coordinate(run: u64) -> u64 {
    run >> 24
}

/// Success, or the refusal with this number.
fn accepted(code: u32) -> Result<(), Refusal> {
    match code {
        0 => Ok(()),
        _ => Err(Refusal::from_number(code).expect("the archive answers 0 or a refusal's number")),
    }
}

// SAFETY, for every call below: no C function asks anything of its caller beyond what a slice or a reference is. The
// pointers come from live slices with their own lengths, and those that are written through are exclusive.

/// Writes the record of a set to the front of `out`; the bytes written.
///
/// Refuses: [`Colors`](Refusal::Colors), `n` outside 1 to [`MAX_COLORS`]; [`Ids`](Refusal::Ids), ids not strictly ascending
/// or one not below `n`; [`Space`](Refusal::Space), `out` too short.
pub fn write_record(n: u32, ids: &[u32], out: &mut [u8]) -> Result<usize, Refusal> {
    let mut written = 0;
    accepted(unsafe {
        raw::rf_write_record(
            n,
            ids.as_ptr(),
            ids.len(),
            out.as_mut_ptr(),
            out.len(),
            &mut written,
        )
    })?;
    Ok(written as usize)
}

/// Reads the record at the front of `input` to the front of `ids`. Later bytes of the input are ignored.
///
/// Refuses: [`Colors`](Refusal::Colors) as above; [`Cut`](Refusal::Cut), the length prefix or the payload ends behind the
/// input; [`Damaged`](Refusal::Damaged), the prefix is no written one, or the payload is that of no set;
/// [`Space`](Refusal::Space), `ids` too short.
pub fn read_record(n: u32, input: &[u8], ids: &mut [u32]) -> Result<Read, Refusal> {
    let (mut given, mut taken) = (0, 0);
    accepted(unsafe {
        raw::rf_read_record(
            n,
            input.as_ptr(),
            input.len(),
            ids.as_mut_ptr(),
            ids.len(),
            &mut given,
            &mut taken,
        )
    })?;
    Ok(Read {
        items: given as usize,
        bytes: taken as usize,
    })
}

/// Writes the start of each of the first `count` records of a file, and the end of the last, to the front of `out`:
/// `count + 1` entries. Payloads are skipped, not judged.
///
/// Refuses: [`Space`](Refusal::Space), `out` has fewer than `count + 1` entries; then, by the first record that is not
/// whole, [`Cut`](Refusal::Cut) or [`Damaged`](Refusal::Damaged).
pub fn make_index(bytes: &[u8], count: u64, out: &mut [u64]) -> Result<(), Refusal> {
    accepted(unsafe {
        raw::rf_make_index(
            bytes.as_ptr(),
            bytes.len(),
            count,
            out.as_mut_ptr(),
            out.len(),
        )
    })
}

/// Writes a steady list as read from its other end to the front of `out`; its number of runs.
///
/// Refuses: [`Vertices`](Refusal::Vertices), `n` above [`MAX_VERTICES`]; [`Runs`](Refusal::Runs), not steady;
/// [`Space`](Refusal::Space), `out` too short.
pub fn reverse_runs(runs: &[u64], n: u32, out: &mut [u64]) -> Result<usize, Refusal> {
    let mut count = 0;
    accepted(unsafe {
        raw::rf_reverse_runs(
            runs.as_ptr(),
            runs.len(),
            n,
            out.as_mut_ptr(),
            out.len(),
            &mut count,
        )
    })?;
    Ok(count as usize)
}

/// [`reverse_runs`] in the list's own place.
///
/// Refuses: [`Vertices`](Refusal::Vertices), [`Runs`](Refusal::Runs) as there.
pub fn reverse_runs_in_place(runs: &mut [u64], n: u32) -> Result<usize, Refusal> {
    let mut count = 0;
    accepted(unsafe {
        raw::rf_reverse_runs_in_place(runs.as_mut_ptr(), runs.len(), n, &mut count)
    })?;
    Ok(count as usize)
}

/// Appends a piece, reversed first where `reverse` is set, to the output: the first `used` runs of `out`, of `out_count`
/// vertices. The piece's first vertex is the output's last, so the new count is the sum less one. A run of the piece with the
/// coordinate of the run before it, which for the first one is the output's last, is left out. Only places of `out` behind
/// the first `used` are written.
///
/// Refuses: [`Space`](Refusal::Space), `used` above the length of `out`; [`Vertices`](Refusal::Vertices), a count of 0 or a
/// new one above [`MAX_VERTICES`]; [`Runs`](Refusal::Runs), the output is empty, not steady, or has its last offset not
/// below its count, or the piece is not sharp; [`Space`](Refusal::Space), `out` too short for the runs that are left.
pub fn append_runs(
    out: &mut [u64],
    used: usize,
    out_count: u32,
    piece: &[u64],
    piece_count: u32,
    reverse: bool,
) -> Result<Appended, Refusal> {
    let (mut count, mut vertices) = (0, 0);
    accepted(unsafe {
        raw::rf_append_runs(
            out.as_mut_ptr(),
            out.len(),
            used as u64,
            out_count,
            piece.as_ptr(),
            piece.len(),
            piece_count,
            reverse,
            &mut count,
            &mut vertices,
        )
    })?;
    Ok(Appended {
        runs: count as usize,
        vertices: vertices as u32,
    })
}

/// Writes the runs of a cycle, reversed first where `reverse` is set, with its colours turned left by `pivot` mod `n` and
/// equal neighbours merged, to the front of `out`; their number. No runs, or `n` = 0, give none.
///
/// Refuses: [`Vertices`](Refusal::Vertices), `n` above [`MAX_VERTICES`]; [`Runs`](Refusal::Runs), not steady;
/// [`Space`](Refusal::Space), `out` too short.
pub fn rotate_runs(
    runs: &[u64],
    n: u32,
    pivot: u32,
    reverse: bool,
    out: &mut [u64],
) -> Result<usize, Refusal> {
    let mut count = 0;
    accepted(unsafe {
        raw::rf_rotate_runs(
            runs.as_ptr(),
            runs.len(),
            n,
            pivot,
            reverse,
            out.as_mut_ptr(),
            out.len(),
            &mut count,
        )
    })?;
    Ok(count as usize)
}

/// Writes a run list as bytes, a LEB128 count and 8 bytes a run, to the front of `out`; the bytes written.
///
/// Refuses: [`Runs`](Refusal::Runs), more than 4,294,967,295 runs; [`Space`](Refusal::Space), `out` too short.
pub fn write_runs(runs: &[u64], out: &mut [u8]) -> Result<usize, Refusal> {
    let mut written = 0;
    accepted(unsafe {
        raw::rf_write_runs(
            runs.as_ptr(),
            runs.len(),
            out.as_mut_ptr(),
            out.len(),
            &mut written,
        )
    })?;
    Ok(written as usize)
}

/// Reads the run bytes at the front of `bytes` to the front of `out`. Later bytes of the input are ignored.
///
/// Refuses: [`Cut`](Refusal::Cut), the count or the runs end behind the input; [`Damaged`](Refusal::Damaged), the count is
/// no written one; [`Space`](Refusal::Space), `out` too short.
pub fn read_runs(bytes: &[u8], out: &mut [u64]) -> Result<Read, Refusal> {
    let (mut given, mut taken) = (0, 0);
    accepted(unsafe {
        raw::rf_read_runs(
            bytes.as_ptr(),
            bytes.len(),
            out.as_mut_ptr(),
            out.len(),
            &mut given,
            &mut taken,
        )
    })?;
    Ok(Read {
        items: given as usize,
        bytes: taken as usize,
    })
}
