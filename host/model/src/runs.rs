//! Run lists: a run is 64 bits, its offset (first vertex) in the low 24, its coordinate in the high 40.

use crate::records::{prefix_of, read_prefix};
use crate::{MAX_VERTICES, Why};

pub fn pack(offset: u32, coordinate: u64) -> u64 {
    coordinate * (1 << 24) + u64::from(offset)
}

pub fn offset(run: u64) -> u32 {
    (run % (1 << 24)) as u32
}

pub fn coordinate(run: u64) -> u64 {
    run / (1 << 24)
}

/// Empty, or starts at 0, never descends and has no offset above n.
pub fn is_steady(runs: &[u64], n: u32) -> bool {
    runs.first().is_none_or(|&first| offset(first) == 0)
        && runs
            .windows(2)
            .all(|pair| offset(pair[0]) <= offset(pair[1]))
        && runs.iter().all(|&run| offset(run) <= n)
}

/// Not empty, starts at 0, ascends strictly and stays below n.
pub fn is_sharp(runs: &[u64], n: u32) -> bool {
    runs.first().is_some_and(|&first| offset(first) == 0)
        && runs
            .windows(2)
            .all(|pair| offset(pair[0]) < offset(pair[1]))
        && runs.iter().all(|&run| offset(run) < n)
}

/// Where run `i` ends: at the next one's offset, or at n.
fn end(runs: &[u64], n: u32, i: usize) -> u32 {
    runs.get(i + 1).map_or(n, |&next| offset(next))
}

/// The coordinate of each vertex of a steady list.
pub fn colours(runs: &[u64], n: u32) -> Vec<u64> {
    let mut all = Vec::with_capacity(n as usize);
    for (i, &run) in runs.iter().enumerate() {
        for _ in offset(run)..end(runs, n, i) {
            all.push(coordinate(run));
        }
    }
    all
}

/// A steady list from the other side: each run begins where it ended.
pub fn reversed(runs: &[u64], n: u32) -> Vec<u64> {
    (0..runs.len())
        .rev()
        .map(|i| pack(n - end(runs, n, i), coordinate(runs[i])))
        .collect()
}

pub fn oriented(runs: &[u64], n: u32, reverse: bool) -> Vec<u64> {
    if reverse {
        reversed(runs, n)
    } else {
        runs.to_vec()
    }
}

/// Whether a run has the coordinate of the one before it.
pub fn has_equal_neighbours(runs: &[u64]) -> bool {
    runs.windows(2)
        .any(|pair| coordinate(pair[0]) == coordinate(pair[1]))
}

/// The list without each run that has the coordinate of the one before it: of equal neighbours the first stays.
pub fn merged(runs: &[u64]) -> Vec<u64> {
    merged_behind(None, runs)
}

/// The same of a list behind a run of this coordinate.
fn merged_behind(before: Option<u64>, runs: &[u64]) -> Vec<u64> {
    let mut last = before;
    let mut kept = Vec::new();
    for &run in runs {
        let named = Some(coordinate(run));
        if named != last {
            kept.push(run);
        }
        last = named;
    }
    kept
}

/// A run wherever a vertex has another coordinate than the one before.
fn runs_of(colours: &[u64]) -> Vec<u64> {
    let mut runs: Vec<u64> = Vec::new();
    for (vertex, &colour) in colours.iter().enumerate() {
        if vertex == 0 || colours[vertex - 1] != colour {
            runs.push(pack(vertex as u32, colour));
        }
    }
    runs
}

/// 7, 6.
fn limit_list(runs: &[u64], n: u32) -> Result<(), Why> {
    if n > MAX_VERTICES {
        return Err(Why::Vertices);
    }
    if !is_steady(runs, n) {
        return Err(Why::NotSteady);
    }
    Ok(())
}

/// The reversed list, which the form in place puts where the list was: 7, 6.
pub fn reverse_runs(runs: &[u64], n: u32) -> Result<Vec<u64>, Why> {
    limit_list(runs, n)?;
    Ok(reversed(runs, n))
}

/// The runs to put behind the output, the first `used` of `out`, and the new vertex count: 3, 7, 6.
pub fn append_runs(
    out: &[u64],
    used: u64,
    out_count: u32,
    piece: &[u64],
    piece_count: u32,
    reverse: bool,
) -> Result<(Vec<u64>, u64), Why> {
    if used > out.len() as u64 {
        return Err(Why::SaidRuns);
    }
    let sum = u64::from(out_count) + u64::from(piece_count);
    if out_count == 0 || piece_count == 0 || sum - 1 > u64::from(MAX_VERTICES) {
        return Err(Why::Vertices);
    }
    let output = &out[..used as usize];
    let Some(&last) = output.last() else {
        return Err(Why::Output);
    };
    if !is_steady(output, out_count) || offset(last) >= out_count {
        return Err(Why::Output);
    }
    if !is_sharp(piece, piece_count) {
        return Err(Why::Piece);
    }
    // The output's own runs stay as they are, equal neighbours too.
    let piece = oriented(piece, piece_count, reverse);
    let new = merged_behind(Some(coordinate(last)), &piece);
    // The piece's first vertex is the output's last.
    let shift = |run: &u64| pack(out_count - 1 + offset(*run), coordinate(*run));
    Ok((new.iter().map(shift).collect(), sum - 1))
}

/// The turned list: 7, 6.
pub fn rotate_runs(runs: &[u64], n: u32, pivot: u32, reverse: bool) -> Result<Vec<u64>, Why> {
    limit_list(runs, n)?;
    if n == 0 || runs.is_empty() {
        return Ok(Vec::new());
    }
    let mut all = colours(&oriented(runs, n, reverse), n);
    all.rotate_left((pivot % n) as usize);
    Ok(runs_of(&all))
}

/// The bytes of a list: 6.
pub fn write_runs(runs: &[u64]) -> Result<Vec<u8>, Why> {
    let Ok(count) = u32::try_from(runs.len()) else {
        return Err(Why::TooManyRuns);
    };
    let mut bytes = prefix_of(count);
    for run in runs {
        bytes.extend(run.to_le_bytes());
    }
    Ok(bytes)
}

/// The runs at the front, and the bytes they take: 4, 5.
pub fn read_runs(bytes: &[u8]) -> Result<(Vec<u64>, u64), Why> {
    let (count, start) = read_prefix(bytes)?;
    let len = u64::from(count) * 8;
    if ((bytes.len() - start) as u64) < len {
        return Err(Why::RunsCut);
    }
    let runs = bytes[start..start + len as usize]
        .chunks(8)
        .map(|run| {
            run.iter()
                .rev()
                .fold(0, |sum, &byte| sum * 256 + u64::from(byte))
        })
        .collect();
    Ok((runs, start as u64 + len))
}
