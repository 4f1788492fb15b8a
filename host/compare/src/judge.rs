//! What the reference may do where the model answers or refuses. docs/DIFFERENCES.md has a section for each class, with its
//! smallest input, and tests/differences.rs a test.

use crate::reference::{Build, Outcome};
use model::records::{limit_ids, prefix_of, read_any, record_of};
use model::runs::{coordinate, has_equal_neighbours, is_steady, offset};
use model::{NoSet, Why};
use std::io::ErrorKind::{InvalidData, InvalidInput, UnexpectedEof};

/// The classes of difference, in the order of docs/DIFFERENCES.md.
pub const CLASSES: [&str; 24] = [
    "space",
    "colors-limit",
    "ids-not-ascending",
    "ids-not-below-n",
    "prefix-needless-group",
    "prefix-high-bits",
    "padding-bit",
    "trailing-byte",
    "bitmap-count",
    "id-not-below-n",
    "absent-not-below-n",
    "id-cut",
    "len-above-n",
    "wide-code",
    "width-cut",
    "cut-code",
    "index-cut-payload",
    "vertices-limit",
    "reverse-not-steady",
    "rotate-not-steady",
    "append-counts",
    "append-output",
    "append-piece",
    "append-merged",
];

#[derive(Debug, Clone, Copy, PartialEq, Eq)]
pub enum Verdict {
    /// The same answer, or a refusal where the model refuses.
    Same,
    /// A difference that is on the list.
    Class(&'static str),
    /// One that is not.
    Unknown,
}

use Verdict::{Class, Same, Unknown};

fn same_if(holds: bool) -> Verdict {
    if holds { Same } else { Unknown }
}

fn class_if(class: &'static str, holds: bool) -> Verdict {
    if holds { Class(class) } else { Unknown }
}

/// The class, where the outcome is as it would be without the rule that the class is about.
fn class_over(class: &'static str, without: Verdict) -> Verdict {
    class_if(class, without != Unknown)
}

fn gave<T: PartialEq>(seen: &Outcome<T>, want: &T) -> bool {
    matches!(seen, Outcome::Gave(got) if got == want)
}

fn failed<T>(seen: &Outcome<T>, kind: std::io::ErrorKind) -> bool {
    matches!(seen, Outcome::Failed(got) if *got == kind)
}

/// A panic, in a debug build.
fn debug_panic<T>(seen: &Outcome<T>, build: Build) -> bool {
    matches!(seen, Outcome::Panicked) && build == Build::Debug
}

/// The input with its length prefix written as 01 writes the value that the reference reads there, which is the sum of the
/// groups with the bits above 32 dropped; and by how much shorter that is. The prefix ends within five bytes.
fn with_written_prefix(input: &[u8]) -> (Vec<u8>, u64) {
    let mut value = 0;
    let mut len = 0;
    for (i, &byte) in input.iter().take(5).enumerate() {
        value |= u64::from(byte & 0x7f) << (7 * i);
        len = i + 1;
        if byte < 0x80 {
            break;
        }
    }
    let mut written = prefix_of(value as u32);
    let less = len - written.len();
    written.extend(&input[len..]);
    (written, less as u64)
}

/// An outcome whose bytes taken are counted in the input with the written prefix.
fn less_taken<T: Clone>(seen: &Outcome<(T, u64)>, less: u64) -> Outcome<(T, u64)> {
    match seen {
        Outcome::Gave((items, taken)) => Outcome::Gave((items.clone(), taken - less)),
        other => other.clone(),
    }
}

pub fn write_record(
    n: u32,
    ids: &[u32],
    want: &Result<Vec<u8>, Why>,
    seen: &Outcome<Vec<u8>>,
) -> Verdict {
    let writes = !matches!(seen, Outcome::Failed(_));
    match want {
        Ok(bytes) => same_if(gave(seen, bytes)),
        Err(Why::Colors) if limit_ids(n, ids).is_ok() => {
            class_if("colors-limit", gave(seen, &record_of(n, ids)))
        }
        Err(Why::Colors) => class_if("colors-limit", writes),
        Err(Why::NotAscending) => class_if("ids-not-ascending", writes),
        Err(Why::NotBelow) => class_if("ids-not-below-n", writes),
        Err(_) => Unknown,
    }
}

pub fn read_record(
    n: u32,
    input: &[u8],
    want: &Result<(Vec<u32>, u64), Why>,
    seen: &Outcome<(Vec<u32>, u64)>,
    build: Build,
) -> Verdict {
    match want {
        Ok(read) => same_if(gave(seen, read)),
        Err(Why::Colors) => class_over(
            "colors-limit",
            read_record(n, input, &read_any(n, input), seen, build),
        ),
        // A payload of more than a gigabyte is not asked of the reference, which sets it aside before it reads.
        Err(Why::PayloadCut) if *seen == Outcome::NotRun => same_if(starts_large(input)),
        Err(Why::PrefixCut | Why::PayloadCut) => same_if(failed(seen, UnexpectedEof)),
        Err(Why::PrefixEndless) => same_if(failed(seen, InvalidData)),
        Err(why @ (Why::PrefixNeedless | Why::PrefixWide)) => {
            let (written, less) = with_written_prefix(input);
            let seen = less_taken(seen, less);
            class_over(
                prefix_class(why),
                read_record(n, &written, &read_any(n, &written), &seen, build),
            )
        }
        Err(Why::Payload(why)) => payload(n, why, seen, build),
        Err(_) => Unknown,
    }
}

fn starts_large(input: &[u8]) -> bool {
    model::records::read_prefix(input).is_ok_and(|(value, _)| value > 1 << 30)
}

/// A length prefix by itself.
pub fn prefix(
    bytes: &[u8],
    want: &Result<(u32, usize), Why>,
    seen: &Outcome<(u32, u64)>,
) -> Verdict {
    match want {
        Ok((value, len)) => same_if(gave(seen, &(*value, *len as u64))),
        Err(Why::PrefixCut) => same_if(failed(seen, UnexpectedEof)),
        Err(Why::PrefixEndless) => same_if(failed(seen, InvalidData)),
        Err(why) => {
            let (written, less) = with_written_prefix(bytes);
            let read = match model::records::read_prefix(&written) {
                Ok((value, len)) => (value, len as u64 + less),
                Err(_) => return Unknown,
            };
            class_if(prefix_class(why), gave(seen, &read))
        }
    }
}

fn prefix_class(why: &Why) -> &'static str {
    match why {
        Why::PrefixNeedless => "prefix-needless-group",
        _ => "prefix-high-bits",
    }
}

/// From here on a code is wider than the reference's 64 bits.
const WIDE: u128 = (1 << 64) - 1;

fn payload(n: u32, why: &NoSet, seen: &Outcome<(Vec<u32>, u64)>, build: Build) -> Verdict {
    let ids = match seen {
        Outcome::Gave((ids, _)) => Some(ids),
        _ => None,
    };
    // Goes on, or meets the end of the payload or an overflow of 32 bits later.
    let goes_on = matches!(seen, Outcome::Gave(_) | Outcome::Failed(_)) || debug_panic(seen, build);
    match why {
        NoSet::CodeCut { .. } | NoSet::BitmapCut if failed(seen, UnexpectedEof) => {
            Class("cut-code")
        }
        NoSet::CodeCut { width } if *width >= 1 << 32 => Class("width-cut"),
        NoSet::CodeCut { width } => class_if("wide-code", *width >= 64),
        NoSet::LenAbove(code) | NoSet::IdNotBelow { code } | NoSet::AbsentNotBelow { code }
            if *code >= WIDE =>
        {
            Class("wide-code")
        }
        NoSet::LenAbove(_) => class_if(
            "len-above-n",
            matches!(seen, Outcome::Panicked | Outcome::NotRun),
        ),
        NoSet::IdNotBelow { code } | NoSet::AbsentNotBelow { code } if *code >= 1 << 32 => {
            class_if("id-cut", goes_on)
        }
        NoSet::IdNotBelow { .. } => {
            let outside = ids.is_none_or(|ids| ids.iter().any(|&id| id >= n));
            class_if("id-not-below-n", goes_on && outside)
        }
        NoSet::AbsentNotBelow { .. } => class_if("absent-not-below-n", goes_on),
        NoSet::BitmapCount(read) => class_if("bitmap-count", ids == Some(read)),
        NoSet::Trailing(read) => class_if("trailing-byte", ids == Some(read)),
        NoSet::Padding(read) => class_if("padding-bit", ids == Some(read)),
        NoSet::BitmapCut => Unknown,
    }
}

pub fn make_index(bytes: &[u8], want: &Result<Vec<u64>, Why>, seen: &Outcome<Vec<u64>>) -> Verdict {
    match want {
        Ok(entries) => same_if(gave(seen, entries)),
        Err(Why::PrefixCut) => same_if(failed(seen, UnexpectedEof)),
        Err(Why::PrefixEndless) => same_if(failed(seen, InvalidData)),
        Err(why @ (Why::PrefixNeedless | Why::PrefixWide)) => class_if(
            prefix_class(why),
            matches!(seen, Outcome::Gave(_) | Outcome::Failed(_)),
        ),
        // Noticed where another record is looked for behind it.
        Err(Why::PayloadCut) if failed(seen, UnexpectedEof) => Same,
        Err(Why::PayloadCut) => {
            let beyond = matches!(seen, Outcome::Gave(entries)
                if entries.last().is_some_and(|&end| end > bytes.len() as u64));
            class_if("index-cut-payload", beyond)
        }
        Err(_) => Unknown,
    }
}

/// Reverse, in both forms, and rotate.
pub fn list(
    want: &Result<Vec<u64>, Why>,
    seen: &Outcome<Vec<u64>>,
    not_steady: &'static str,
) -> Verdict {
    let goes_on = !matches!(seen, Outcome::Failed(_));
    match want {
        Ok(runs) => same_if(gave(seen, runs)),
        Err(Why::Vertices) => class_if("vertices-limit", goes_on),
        Err(Why::NotSteady) => class_if(not_steady, goes_on),
        Err(_) => Unknown,
    }
}

/// The reference's answer has the output's runs before the new ones, and no vertex count. It has exactly the runs wanted where the
/// piece has no equal neighbours; otherwise never, but the same colours.
pub fn append_runs(
    output: &[u64],
    piece: &[u64],
    want: &Result<(Vec<u64>, u64), Why>,
    seen: &Outcome<Vec<u64>>,
) -> Verdict {
    let goes_on = matches!(seen, Outcome::Gave(_) | Outcome::Panicked);
    match want {
        Ok((new, vertices)) if has_equal_neighbours(piece) => {
            class_if("append-merged", only_merged(output, new, *vertices, seen))
        }
        Ok((new, _)) => same_if(gave(seen, &[output, new].concat())),
        Err(Why::Vertices) => class_if("append-counts", goes_on),
        Err(Why::Output) => class_if("append-output", goes_on),
        Err(Why::Piece) => class_if("append-piece", goes_on),
        Err(_) => Unknown,
    }
}

/// Whether what was seen is a list of the same colours as the output with the new runs, and another one; and whether no new run has
/// the coordinate of the run before it, which for the first one is the output's last.
fn only_merged(output: &[u64], new: &[u64], vertices: u64, seen: &Outcome<Vec<u64>>) -> bool {
    let Outcome::Gave(runs) = seen else {
        return false;
    };
    let wanted = [output, new].concat();
    let from_last = &wanted[output.len().saturating_sub(1)..];
    *runs != wanted
        && is_steady(runs, vertices as u32)
        && same_colours(runs, &wanted, vertices)
        && !has_equal_neighbours(from_last)
}

/// Whether two steady lists give each of so many vertices the same colour. Where neither has a start, the colours are those of the
/// vertex before.
fn same_colours(one: &[u64], other: &[u64], vertices: u64) -> bool {
    let mut starts = one.iter().chain(other).map(|&run| offset(run));
    starts.all(|at| u64::from(at) >= vertices || colour_at(one, at) == colour_at(other, at))
}

/// The coordinate of the last run that starts at this vertex or before it.
fn colour_at(runs: &[u64], vertex: u32) -> Option<u64> {
    let behind = runs.partition_point(|&run| offset(run) <= vertex);
    runs[..behind].last().map(|&run| coordinate(run))
}

pub fn write_runs(want: &Result<Vec<u8>, Why>, seen: &Outcome<Vec<u8>>) -> Verdict {
    match want {
        Ok(bytes) => same_if(gave(seen, bytes)),
        Err(Why::TooManyRuns) => same_if(failed(seen, InvalidInput)),
        Err(_) => Unknown,
    }
}

pub fn read_runs(
    bytes: &[u8],
    want: &Result<(Vec<u64>, u64), Why>,
    seen: &Outcome<(Vec<u64>, u64)>,
) -> Verdict {
    match want {
        Ok(read) => same_if(gave(seen, read)),
        Err(Why::PrefixCut | Why::RunsCut) => same_if(failed(seen, UnexpectedEof)),
        Err(Why::PrefixEndless) => same_if(failed(seen, InvalidData)),
        Err(why @ (Why::PrefixNeedless | Why::PrefixWide)) => {
            let (written, less) = with_written_prefix(bytes);
            let seen = less_taken(seen, less);
            class_over(
                prefix_class(why),
                read_runs(&written, &model::read_runs(&written), &seen),
            )
        }
        Err(_) => Unknown,
    }
}
