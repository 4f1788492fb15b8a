//! The specification in plain Rust, written from its text and from neither the reference nor the proved code: the judge where
//! the reference panics, accepts more, or has no answer at all. The store, which the reference doesn't have, is here twice:
//! [`plain`] over sets and vertices, [`store`] over its state and buffers; [`calls`] has what both are asked.
//!
//! Each operation on records and runs answers what it writes, or why it refuses, in more detail than the refusal's number, so that a comparison
//! with the reference can tell one class of difference from another. The space lent stands apart, in [`put`]: 3 is the last
//! refusal of every operation that has it, but for the two tests that come first, [`index_fits`] and [`Why::SaidRuns`].
//! It is made to be read and not to be fast: sets are lists, streams are bits, a cycle is an array over its vertices.

pub mod bits;
pub mod calls;
pub mod plain;
pub mod records;
pub mod runs;
pub mod sets;
pub mod store;

pub use records::{index_fits, make_index, read_record, write_record};
pub use runs::{append_runs, read_runs, reverse_runs, rotate_runs, write_runs};
pub use sets::NoSet;

/// The most colours that a set may be chosen from.
pub const MAX_COLORS: u32 = 1_048_576;

/// The most vertices that a run list may have.
pub const MAX_VERTICES: u32 = 16_777_215;

/// Why an operation is refused.
#[derive(Debug, Clone, PartialEq, Eq)]
pub enum Why {
    /// N is outside 1 to 1,048,576.
    Colors,
    /// An id is not above the one before.
    NotAscending,
    /// An id is not below N.
    NotBelow,
    /// The output is too short.
    Space,
    /// The output is said to have more runs than its buffer holds.
    SaidRuns,
    /// Fewer than five bytes, none below 80 (hexadecimal).
    PrefixCut,
    /// The record ends behind the input.
    PayloadCut,
    /// The runs end behind the input.
    RunsCut,
    /// The first five bytes are all 80 or more.
    PrefixEndless,
    /// The last of several groups is zero.
    PrefixNeedless,
    /// The prefix says more than 4,294,967,295.
    PrefixWide,
    /// The payload is not that of a set.
    Payload(NoSet),
    /// The list is not steady.
    NotSteady,
    /// Append's output is empty, not steady, or has its last offset not below its count.
    Output,
    /// Append's piece is not sharp.
    Piece,
    /// More than 4,294,967,295 runs.
    TooManyRuns,
    /// A vertex count is outside its limits.
    Vertices,
}

impl Why {
    /// The refusal's number in the specification.
    pub fn number(&self) -> u32 {
        match self {
            Why::Colors => 1,
            Why::NotAscending | Why::NotBelow => 2,
            Why::Space | Why::SaidRuns => 3,
            Why::PrefixCut | Why::PayloadCut | Why::RunsCut => 4,
            Why::PrefixEndless | Why::PrefixNeedless | Why::PrefixWide | Why::Payload(_) => 5,
            Why::NotSteady | Why::Output | Why::Piece | Why::TooManyRuns => 6,
            Why::Vertices => 7,
        }
    }
}

/// The items to the front of `out`; 3, and nothing, where they don't fit.
pub fn put<T: Copy>(items: &[T], out: &mut [T]) -> Result<(), Why> {
    if out.len() < items.len() {
        return Err(Why::Space);
    }
    out[..items.len()].copy_from_slice(items);
    Ok(())
}
