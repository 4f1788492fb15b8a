//! The proved code, called as C. Without the feature `archive` it takes no part.

/// Whether it takes part.
pub const HERE: bool = cfg!(feature = "archive");

#[cfg(feature = "archive")]
mod calls {
    use roadfinch::raw;

    // SAFETY, for every call here: the pointers come from live slices with their own lengths, those written through are
    // exclusive, and no C function asks more of its caller.

    pub fn write_record(n: u32, ids: &[u32], out: &mut [u8], written: &mut u64) -> u32 {
        unsafe {
            raw::rf_write_record(
                n,
                ids.as_ptr(),
                ids.len(),
                out.as_mut_ptr(),
                out.len(),
                written,
            )
        }
    }

    pub fn read_record(
        n: u32,
        input: &[u8],
        ids: &mut [u32],
        given: &mut u64,
        taken: &mut u64,
    ) -> u32 {
        unsafe {
            raw::rf_read_record(
                n,
                input.as_ptr(),
                input.len(),
                ids.as_mut_ptr(),
                ids.len(),
                given,
                taken,
            )
        }
    }

    pub fn make_index(bytes: &[u8], count: u64, out: &mut [u64]) -> u32 {
        unsafe {
            raw::rf_make_index(
                bytes.as_ptr(),
                bytes.len(),
                count,
                out.as_mut_ptr(),
                out.len(),
            )
        }
    }

    pub fn reverse_runs(runs: &[u64], n: u32, out: &mut [u64], count: &mut u64) -> u32 {
        unsafe {
            raw::rf_reverse_runs(
                runs.as_ptr(),
                runs.len(),
                n,
                out.as_mut_ptr(),
                out.len(),
                count,
            )
        }
    }

    pub fn reverse_runs_in_place(runs: &mut [u64], n: u32, count: &mut u64) -> u32 {
        unsafe { raw::rf_reverse_runs_in_place(runs.as_mut_ptr(), runs.len(), n, count) }
    }

    #[allow(clippy::too_many_arguments)]
    pub fn append_runs(
        out: &mut [u64],
        used: u64,
        out_count: u32,
        piece: &[u64],
        piece_count: u32,
        reverse: bool,
        count: &mut u64,
        vertices: &mut u64,
    ) -> u32 {
        unsafe {
            raw::rf_append_runs(
                out.as_mut_ptr(),
                out.len(),
                used,
                out_count,
                piece.as_ptr(),
                piece.len(),
                piece_count,
                reverse,
                count,
                vertices,
            )
        }
    }

    pub fn rotate_runs(
        runs: &[u64],
        n: u32,
        pivot: u32,
        reverse: bool,
        out: &mut [u64],
        count: &mut u64,
    ) -> u32 {
        unsafe {
            raw::rf_rotate_runs(
                runs.as_ptr(),
                runs.len(),
                n,
                pivot,
                reverse,
                out.as_mut_ptr(),
                out.len(),
                count,
            )
        }
    }

    pub fn write_runs(runs: &[u64], out: &mut [u8], written: &mut u64) -> u32 {
        unsafe {
            raw::rf_write_runs(
                runs.as_ptr(),
                runs.len(),
                out.as_mut_ptr(),
                out.len(),
                written,
            )
        }
    }

    pub fn read_runs(bytes: &[u8], out: &mut [u64], given: &mut u64, taken: &mut u64) -> u32 {
        unsafe {
            raw::rf_read_runs(
                bytes.as_ptr(),
                bytes.len(),
                out.as_mut_ptr(),
                out.len(),
                given,
                taken,
            )
        }
    }
}

/// The same names where there is no archive, so that the rest of the crate reads the same: none is called, by [`HERE`].
#[cfg(not(feature = "archive"))]
#[allow(clippy::too_many_arguments)]
mod calls {
    const ABSENT: &str = "called without the archive";

    pub fn write_record(_: u32, _: &[u32], _: &mut [u8], _: &mut u64) -> u32 {
        unreachable!("{ABSENT}")
    }
    pub fn read_record(_: u32, _: &[u8], _: &mut [u32], _: &mut u64, _: &mut u64) -> u32 {
        unreachable!("{ABSENT}")
    }
    pub fn make_index(_: &[u8], _: u64, _: &mut [u64]) -> u32 {
        unreachable!("{ABSENT}")
    }
    pub fn reverse_runs(_: &[u64], _: u32, _: &mut [u64], _: &mut u64) -> u32 {
        unreachable!("{ABSENT}")
    }
    pub fn reverse_runs_in_place(_: &mut [u64], _: u32, _: &mut u64) -> u32 {
        unreachable!("{ABSENT}")
    }
    pub fn append_runs(
        _: &mut [u64],
        _: u64,
        _: u32,
        _: &[u64],
        _: u32,
        _: bool,
        _: &mut u64,
        _: &mut u64,
    ) -> u32 {
        unreachable!("{ABSENT}")
    }
    pub fn rotate_runs(_: &[u64], _: u32, _: u32, _: bool, _: &mut [u64], _: &mut u64) -> u32 {
        unreachable!("{ABSENT}")
    }
    pub fn write_runs(_: &[u64], _: &mut [u8], _: &mut u64) -> u32 {
        unreachable!("{ABSENT}")
    }
    pub fn read_runs(_: &[u8], _: &mut [u64], _: &mut u64, _: &mut u64) -> u32 {
        unreachable!("{ABSENT}")
    }
}

pub use calls::*;
