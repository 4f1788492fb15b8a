//! The reference in its two builds, and what a call of it came to.

use oracle::drive::Caught;
use std::io::ErrorKind;
use std::sync::Once;

#[derive(Debug, Clone, Copy, PartialEq, Eq)]
pub enum Build {
    /// Sums that overflow wrap, and debug assertions are not tested.
    Release,
    /// Both panic.
    Debug,
}

/// What a call of the reference came to.
#[derive(Debug, Clone, PartialEq, Eq)]
pub enum Outcome<T> {
    Gave(T),
    Failed(ErrorKind),
    Panicked,
    /// The call was not made: it would end the process or take minutes.
    NotRun,
}

/// The calls of one build.
#[allow(clippy::type_complexity)]
pub struct Reference {
    pub build: Build,
    write_record: fn(u32, &[u32]) -> Caught<Vec<u8>>,
    read_record: fn(u32, &[u8]) -> Caught<(Vec<u32>, u64)>,
    make_index: fn(&[u8], u64) -> Caught<Vec<u64>>,
    reverse_runs: fn(&[u64], u32) -> Caught<Vec<u64>>,
    reverse_runs_in_place: fn(&[u64], u32) -> Caught<Vec<u64>>,
    append_runs: fn(&[u64], u32, &[u64], u32, bool) -> Caught<Vec<u64>>,
    rotate_runs: fn(&[u64], u32, u32, bool) -> Caught<Vec<u64>>,
    write_runs: fn(&[u64]) -> Caught<Vec<u8>>,
    read_runs: fn(&[u8]) -> Caught<(Vec<u64>, u64)>,
    write_prefix: fn(u32) -> Caught<Vec<u8>>,
    read_prefix: fn(&[u8]) -> Caught<(u32, u64)>,
}

macro_rules! reference {
    ($build:expr, $name:ident) => {
        Reference {
            build: $build,
            write_record: $name::drive::write_record,
            read_record: $name::drive::read_record,
            make_index: $name::drive::make_index,
            reverse_runs: $name::drive::reverse_runs,
            reverse_runs_in_place: $name::drive::reverse_runs_in_place,
            append_runs: $name::drive::append_runs,
            rotate_runs: $name::drive::rotate_runs,
            write_runs: $name::drive::write_runs,
            read_runs: $name::drive::read_runs,
            write_prefix: $name::drive::write_prefix,
            read_prefix: $name::drive::read_prefix,
        }
    };
}

pub static RELEASE: Reference = reference!(Build::Release, oracle);
pub static DEBUG: Reference = reference!(Build::Debug, oracle_debug);

/// Both builds.
pub fn builds() -> [&'static Reference; 2] {
    [&RELEASE, &DEBUG]
}

/// The reference panics thousands of times in a run, each caught: nothing is printed of those. Other panics are.
pub fn hush_panics() {
    static ONCE: Once = Once::new();
    ONCE.call_once(|| {
        let others = std::panic::take_hook();
        std::panic::set_hook(Box::new(move |panic| {
            if !oracle::drive::driving() && !oracle_debug::drive::driving() {
                others(panic);
            }
        }));
    });
}

fn seen<T>(caught: Caught<T>) -> Outcome<T> {
    match caught {
        None => Outcome::NotRun,
        Some(Err(_)) => Outcome::Panicked,
        Some(Ok(Err(error))) => Outcome::Failed(error.kind()),
        Some(Ok(Ok(value))) => Outcome::Gave(value),
    }
}

impl Reference {
    pub fn write_record(&self, n: u32, ids: &[u32]) -> Outcome<Vec<u8>> {
        seen((self.write_record)(n, ids))
    }

    pub fn read_record(&self, n: u32, input: &[u8]) -> Outcome<(Vec<u32>, u64)> {
        seen((self.read_record)(n, input))
    }

    pub fn make_index(&self, bytes: &[u8], count: u64) -> Outcome<Vec<u64>> {
        seen((self.make_index)(bytes, count))
    }

    pub fn reverse_runs(&self, runs: &[u64], n: u32) -> Outcome<Vec<u64>> {
        seen((self.reverse_runs)(runs, n))
    }

    pub fn reverse_runs_in_place(&self, runs: &[u64], n: u32) -> Outcome<Vec<u64>> {
        seen((self.reverse_runs_in_place)(runs, n))
    }

    /// The output's runs and those appended.
    pub fn append_runs(
        &self,
        output: &[u64],
        output_count: u32,
        piece: &[u64],
        piece_count: u32,
        reverse: bool,
    ) -> Outcome<Vec<u64>> {
        seen((self.append_runs)(
            output,
            output_count,
            piece,
            piece_count,
            reverse,
        ))
    }

    pub fn rotate_runs(
        &self,
        runs: &[u64],
        n: u32,
        pivot: u32,
        reverse: bool,
    ) -> Outcome<Vec<u64>> {
        seen((self.rotate_runs)(runs, n, pivot, reverse))
    }

    pub fn write_runs(&self, runs: &[u64]) -> Outcome<Vec<u8>> {
        seen((self.write_runs)(runs))
    }

    pub fn read_runs(&self, bytes: &[u8]) -> Outcome<(Vec<u64>, u64)> {
        seen((self.read_runs)(bytes))
    }

    pub fn write_prefix(&self, value: u32) -> Outcome<Vec<u8>> {
        seen((self.write_prefix)(value))
    }

    /// The value and the length of a prefix.
    pub fn read_prefix(&self, bytes: &[u8]) -> Outcome<(u32, u64)> {
        seen((self.read_prefix)(bytes))
    }
}
