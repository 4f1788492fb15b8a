//! The reference, the specification's model and the proved code, held against each other.
//!
//! - [`reference`]: the copied functions, as a release and as a debug build runs them.
//! - [`judge`]: whether the reference's outcome is the model's answer, a difference that docs/DIFFERENCES.md has, or neither.
//! - [`proved`]: the C functions, where the archive takes part (feature `archive`).
//! - [`checks`]: one case of each operation through all sides.
//! - [`sections`]: the cases of the differential runs; [`recorded`]: those that the program `cases` replays; [`files`]: the
//!   record files that it compares.
//! - [`calls`]: random calls of the store; [`lists`]: lists of them with what both models of the store answer; [`cycles`] and
//!   [`merging`]: what they do with cycles and with equal neighbours; [`commands`] and [`sessions`]: a list as the programs
//!   `roadfinch` and `sessions` read it, and what they must answer.
//! - [`shows`]: what a show costs by its unitig's runs; [`picture`]: a table of the benchmark as bars.

pub mod calls;
pub mod checks;
pub mod commands;
pub mod cycles;
pub mod files;
pub mod judge;
pub mod lists;
pub mod merging;
pub mod picture;
pub mod proved;
pub mod random;
pub mod recorded;
pub mod reference;
pub mod run;
pub mod sections;
pub mod sessions;
pub mod shows;
