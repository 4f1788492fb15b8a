//! The reference: the record and run functions of COMBINE-lab/cuttlefish, commit c6f27f2be6, copied from its files
//! `color.rs` and `state.rs`. BSD-3-Clause, Copyright (c) 2020, COMBINE lab; the text is in `LICENSE.txt`.
//!
//! `color` and `state` hold the copied code, and say at their head what was adapted. `drive` is this project's own: it
//! calls the copied functions on plain numbers and bytes and catches their panics.

pub mod color;
pub mod drive;
pub mod state;
