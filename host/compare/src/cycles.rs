//! What a list of calls does with cycles: which unitigs are closed as one, and what is shown of them.

use crate::lists::List;
use model::calls::{Call, Clause, Deed, Way};
use model::runs::{coordinate, offset, oriented};

/// What is counted. A run of lists should meet each.
pub const CYCLES: [&str; 8] = [
    "lines",
    "cycles",
    "cycles whose last run had the dropped vertex alone",
    "cycles that have one vertex left",
    "cycles whose pivot differs modulo the two counts",
    "unitigs refused as a cycle and closed as a line",
    "shows of a vertex of a cycle",
    "shows of a cycle's dropped vertex",
];

/// The open unitig, by its pieces: how many vertices it has, and where its last run starts, which is the last vertex unlike the one
/// before it.
#[derive(Default)]
struct Open {
    count: u32,
    last: u32,
}

impl Open {
    fn join(&mut self, n: u32, reverse: bool, runs: &[u64]) {
        // A later piece begins on the last vertex, with its coordinate.
        let shift = self.count.saturating_sub(1);
        for pair in oriented(runs, n, reverse).windows(2) {
            if coordinate(pair[0]) != coordinate(pair[1]) {
                self.last = shift + offset(pair[1]);
            }
        }
        self.count = shift + n;
    }
}

impl List {
    /// How often this list met each of [`CYCLES`].
    pub fn cycles(&self) -> [u64; CYCLES.len()] {
        let [mut lines, mut cycles, mut emptied, mut single] = [0; 4];
        let [mut pivots, mut as_lines, mut shown, mut dropped] = [0; 4];
        let mut open = Open::default();
        // Whether the open unitig was refused as a cycle, as it is now.
        let mut refused = false;
        // Of each closed unitig, its vertex count where it is a cycle.
        let mut closed = Vec::new();
        let calls = self.calls.iter().zip(&self.told).zip(&self.accepted);
        for ((call, told), &accepted) in calls {
            match call {
                Call::Show { unitig, vertex, .. } => {
                    if let Some(Some(count)) = closed.get(*unitig as usize) {
                        shown += u64::from(told.is_ok());
                        dropped += u64::from(vertex == count && *told == Err(Clause::NoVertex));
                    }
                }
                Call::Numbered { deed, .. } if accepted => match deed {
                    Deed::Add { .. } => {}
                    Deed::Join { n, reverse, runs } => {
                        open.join(*n, *reverse, runs);
                        refused = false;
                    }
                    Deed::Close(Way::Line) => {
                        lines += 1;
                        as_lines += u64::from(refused);
                        (open, refused) = (Open::default(), false);
                        closed.push(None);
                    }
                    Deed::Close(Way::Cycle { pivot }) => {
                        let left = open.count.saturating_sub(1);
                        cycles += 1;
                        emptied += u64::from(open.last == left);
                        single += u64::from(left == 1);
                        pivots +=
                            u64::from(pivot.checked_rem(open.count) != pivot.checked_rem(left));
                        (open, refused) = (Open::default(), false);
                        closed.push(Some(left));
                    }
                },
                _ => refused |= matches!(told, Err(Clause::OneVertex | Clause::OtherEnd)),
            }
        }
        [
            lines, cycles, emptied, single, pivots, as_lines, shown, dropped,
        ]
    }
}
