//! What a list of calls does with equal neighbours: runs that repeat the coordinate before them, which are sent and held, but not kept
//! among the open runs.

use crate::lists::{List, Told};
use model::calls::{Answer, Call, Clause, Deed, Way};
use model::records::prefix_of;
use model::runs::{coordinate, oriented};
use std::collections::BTreeMap;

/// Of a piece sent forward, and of one sent reversed.
type Ways = [&'static str; 2];

const FIRST: Ways = ["first pieces merged", "first pieces merged, reversed"];
const INSIDE: Ways = [
    "later pieces merged inside",
    "later pieces merged inside, reversed",
];
const JUNCTION: Ways = [
    "later pieces merged from the junction on",
    "later pieces merged from the junction on, reversed",
];
const AGAIN: &str = "pieces with equal neighbours sent again";
const MERGED_AGAIN: &str = "pieces sent again with their runs merged";
const ROOM: &str = "pieces joined that as sent had no room among the open runs";
const FULL: &str = "pieces joined that had such room for the merged runs and no more";
const OPEN_SHORT: &str = "3 for one place among the open runs alone";
const HELD_SHORT: &str =
    "3 for one place of the held piece alone, which had room for the merged runs";
const LINE: &str = "lines closed with fewer runs than were sent";
const LINE_ROOM: &str = "lines closed whose runs as sent had no room in the run file";

/// What is counted. A run of lists should meet each.
pub const MERGING: [&str; 14] = [
    FIRST[0],
    FIRST[1],
    INSIDE[0],
    INSIDE[1],
    JUNCTION[0],
    JUNCTION[1],
    AGAIN,
    MERGED_AGAIN,
    ROOM,
    FULL,
    OPEN_SHORT,
    HELD_SHORT,
    LINE,
    LINE_ROOM,
];

/// How often each of [`MERGING`] was met; and how many runs were sent in accepted joins, less one for each join to an open unitig,
/// and how many of these repeat the coordinate before them.
#[derive(Default)]
pub struct Merging {
    pub met: BTreeMap<&'static str, u64>,
    pub sent: u64,
    pub repeating: u64,
}

impl Merging {
    fn meet_if(&mut self, name: &'static str, holds: bool) {
        if holds {
            *self.met.entry(name).or_default() += 1;
        }
    }

    pub fn add(&mut self, more: &Merging) {
        for (name, count) in &more.met {
            *self.met.entry(name).or_default() += count;
        }
        self.sent += more.sent;
        self.repeating += more.repeating;
    }
}

/// The open unitig's runs: those that are kept, and those that would be if only the first run of a later piece were dropped.
#[derive(Default, Clone, Copy)]
struct Open {
    kept: u64,
    sent: u64,
}

/// A piece that meets the open unitig, or is its first one.
struct Piece {
    /// The place in [`Ways`].
    way: usize,
    later: bool,
    /// The runs as sent.
    held: u64,
    /// Of each run behind the first, in the direction in which it is joined: whether it repeats the coordinate before it.
    repeats: Vec<bool>,
}

impl Piece {
    fn of(open: Open, n: u32, reverse: bool, runs: &[u64]) -> Self {
        let repeats = oriented(runs, n, reverse)
            .windows(2)
            .map(|pair| coordinate(pair[0]) == coordinate(pair[1]))
            .collect();
        Piece {
            way: usize::from(reverse),
            later: open.kept > 0,
            held: runs.len() as u64,
            repeats,
        }
    }

    fn repeating(&self) -> u64 {
        self.repeats.iter().filter(|&&repeats| repeats).count() as u64
    }

    /// The runs sent, but for the one that is dropped at the junction.
    fn sent(&self) -> u64 {
        self.held - u64::from(self.later)
    }

    fn behind(&self, open: Open) -> Open {
        Open {
            kept: open.kept + self.sent() - self.repeating(),
            sent: open.sent + self.sent(),
        }
    }
}

/// A numbered call.
type Sent<'a> = (u32, &'a Deed);

impl List {
    pub fn merging(&self) -> Merging {
        let mut merging = Merging::default();
        let mut open = Open::default();
        // The last accepted call.
        let mut last = None;
        let calls = self.calls.iter().zip(&self.told).zip(&self.accepted);
        for ((call, told), &accepted) in calls {
            let Call::Numbered { number, deed } = call else {
                continue;
            };
            let sent = (*number, deed);
            if !accepted {
                self.not_joined(sent, last, told, open, &mut merging);
                continue;
            }
            last = Some(sent);
            match deed {
                Deed::Add { .. } => {}
                Deed::Join { n, reverse, runs } => {
                    let piece = Piece::of(open, *n, *reverse, runs);
                    self.joined(&piece, open, &mut merging);
                    open = piece.behind(open);
                }
                Deed::Close(way) => {
                    if *way == Way::Line {
                        self.closed(told, open, &mut merging);
                    }
                    open = Open::default();
                }
            }
        }
        merging
    }

    /// A join that was refused or is a repeat.
    fn not_joined(
        &self,
        sent: Sent,
        last: Option<Sent>,
        told: &Told,
        open: Open,
        merging: &mut Merging,
    ) {
        let Deed::Join { n, reverse, runs } = sent.1 else {
            return;
        };
        let piece = || Piece::of(open, *n, *reverse, runs);
        match told {
            Ok(_) => merging.meet_if(AGAIN, piece().repeating() > 0),
            Err(Clause::OtherArguments) => {
                merging.meet_if(MERGED_AGAIN, merged_again(last, sent));
            }
            Err(clause @ (Clause::OpenRuns | Clause::HeldPiece)) => {
                self.had_no_room(&piece(), open, *clause, merging);
            }
            Err(_) => {}
        }
    }

    fn joined(&self, piece: &Piece, open: Open, merging: &mut Merging) {
        let repeating = piece.repeating();
        merging.sent += piece.sent();
        merging.repeating += repeating;
        if piece.later {
            merging.meet_if(JUNCTION[piece.way], piece.repeats.first() == Some(&true));
            merging.meet_if(
                INSIDE[piece.way],
                piece.repeats.iter().skip(1).any(|&it| it),
            );
        } else {
            merging.meet_if(FIRST[piece.way], repeating > 0);
        }
        let room = self.lengths.open;
        merging.meet_if(ROOM, open.kept + piece.sent() > room);
        merging.meet_if(FULL, repeating > 0 && piece.behind(open).kept == room);
    }

    fn closed(&self, told: &Told, open: Open, merging: &mut Merging) {
        merging.meet_if(LINE, open.kept < open.sent);
        let Ok(Answer::Value(place)) = told else {
            return;
        };
        let start = self.buffers.table[2 * *place as usize];
        let sent = prefix_of(open.sent as u32).len() as u64 + 8 * open.sent;
        merging.meet_if(LINE_ROOM, start + sent > self.lengths.runs);
    }

    fn had_no_room(&self, piece: &Piece, open: Open, clause: Clause, merging: &mut Merging) {
        if piece.repeating() == 0 {
            return;
        }
        let (room, held) = (self.lengths.open, self.lengths.held);
        if clause == Clause::OpenRuns {
            let short = piece.behind(open).kept == room + 1;
            merging.meet_if(OPEN_SHORT, short && piece.held <= held);
        } else {
            merging.meet_if(HELD_SHORT, piece.held == held + 1);
        }
    }
}

/// Whether this is the last accepted join, sent without its equal neighbours.
fn merged_again(last: Option<Sent>, again: Sent) -> bool {
    let Some((number, Deed::Join { n, reverse, runs })) = last else {
        return false;
    };
    let (n, reverse, mut runs) = (*n, *reverse, runs.clone());
    runs.dedup_by_key(|run| coordinate(*run));
    (number, &Deed::Join { n, reverse, runs }) == again
}
