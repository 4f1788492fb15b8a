//! The worked store case, the order of refusals, and what altered memory is answered.

use model::calls::{Answer, Call, Clause, Deed, Lengths, Way};
use model::plain::Plain;
use model::runs::pack;
use model::store::{Buffers, Current, Last, State};

fn add(number: u32, ids: &[u32]) -> Call {
    let ids = ids.to_vec();
    Call::Numbered {
        number,
        deed: Deed::Add { ids },
    }
}

/// A run list, in short.
fn words(runs: &[(u32, u64)]) -> Vec<u64> {
    runs.iter().map(|&(at, named)| pack(at, named)).collect()
}

fn join(number: u32, n: u32, reverse: bool, runs: &[(u32, u64)]) -> Call {
    let runs = words(runs);
    Call::Numbered {
        number,
        deed: Deed::Join { n, reverse, runs },
    }
}

fn close(number: u32, way: Way) -> Call {
    Call::Numbered {
        number,
        deed: Deed::Close(way),
    }
}

fn cycle(pivot: u32) -> Way {
    Way::Cycle { pivot }
}

fn show(unitig: u32, vertex: u32, room: usize) -> Call {
    Call::Show {
        unitig,
        vertex,
        room,
    }
}

const LENGTHS: Lengths = Lengths {
    records: 64,
    index: 8,
    open: 16,
    held: 16,
    runs: 64,
    table: 8,
};

/// Both stores, which must agree on every call.
struct Both {
    plain: Plain,
    state: State,
    buffers: Buffers,
}

impl Both {
    fn new(lengths: Lengths) -> Self {
        let mut buffers = Buffers::filled(lengths, 165);
        Both {
            plain: Plain::start(8, 2, lengths).unwrap(),
            state: State::start(8, 2, &mut buffers).unwrap(),
            buffers,
        }
    }

    fn call(&mut self, call: &Call) -> Result<Answer, u32> {
        let plain = self.plain.call(call).map_err(Clause::number);
        let (state, answer) = self.state.call(call, &mut self.buffers);
        self.state = state;
        assert_eq!(plain, answer.map_err(Clause::number), "{call:?}");
        plain
    }

    fn answers(&mut self, call: Call, value: u64) {
        assert_eq!(self.call(&call), Ok(Answer::Value(value)), "{call:?}");
    }

    fn shows(&mut self, call: Call, ids: &[u32]) {
        assert_eq!(self.call(&call), Ok(Answer::Ids(ids.to_vec())), "{call:?}");
    }

    /// Refused, and nothing is altered.
    fn refuses(&mut self, call: Call, number: u32) {
        let before = (self.state, self.buffers.clone());
        assert_eq!(self.call(&call), Err(number), "{call:?}");
        assert_eq!(before, (self.state, self.buffers.clone()), "{call:?}");
    }
}

/// Two sets: 2 and 258 name them.
fn with_sets(lengths: Lengths) -> Both {
    let mut both = Both::new(lengths);
    both.answers(add(1, &[5]), 2);
    both.answers(add(2, &[0, 7]), 258);
    both
}

#[test]
fn worked_case() {
    let mut both = with_sets(LENGTHS);
    both.answers(add(2, &[0, 7]), 258);
    both.refuses(add(2, &[1]), 11);
    both.refuses(add(4, &[1]), 10);
    let file = [0x02, 0x62, 0x01, 0x02, 0x1A, 0x08];
    assert_eq!(both.buffers.records[..6], file);
    assert_eq!(both.buffers.index[..3], [0, 3, 6]);
    both.answers(join(3, 3, false, &[(0, 2), (2, 258)]), 3);
    both.answers(join(4, 2, true, &[(0, 2), (1, 258)]), 4);
    both.answers(close(5, Way::Line), 0);
    assert_eq!(both.plain.closed[0].coordinates, [2, 2, 258, 2]);
    assert_eq!(both.plain.closed[0].starts, [0, 2, 3]);
    let runs = [pack(0, 2), pack(2, 258), pack(3, 2)];
    assert_eq!(
        model::read_runs(&both.buffers.runs),
        Ok((runs.to_vec(), 25))
    );
    assert_eq!(both.buffers.table[..2], [0, 4]);
    both.shows(show(0, 3, 1), &[5]);
    both.refuses(show(0, 4, 1), 14);
}

#[test]
fn cycles_are_turned_and_merged() {
    let mut both = with_sets(LENGTHS);
    both.answers(join(3, 5, false, &[(0, 2), (1, 258), (4, 2)]), 5);
    both.answers(close(4, cycle(6)), 0);
    assert_eq!(both.plain.closed[0].coordinates, [258, 258, 2, 258]);
    assert_eq!(both.plain.closed[0].starts, [0, 2, 3]);
    assert_eq!(both.state.used.runs, 25);
    // The pivot is compared as sent, neither modulo the filed count nor modulo the one before.
    for pivot in [2, 10, 1, 11, 5, 7] {
        both.refuses(close(4, cycle(pivot)), 11);
    }
    both.refuses(close(4, Way::Line), 11);
    both.answers(close(4, cycle(6)), 0);
}

/// Both stores hold one closed unitig, these runs of so many vertices.
fn filed(both: &Both, runs: &[(u32, u64)], vertices: u64) {
    let unitig = &both.plain.closed[0];
    let started: Vec<(u32, u64)> = unitig
        .starts
        .iter()
        .map(|&at| (at, unitig.coordinates[at as usize]))
        .collect();
    assert_eq!(started, runs);
    assert_eq!(unitig.coordinates.len() as u64, vertices);
    let len = both.state.used.runs;
    assert_eq!(model::read_runs(&both.buffers.runs), Ok((words(runs), len)));
    assert_eq!(both.buffers.table[..2], [0, vertices]);
    assert!(both.buffers.runs[len as usize..].iter().all(|&b| b == 165));
    assert!(both.buffers.table[2..].iter().all(|&word| word == 165));
}

/// The first vertex, sent again as the last one, counts once; the pivot is taken modulo what is left.
#[test]
fn cycles_drop_the_vertex_that_comes_again() {
    type Runs<'a> = &'a [(u32, u64)];
    let emptied: Runs = &[(0, 2), (2, 258), (4, 2)];
    let longer: Runs = &[(0, 2), (1, 258), (3, 2)];
    let cases: [(Runs, u32, Runs); 10] = [
        (emptied, 0, &[(0, 2), (2, 258)]),
        (emptied, 1, &[(0, 2), (1, 258), (3, 2)]),
        (emptied, 3, &[(0, 258), (1, 2), (3, 258)]),
        (emptied, 4, &[(0, 2), (2, 258)]),
        (emptied, 5, &[(0, 2), (1, 258), (3, 2)]),
        (emptied, u32::MAX, &[(0, 258), (1, 2), (3, 258)]),
        // A last run of two vertices keeps one.
        (longer, 0, &[(0, 2), (1, 258), (3, 2)]),
        (longer, 1, &[(0, 258), (2, 2)]),
        (longer, 3, &[(0, 2), (2, 258)]),
        (longer, 4, &[(0, 2), (1, 258), (3, 2)]),
    ];
    for (sent, pivot, runs) in cases {
        let mut both = with_sets(LENGTHS);
        both.answers(join(3, 5, false, sent), 5);
        let open = both.buffers.open.clone();
        both.answers(close(4, cycle(pivot)), 0);
        filed(&both, runs, 4);
        // Nothing is turned in place.
        assert_eq!(both.buffers.open, open);
        both.refuses(show(0, 4, 8), 14);
        both.answers(close(4, cycle(pivot)), 0);
    }
    // As a line it is filed whole.
    let mut both = with_sets(LENGTHS);
    both.answers(join(3, 5, false, emptied), 5);
    both.answers(close(4, Way::Line), 0);
    filed(&both, emptied, 5);
}

/// The unitig and not its last piece walks back.
#[test]
fn cycles_of_several_pieces() {
    let mut both = with_sets(LENGTHS);
    both.answers(join(3, 2, false, &[(0, 2), (1, 258)]), 2);
    both.refuses(close(4, cycle(0)), 16);
    both.answers(join(4, 2, false, &[(0, 258)]), 3);
    both.refuses(close(5, cycle(0)), 16);
    both.answers(join(5, 2, true, &[(0, 2), (1, 258)]), 4);
    both.answers(close(6, cycle(4)), 0);
    filed(&both, &[(0, 258), (2, 2)], 3);
    both.shows(show(0, 2, 1), &[5]);
    both.refuses(show(0, 3, 1), 14);
}

/// Two vertices of one coordinate, in one run or in two, leave one vertex.
#[test]
fn the_smallest_cycle() {
    for sent in [&[(0, 258)][..], &[(0, 258), (1, 258)]] {
        for pivot in [0, 1, 2, u32::MAX] {
            let mut both = with_sets(LENGTHS);
            both.answers(join(3, 2, false, sent), 2);
            both.answers(close(4, cycle(pivot)), 0);
            filed(&both, &[(0, 258)], 1);
            both.shows(show(0, 0, 2), &[0, 7]);
            both.refuses(show(0, 1, 2), 14);
        }
    }
}

/// They stay open, and may be closed as lines.
#[test]
fn unitigs_that_do_not_walk_back_are_no_cycles() {
    let cases: [(u32, &[(u32, u64)]); 4] = [
        (1, &[(0, 2)]),
        (2, &[(0, 2), (1, 258)]),
        (5, &[(0, 2), (2, 258)]),
        (5, &[(0, 2), (2, 258), (3, 2), (4, 258)]),
    ];
    for (n, runs) in cases {
        let mut both = with_sets(LENGTHS);
        both.answers(join(3, n, false, runs), u64::from(n));
        for pivot in [0, 1, n, u32::MAX] {
            both.refuses(close(4, cycle(pivot)), 16);
        }
        both.answers(close(4, Way::Line), 0);
        filed(&both, runs, u64::from(n));
    }
}

/// Pieces of five vertices, in short.
const EQUAL: [(u32, u64); 4] = [(0, 2), (1, 2), (2, 258), (3, 258)];
const OTHERS: [(u32, u64); 4] = [(0, 258), (1, 258), (2, 2), (3, 2)];

impl Both {
    /// Both stores hold an open unitig, these runs of so many vertices, and the buffer nothing behind them.
    fn open(&self, runs: &[(u32, u64)], vertices: u32) {
        let unitig = self.plain.open.as_ref().expect("an open unitig");
        let starts: Vec<u32> = runs.iter().map(|&(at, _)| at).collect();
        assert_eq!(unitig.starts, starts);
        assert_eq!(unitig.coordinates.len() as u32, vertices);
        assert_eq!(self.state.current, Current::Open(vertices));
        assert_eq!(self.state.used.open, runs.len() as u64);
        let (used, rest) = self.buffers.open.split_at(runs.len());
        assert_eq!(used, words(runs));
        assert!(rest.iter().all(|&word| word == 165));
    }

    /// The held piece is this one, as sent.
    fn holds(&self, runs: &[(u32, u64)]) {
        assert_eq!(self.state.used.held, runs.len() as u64);
        assert_eq!(self.buffers.held[..runs.len()], words(runs));
    }
}

#[test]
fn a_first_piece_is_merged() {
    let cases: [(bool, &[(u32, u64)]); 2] =
        [(false, &[(0, 2), (2, 258)]), (true, &[(0, 258), (3, 2)])];
    for (reverse, runs) in cases {
        let mut both = with_sets(LENGTHS);
        both.answers(join(3, 5, reverse, &EQUAL), 5);
        both.open(runs, 5);
        both.holds(&EQUAL);
        both.answers(close(4, Way::Line), 0);
        filed(&both, runs, 5);
    }
    // Four in a row, of one vertex each.
    let mut both = with_sets(LENGTHS);
    both.answers(
        join(3, 4, false, &[(0, 258), (1, 258), (2, 258), (3, 258)]),
        4,
    );
    both.open(&[(0, 258)], 4);
}

/// The run at the junction goes, and those behind it that are like it.
#[test]
fn later_pieces_are_merged() {
    for (reverse, piece) in [(false, EQUAL), (true, OTHERS)] {
        let mut both = with_sets(LENGTHS);
        both.answers(join(3, 3, false, &[(0, 258), (1, 2)]), 3);
        both.answers(join(4, 5, reverse, &piece), 7);
        let end = if reverse { 5 } else { 4 };
        both.open(&[(0, 258), (1, 2), (end, 258)], 7);
        both.holds(&piece);
        // Nothing but the last coordinate again.
        both.answers(
            join(5, 4, reverse, &[(0, 258), (1, 258), (2, 258), (3, 258)]),
            10,
        );
        both.open(&[(0, 258), (1, 2), (end, 258)], 10);
        both.answers(close(6, Way::Line), 0);
        filed(&both, &[(0, 258), (1, 2), (end, 258)], 10);
    }
}

/// A worker alone, which all coordinates of a store share, makes no equal neighbours.
#[test]
fn runs_of_one_worker_are_not_merged() {
    let mut both = with_sets(LENGTHS);
    both.answers(add(3, &[5]), 514);
    let runs = [(0, 2), (1, 514), (2, 258), (3, 2)];
    both.answers(join(4, 4, false, &runs), 4);
    both.open(&runs, 4);
    // The two sets are equal, and the coordinates are not.
    both.answers(join(5, 3, false, &[(0, 2), (1, 514), (2, 514)]), 6);
    both.open(&[(0, 2), (1, 514), (2, 258), (3, 2), (4, 514)], 6);
}

#[test]
fn repeats_are_compared_as_sent() {
    for reverse in [false, true] {
        let mut both = with_sets(LENGTHS);
        both.answers(join(3, 5, reverse, &EQUAL), 5);
        both.answers(join(3, 5, reverse, &EQUAL), 5);
        // Its merged runs, which leave the same open runs, are other arguments.
        both.refuses(join(3, 5, reverse, &[(0, 2), (2, 258)]), 11);
        let next = [(0, if reverse { 2 } else { 258 })];
        both.answers(join(4, 3, false, &next), 7);
        let cut = [(0, next[0].1), (1, next[0].1)];
        both.refuses(join(4, 3, false, &cut), 11);
        both.answers(join(4, 3, false, &next), 7);
    }
}

/// The open runs' buffer as long as the merged runs and the held piece's as long as those sent will do; one place less of
/// either is 3, also where the merged piece could be held.
#[test]
fn join_needs_the_merged_runs_and_the_piece_as_sent() {
    for reverse in [false, true] {
        for (open, held, fits) in [(2, 4, true), (1, 4, false), (2, 3, false), (2, 2, false)] {
            let mut both = with_sets(Lengths {
                open,
                held,
                ..LENGTHS
            });
            let first = join(3, 5, reverse, &EQUAL);
            if fits {
                both.answers(first, 5);
            } else {
                both.refuses(first, 3);
            }
        }
    }
    let same = [(0, 2), (1, 2), (2, 2), (3, 2)];
    for (piece, back, open, held, fits) in [
        (EQUAL, OTHERS, 3, 4, true),
        (EQUAL, OTHERS, 2, 4, false),
        (EQUAL, OTHERS, 3, 3, false),
        (EQUAL, OTHERS, 3, 2, false),
        // None is put behind the open runs.
        (same, same, 2, 4, true),
        (same, same, 2, 3, false),
    ] {
        for reverse in [false, true] {
            let mut both = with_sets(Lengths {
                open,
                held,
                ..LENGTHS
            });
            both.answers(join(3, 3, false, &[(0, 258), (1, 2)]), 3);
            let later = join(4, 5, reverse, if reverse { &back } else { &piece });
            if fits {
                both.answers(later, 7);
            } else {
                both.refuses(later, 3);
            }
        }
    }
}

/// Of the four runs sent, two are filed, in 17 bytes: as a line, and as a cycle whose third run has the dropped vertex alone.
#[test]
fn close_needs_the_merged_runs() {
    for (runs, fits) in [(17, true), (16, false)] {
        for way in [Way::Line, cycle(0)] {
            let mut both = with_sets(Lengths { runs, ..LENGTHS });
            both.answers(join(3, 5, false, &EQUAL), 5);
            if way != Way::Line {
                both.answers(join(4, 2, false, &[(0, 258), (1, 2)]), 6);
            }
            let number = both.state.number + 1;
            if fits {
                both.answers(close(number, way), 0);
                filed(&both, &[(0, 2), (2, 258)], 5);
            } else {
                both.refuses(close(number, way), 3);
            }
        }
    }
}

/// A piece as it is sent, and its coordinates vertex by vertex, the runs' way around.
struct Piece {
    reverse: bool,
    runs: Vec<(u32, u64)>,
    coordinates: Vec<u64>,
}

impl Piece {
    fn one(reverse: bool, named: u64) -> Piece {
        Piece {
            reverse,
            runs: vec![(0, named)],
            coordinates: vec![named],
        }
    }

    /// With one more vertex, which begins a run or doesn't.
    fn and(&self, named: u64, starts: bool) -> Piece {
        let at = self.coordinates.len() as u32;
        let start = starts.then_some((at, named));
        Piece {
            reverse: self.reverse,
            runs: self.runs.iter().copied().chain(start).collect(),
            coordinates: [&self.coordinates[..], &[named]].concat(),
        }
    }

    fn n(&self) -> u32 {
        self.coordinates.len() as u32
    }

    fn oriented(&self) -> Vec<u64> {
        let mut coordinates = self.coordinates.clone();
        if self.reverse {
            coordinates.reverse();
        }
        coordinates
    }

    fn join(&self, number: u32) -> Call {
        join(number, self.n(), self.reverse, &self.runs)
    }
}

/// Every sharp list of two coordinates and up to so many vertices: each vertex behind the first goes on with its run, repeats its
/// coordinate in a run of its own, or has the other one.
fn small_pieces(reverse: bool, most: u32) -> Vec<Piece> {
    let mut pieces = vec![Piece::one(reverse, 2), Piece::one(reverse, 258)];
    let mut from = 0;
    for n in 1..most {
        let to = pieces.len();
        for k in from..to {
            let last = pieces[k].coordinates[n as usize - 1];
            for (named, starts) in [(last, false), (last, true), (260 - last, true)] {
                pieces.push(pieces[k].and(named, starts));
            }
        }
        from = to;
    }
    pieces
}

/// The first vertex and each one unlike that before it, with its coordinate.
fn changes(coordinates: &[u64]) -> Vec<(u32, u64)> {
    (0..coordinates.len())
        .filter(|&v| v == 0 || coordinates[v] != coordinates[v - 1])
        .map(|v| (v as u32, coordinates[v]))
        .collect()
}

/// The pieces joined, and the unitig closed as a line, in buffers of these lengths.
fn two_pieces(first: &Piece, second: &Piece, open: u64, held: u64) {
    let mut both = with_sets(Lengths {
        open,
        held,
        ..LENGTHS
    });
    let fits = |coordinates: &[u64], piece: &Piece| {
        changes(coordinates).len() as u64 <= open && piece.runs.len() as u64 <= held
    };
    let mut coordinates = first.oriented();
    if !fits(&coordinates, first) {
        return both.refuses(first.join(3), 3);
    }
    both.answers(first.join(3), first.n().into());
    both.open(&changes(&coordinates), first.n());
    both.holds(&first.runs);

    let behind = second.oriented();
    if coordinates.last() != behind.first() {
        return both.refuses(second.join(4), 8);
    }
    coordinates.extend(&behind[1..]);
    if !fits(&coordinates, second) {
        return both.refuses(second.join(4), 3);
    }
    let vertices = coordinates.len() as u32;
    both.answers(second.join(4), vertices.into());
    both.open(&changes(&coordinates), vertices);
    both.holds(&second.runs);
    both.answers(close(5, Way::Line), 0);
    filed(&both, &changes(&coordinates), vertices.into());
}

/// Every two small pieces, in either direction, in buffers from too short to long enough: the open runs are those of the changes of
/// coordinate and the first, and so are the closed ones; the held piece is as sent.
#[test]
fn every_two_small_pieces() {
    let pieces = [false, true].map(|reverse| small_pieces(reverse, 3));
    assert_eq!(pieces.each_ref().map(Vec::len), [2 + 6 + 18; 2]);
    for first in pieces.iter().flatten() {
        for second in pieces.iter().flatten() {
            for open in 1..=6 {
                for held in 1..=4 {
                    two_pieces(first, second, open, held);
                }
            }
        }
    }
}

/// Each call is wrong in all that follows its refusal, and mended one thing at a time.
#[test]
fn order_of_add() {
    let mut both = with_sets(Lengths {
        records: 6,
        index: 3,
        ..LENGTHS
    });
    both.answers(join(3, 1, false, &[(0, 2)]), 1);
    both.refuses(add(0, &[9]), 10);
    both.refuses(add(5, &[9]), 10);
    both.refuses(add(u32::MAX, &[9]), 10);
    both.refuses(add(3, &[9]), 11);
    both.refuses(add(4, &[9]), 2);
    both.refuses(add(4, &[1]), 3);
    both.answers(close(4, Way::Line), 0);
    both.refuses(add(5, &[8]), 2);
    both.refuses(add(5, &[1, 1]), 2);
    both.refuses(add(5, &[1]), 3);
    both.refuses(add(5, &[]), 3);
}

#[test]
fn the_empty_set_is_filed_and_shown() {
    let mut both = Both::new(Lengths {
        records: 7,
        index: 4,
        ..LENGTHS
    });
    both.answers(add(1, &[]), 2);
    both.answers(add(1, &[]), 2);
    both.refuses(add(1, &[0]), 11);
    both.answers(add(2, &[5]), 258);
    both.refuses(add(2, &[]), 11);
    both.answers(add(3, &[]), 514);
    both.refuses(add(4, &[]), 3);
    let file = [0x01, 0x01, 0x02, 0x62, 0x01, 0x01, 0x01];
    assert_eq!(both.buffers.records, file);
    assert_eq!(both.buffers.index, [0, 2, 5, 7]);
    both.answers(join(4, 3, false, &[(0, 2), (1, 258), (2, 514)]), 3);
    both.refuses(add(5, &[]), 3);
    both.answers(close(5, Way::Line), 0);
    both.shows(show(0, 0, 0), &[]);
    both.refuses(show(0, 1, 0), 3);
    both.shows(show(0, 1, 1), &[5]);
    both.shows(show(0, 2, 3), &[]);
}

/// The open unitig, its runs and the held piece are as they were, and later pieces may name the set.
#[test]
fn a_set_is_filed_while_a_unitig_is_open() {
    let mut both = Both::new(LENGTHS);
    both.answers(add(1, &[5]), 2);
    both.answers(join(2, 3, false, &[(0, 2)]), 3);
    both.refuses(join(3, 2, false, &[(0, 2), (1, 258)]), 9);
    let (open, before) = (both.plain.open.clone(), both.buffers.clone());
    both.answers(add(3, &[0, 7]), 258);
    assert_eq!(both.plain.open, open);
    assert_eq!(both.state.current, Current::Open(3));
    assert_eq!((both.state.used.open, both.state.used.held), (1, 1));
    assert_eq!(both.buffers.open, before.open);
    assert_eq!(both.buffers.held, before.held);
    both.answers(add(3, &[0, 7]), 258);
    both.refuses(join(2, 3, false, &[(0, 2)]), 10);
    both.refuses(join(3, 2, false, &[(0, 2), (1, 258)]), 11);
    both.answers(join(4, 2, false, &[(0, 2), (1, 258)]), 4);
    both.answers(close(5, Way::Line), 0);
    assert_eq!(both.plain.closed[0].coordinates, [2, 2, 2, 258]);
    both.shows(show(0, 2, 1), &[5]);
    both.shows(show(0, 3, 2), &[0, 7]);
}

#[test]
fn add_needs_bytes_and_an_entry() {
    for (records, index, fits) in [(6, 3, true), (5, 3, false), (6, 2, false)] {
        let mut both = Both::new(Lengths {
            records,
            index,
            ..LENGTHS
        });
        both.answers(add(1, &[5]), 2);
        if fits {
            both.answers(add(2, &[0, 7]), 258);
        } else {
            both.refuses(add(2, &[0, 7]), 3);
        }
    }
}

#[test]
fn order_of_join() {
    let mut both = with_sets(Lengths {
        open: 2,
        held: 2,
        ..LENGTHS
    });
    both.answers(join(3, 3, false, &[(0, 2), (2, 258)]), 3);
    let wrong = [(1, 3), (1, 770)];
    both.refuses(join(0, 0, false, &wrong), 10);
    both.refuses(join(5, 0, false, &wrong), 10);
    both.refuses(join(3, 0, false, &wrong), 11);
    both.refuses(join(3, 3, true, &[(0, 2), (2, 258)]), 11);
    both.refuses(join(4, 0, false, &wrong), 7);
    both.refuses(join(4, 16_777_214, false, &wrong), 7);
    both.refuses(join(4, u32::MAX, false, &wrong), 7);
    both.refuses(join(4, 16_777_213, false, &wrong), 6);
    both.refuses(join(4, 2, false, &[(0, 3), (1, 2), (2, 2)]), 6);
    both.refuses(join(4, 3, false, &[(0, 3), (1, 2), (2, 2)]), 9);
    both.refuses(join(4, 3, false, &[(0, 514), (1, 2), (2, 2)]), 9);
    both.refuses(join(4, 3, false, &[(0, 2), (1, 2), (2, 258)]), 8);
    both.refuses(join(4, 3, true, &[(0, 258), (1, 2), (2, 2)]), 8);
    both.refuses(join(4, 3, false, &[(0, 258), (1, 2), (2, 2)]), 3);
    both.answers(join(4, 3, false, &[(0, 258)]), 5);
}

#[test]
fn join_needs_open_runs_and_a_held_piece() {
    for (open, held, fits) in [(3, 2, true), (2, 2, false), (3, 1, false)] {
        let mut both = with_sets(Lengths {
            open,
            held,
            ..LENGTHS
        });
        both.answers(join(3, 1, false, &[(0, 2)]), 1);
        both.answers(join(4, 2, false, &[(0, 2)]), 2);
        let next = join(5, 3, false, &[(0, 2), (1, 258)]);
        if open == 2 {
            both.answers(next, 4);
            both.refuses(join(6, 2, false, &[(0, 258), (1, 2)]), 3);
        } else if fits {
            both.answers(next, 4);
            both.answers(join(6, 2, false, &[(0, 258), (1, 2)]), 5);
        } else {
            both.refuses(next, 3);
        }
    }
}

#[test]
fn order_of_close() {
    let mut both = with_sets(Lengths {
        runs: 8,
        table: 1,
        ..LENGTHS
    });
    both.refuses(close(0, Way::Line), 10);
    both.refuses(close(2, Way::Line), 11);
    both.refuses(close(3, Way::Line), 13);
    both.refuses(close(3, cycle(0)), 13);
    both.answers(join(3, 1, false, &[(0, 2)]), 1);
    both.refuses(close(3, Way::Line), 11);
    both.refuses(close(4, Way::Line), 3);
    both.refuses(close(0, cycle(0)), 10);
    both.refuses(close(5, cycle(0)), 10);
    both.refuses(close(3, cycle(0)), 11);
    both.refuses(close(4, cycle(0)), 16);
    both.answers(join(4, 2, false, &[(0, 2), (1, 258)]), 2);
    both.refuses(close(5, cycle(0)), 16);
    both.answers(join(5, 2, false, &[(0, 258), (1, 2)]), 3);
    both.refuses(close(6, cycle(0)), 3);
}

/// A cycle's space is that of its runs without the last vertex, turned and merged: as many as the open ones, or fewer.
#[test]
fn close_needs_bytes_and_a_row() {
    for (runs, table, way, fits) in [
        (25, 2, Way::Line, true),
        (24, 2, Way::Line, false),
        (25, 1, Way::Line, false),
        (25, 2, cycle(2), true),
        (24, 2, cycle(2), false),
        (25, 1, cycle(2), false),
        (17, 2, cycle(1), true),
        (16, 2, cycle(1), false),
        (17, 2, Way::Line, false),
        // Not turned: only the run that the last vertex had for itself is gone.
        (17, 2, cycle(0), true),
        (16, 2, cycle(0), false),
    ] {
        let mut both = with_sets(Lengths {
            runs,
            table,
            ..LENGTHS
        });
        both.answers(join(3, 5, false, &[(0, 2), (1, 258), (4, 2)]), 5);
        if fits {
            both.answers(close(4, way), 0);
        } else {
            both.refuses(close(4, way), 3);
        }
    }
}

#[test]
fn order_of_show() {
    let mut both = with_sets(LENGTHS);
    both.refuses(show(0, 0, 0), 14);
    both.answers(join(3, 2, false, &[(0, 258)]), 2);
    both.refuses(show(0, 0, 0), 14);
    both.answers(close(4, Way::Line), 0);
    both.refuses(show(1, 0, 0), 14);
    both.refuses(show(0, 2, 0), 14);
    both.refuses(show(0, 1, 1), 3);
    both.shows(show(0, 1, 2), &[0, 7]);
}

#[test]
fn order_of_start() {
    let none = Lengths {
        index: 0,
        ..LENGTHS
    };
    for (n, worker, lengths, clause) in [
        (0, 256, none, Clause::Colors),
        (1_048_577, 2, none, Clause::Colors),
        (8, 256, none, Clause::Worker),
        (8, 255, none, Clause::NoIndexEntry),
    ] {
        let mut buffers = Buffers::filled(lengths, 165);
        assert_eq!(Plain::start(n, worker, lengths).err(), Some(clause));
        assert_eq!(State::start(n, worker, &mut buffers), Err(clause));
        assert_eq!(buffers, Buffers::filled(lengths, 165));
    }
    let long = Lengths {
        table: 1 << 32,
        ..LENGTHS
    };
    assert_eq!(Plain::start(8, 2, long).err(), Some(Clause::LongBuffer));
}

/// One answer after the state or a buffer was altered, which leaves both as they are.
fn altered(before: &Both, call: Call, alter: impl FnOnce(&mut State, &mut Buffers)) -> u32 {
    let (mut state, mut buffers) = (before.state, before.buffers.clone());
    alter(&mut state, &mut buffers);
    let kept = buffers.clone();
    let (after, answer) = state.call(&call, &mut buffers);
    let clause = answer.expect_err("altered memory");
    assert_eq!((after, buffers), (state, kept));
    clause.number()
}

#[test]
fn altered_state_comes_first() {
    let mut both = with_sets(LENGTHS);
    both.answers(join(3, 3, false, &[(0, 2), (2, 258)]), 3);
    let alterations: [fn(&mut State, &mut Buffers); 21] = [
        |_, b| b.records.truncate(63),
        |_, b| b.index.push(0),
        |_, b| b.open.push(0),
        |_, b| b.held.push(0),
        |_, b| b.runs.push(0),
        |_, b| b.table.push(0),
        |s, _| s.lengths.table += 1,
        |s, _| s.used.records = 65,
        |s, _| s.used.sets = 8,
        |s, _| s.used.open = 17,
        |s, _| s.used.held = 17,
        |s, _| s.used.runs = 65,
        |s, _| s.used.unitigs = 5,
        |s, _| s.used.sets = u32::MAX,
        |s, _| s.used.unitigs = u32::MAX,
        |s, _| s.n = 0,
        |s, _| s.n = 1_048_577,
        |s, _| s.worker = 256,
        |s, _| s.current = Current::Open(0),
        |s, _| s.current = Current::Open(16_777_216),
        |s, b| {
            b.index.clear();
            s.lengths.index = 0;
        },
    ];
    for alter in alterations {
        for call in [
            add(0, &[9]),
            join(0, 0, false, &[]),
            close(0, Way::Line),
            close(0, cycle(0)),
            show(9, 9, 0),
        ] {
            assert_eq!(altered(&both, call, alter), 15);
        }
    }
}

#[test]
fn altered_repeats() {
    let both = with_sets(LENGTHS);
    let again = || add(2, &[0, 7]);
    let alterations: [fn(&mut State, &mut Buffers); 9] = [
        |_, b| b.records[3] = 0x80,
        |_, b| b.records[4] = 0xFF,
        |_, b| b.index[1] = 6,
        |_, b| b.index[1] = 7,
        |_, b| b.index[1] = u64::MAX,
        |s, _| s.used.records = 5,
        |s, _| s.answer = 259,
        |s, _| s.answer = 514,
        |s, _| s.last = Last::Nothing,
    ];
    for alter in alterations {
        assert_eq!(altered(&both, again(), alter), 11);
        // What can't be read is not the empty set.
        assert_eq!(altered(&both, add(2, &[]), alter), 11);
    }
    let mut both = both;
    both.answers(join(3, 3, false, &[(0, 2), (2, 258)]), 3);
    let again = || join(3, 3, false, &[(0, 2), (2, 258)]);
    assert_eq!(altered(&both, again(), |_, b| b.held[1] += 1), 11);
    assert_eq!(altered(&both, again(), |s, _| s.used.held = 1), 11);
}

#[test]
fn altered_open_runs() {
    let mut both = with_sets(LENGTHS);
    both.answers(join(3, 3, false, &[(0, 2), (2, 258)]), 3);
    let alterations: [fn(&mut State, &mut Buffers); 5] = [
        |_, b| b.open[0] += 1,
        |_, b| b.open[1] += 1,
        |s, _| s.used.open = 0,
        |s, _| s.current = Current::Open(2),
        |s, _| s.current = Current::Open(1),
    ];
    for alter in alterations {
        // 5 stands between 9 and 8, and before 3.
        let far = join(4, 2, false, &[(0, 2), (1, 514)]);
        assert_eq!(altered(&both, far, alter), 9);
        let apart = join(4, 2, false, &[(0, 2), (1, 258)]);
        assert_eq!(altered(&both, apart, alter), 5);
        assert_eq!(altered(&both, close(4, Way::Line), alter), 5);
        // Before 16, which this unitig has as a cycle.
        assert_eq!(altered(&both, close(4, cycle(0)), alter), 5);
    }
    both.refuses(close(4, cycle(0)), 16);
    // Without an open unitig they aren't looked at.
    both.answers(close(4, Way::Line), 0);
    both.buffers.open.fill(u64::MAX);
    both.answers(join(5, 1, false, &[(0, 258)]), 1);
}

/// Sharp open runs with equal neighbours, as no call leaves them, are taken as they are: only the piece is merged.
#[test]
fn altered_open_runs_with_equal_neighbours() {
    let mut both = with_sets(LENGTHS);
    both.answers(join(3, 3, false, &[(0, 258), (1, 2)]), 3);
    let (state, mut buffers) = (both.state, both.buffers);
    buffers.open[0] = pack(0, 2);
    let piece = join(4, 3, false, &[(0, 2), (1, 2), (2, 258)]);
    let (state, answer) = state.call(&piece, &mut buffers);
    assert_eq!(answer, Ok(Answer::Value(5)));
    assert_eq!(state.used.open, 3);
    let runs = [pack(0, 2), pack(1, 2), pack(4, 258)];
    assert_eq!(buffers.open[..3], runs);
    let (state, answer) = state.call(&close(5, Way::Line), &mut buffers);
    assert_eq!(answer, Ok(Answer::Value(0)));
    let filed = model::read_runs(&buffers.runs[..state.used.runs as usize]);
    assert_eq!(filed, Ok((runs.to_vec(), 25)));
}

#[test]
fn altered_unitigs_and_records() {
    let mut both = with_sets(LENGTHS);
    both.answers(join(3, 3, false, &[(0, 2), (2, 258)]), 3);
    both.answers(close(4, Way::Line), 0);
    let alterations: [fn(&mut State, &mut Buffers); 12] = [
        |_, b| b.table[0] = 18,
        |_, b| b.table[0] = u64::MAX,
        |_, b| b.table[1] = 16_777_216,
        |_, b| b.table[0] = 1,
        |_, b| b.runs[0] = 0x80,
        |_, b| b.runs[0] = 0,
        |_, b| b.runs[1] = 1,
        |_, b| b.runs[12] = 3,
        |_, b| b.runs[13] = 2,
        |_, b| b.index[1] = 7,
        |_, b| b.records[4] = 0xFF,
        |s, _| s.used.records = 5,
    ];
    for (i, alter) in alterations.into_iter().enumerate() {
        assert_eq!(altered(&both, show(0, 2, 0), alter), 5, "alteration {i}");
    }
    // 14 is about the count as found.
    assert_eq!(altered(&both, show(0, 2, 0), |_, b| b.table[1] = 2), 14);
    // What another vertex names doesn't matter.
    both.buffers.index[1] = 7;
    both.shows(show(0, 1, 1), &[5]);
}
