//! Random calls of the store. What is asked for depends on what the plain store holds, so that many calls are accepted and every
//! refusal is met.

use crate::random::Random;
use model::MAX_VERTICES;
use model::calls::{Call, Deed, Lengths, Way};
use model::plain::{Plain, Unitig};
use model::runs::{coordinate, offset, pack};

/// What a list of calls is like: its start, how many calls it has, and how large they are.
pub struct Shape {
    pub n: u32,
    pub worker: u32,
    pub lengths: Lengths,
    pub calls: usize,
    /// The most vertices and runs of a usual piece.
    pub vertices: u32,
    pub runs: u32,
}

impl Random {
    fn between(&mut self, low: u64, high: u64) -> u64 {
        low + self.below(high - low + 1)
    }

    /// One time in `times`.
    fn rarely(&mut self, times: u64) -> bool {
        self.below(times) == 0
    }

    fn lengths(&mut self, least: u64, most: u64) -> Lengths {
        Lengths {
            records: self.between(least, most),
            index: self.between(least, most),
            open: self.between(least, most),
            held: self.between(least, most),
            runs: 9 * self.between(least, most),
            table: self.between(least, most),
        }
    }

    /// Buffers that fill at once, soon, late or never; or all but one of which are large.
    fn any_lengths(&mut self) -> Lengths {
        let large = Lengths {
            records: 65536,
            index: 8192,
            open: 8192,
            held: 8192,
            runs: 65536,
            table: 8192,
        };
        match self.below(10) {
            0 => self.lengths(0, 4),
            1 | 2 => self.lengths(2, 20),
            3 | 4 => self.lengths(20, 120),
            5 => self.lengths(100, 1000),
            6 | 7 => {
                let short = self.lengths(1, 24);
                let mut one = large;
                match self.below(6) {
                    0 => one.records = short.records,
                    1 => one.index = short.index,
                    // Often so short that usual pieces fit merged and not as sent.
                    2 if self.flip() => one.open = self.between(1, 6),
                    2 => one.open = short.open,
                    // Often shorter than usual pieces as sent and not than their merged runs.
                    3 if self.flip() => one.held = self.between(1, 5),
                    3 => one.held = short.held,
                    // A unitig that doesn't fit stays open, so that a longer run file is seldom filled: often one unitig's bytes.
                    4 if self.flip() => one.runs = 1 + 8 * self.between(1, 4),
                    4 => one.runs = short.runs,
                    _ => one.table = short.table,
                }
                one
            }
            _ => large,
        }
    }

    /// A list of any kind.
    pub fn shape(&mut self) -> Shape {
        let n = match self.below(40) {
            0 => self.pick(&[0, 1_048_577, u32::MAX]),
            1 | 2 => self.pick(&[65_536, 1_048_575, 1_048_576, 1_048_576]),
            3..7 => self.between(1, 1000) as u32,
            _ => self.pick(&[1, 2, 3, 4, 5, 7, 8, 9, 12, 16, 31, 32, 33, 64, 100]),
        };
        let worker = match self.below(40) {
            0 => self.pick(&[256, 257, u32::MAX]),
            _ => self.pick(&[0, 1, 2, 7, 128, 254, 255]),
        };
        let (vertices, runs) = match self.below(8) {
            0 => (400, 150),
            1 => (100_000, 12),
            2 => (2, 2),
            _ => (12, 6),
        };
        Shape {
            n,
            worker,
            lengths: self.any_lengths(),
            calls: match self.below(20) {
                // A model has an array over the vertices.
                _ if vertices > 1000 => self.between(20, 60),
                0 => self.between(1, 10),
                1 => self.between(400, 2000),
                _ => self.between(20, 250),
            } as usize,
            vertices,
            runs,
        }
    }

    /// A list whose unitigs reach the most vertices there may be: few calls, since a model has an array over them.
    pub fn largest_shape(&mut self) -> Shape {
        Shape {
            n: 8,
            worker: 2,
            lengths: self.lengths(100, 200),
            calls: 24,
            vertices: MAX_VERTICES,
            runs: 4,
        }
    }

    /// `overtaken` is the accepted call before the last one, with its number.
    pub fn call(&mut self, plain: &Plain, shape: &Shape, overtaken: Option<&(u32, Deed)>) -> Call {
        if self.below(100) < 22 {
            return self.look(plain);
        }
        if let Some((deed, _)) = &plain.accepted {
            let number = plain.last;
            match self.below(100) {
                0..10 => {
                    let deed = deed.clone();
                    return Call::Numbered { number, deed };
                }
                10..15 => {
                    let deed = self.changed(deed, plain);
                    return Call::Numbered { number, deed };
                }
                15..18 => {
                    if let Some((number, deed)) = overtaken.cloned() {
                        return Call::Numbered { number, deed };
                    }
                }
                _ => {}
            }
        }
        let next = plain.last.wrapping_add(1);
        let number = match self.below(50) {
            0 => 0,
            1 => self.pick(&[next.wrapping_add(1), next.wrapping_add(2), u32::MAX]),
            2 => plain.last.saturating_sub(1),
            3 => plain.last,
            _ => next,
        };
        let deed = self.deed(plain, shape);
        Call::Numbered { number, deed }
    }

    fn deed(&mut self, plain: &Plain, shape: &Shape) -> Deed {
        match (self.below(100), plain.open.is_some()) {
            // A set is often filed while a unitig is open.
            (0..50, false) | (0..34, true) => self.set_of(plain.n),
            (50..92, false) | (34..78, true) => self.piece(plain, shape),
            _ => Deed::Close(self.way(plain.open.as_ref())),
        }
    }

    /// Mostly a cycle where the unitig walks back to its first vertex, and a line where it doesn't.
    fn way(&mut self, open: Option<&Unitig>) -> Way {
        let cycle = match open {
            Some(open) if walks_back(open) => !self.rarely(4),
            _ => self.rarely(6),
        };
        if !cycle {
            return Way::Line;
        }
        let n = open.map_or(1, |open| open.coordinates.len()) as u32;
        let pivot = match self.below(8) {
            0 => 0,
            // Around the counts with and without the last vertex.
            1..4 => self.pick(&[n.saturating_sub(2), n - 1, n, n + 1, 2 * n - 1, u32::MAX]),
            4 => self.word() as u32,
            // Often different modulo these two.
            _ => self.below(3 * u64::from(n)) as u32,
        };
        Way::Cycle { pivot }
    }

    /// Ids to add: none in a tenth of the calls, seldom such as are refused.
    fn set_of(&mut self, n: u32) -> Deed {
        if self.rarely(10) {
            return Deed::Add { ids: Vec::new() };
        }
        let mut ids = if n > 1000 {
            let mut ids: Vec<u32> = (0..self.between(1, 12))
                .map(|_| self.below(u64::from(n)) as u32)
                .collect();
            ids.sort_unstable();
            ids.dedup();
            ids
        } else {
            let most = u64::from(n);
            let len = match self.below(10) {
                0 => self.pick(&[n / 4, 3 * n / 4, n]),
                1 => self.pick(&[n / 4, 3 * n / 4, n]).saturating_sub(1),
                2..5 => self.between(1, most) as u32,
                _ => self.between(1, most.min(4)) as u32,
            };
            self.set(n, len.max(1))
        };
        let place = self.below(ids.len() as u64) as usize;
        match self.below(60) {
            0 => ids.insert(place, ids[place]),
            1 => ids.reverse(),
            2 => ids.push(n),
            3 => ids.push(self.pick(&[n + 1, n + 255, u32::MAX])),
            _ => {}
        }
        Deed::Add { ids }
    }

    /// The coordinate of one of the store's sets, as far as it has any.
    fn named(&mut self, plain: &Plain) -> u64 {
        let sets = plain.sets.len().max(1) as u64;
        let place = match self.below(8) {
            // Often one of the first, so that neighbours are equal and pieces meet.
            0..4 => self.below(sets.min(2)),
            // The last one, which may have been filed while the unitig was open.
            4 => sets - 1,
            _ => self.below(sets),
        };
        u64::from(plain.worker) + 256 * place
    }

    /// A piece to join, seldom one that is refused.
    fn piece(&mut self, plain: &Plain, shape: &Shape) -> Deed {
        let open = plain.open.as_ref();
        let count = open.map_or(1, |open| open.coordinates.len()) as u32;
        let n = match self.below(4) {
            // What is left up to the most vertices there may be.
            0 | 2 if shape.vertices == MAX_VERTICES => MAX_VERTICES - count + 1,
            1 => self.between(1, 3) as u32,
            _ => self.between(1, u64::from(shape.vertices)) as u32,
        };
        let reverse = self.flip();
        // Whether it brings the unitig back to its first coordinate, by a run of its own where the piece has two vertices or more.
        let back = self.flip();
        let mut offsets = self.offsets(n, shape.runs);
        if back && n > 1 {
            offsets.push(self.last_run(n, reverse));
            offsets.sort_unstable();
        }
        offsets.dedup();
        let mut runs: Vec<u64> = offsets
            .iter()
            .map(|&at| pack(at, self.named(plain)))
            .collect();
        self.cut_finely(&mut runs);
        let end = runs.len() - 1;
        let (first, last) = if reverse { (end, 0) } else { (0, end) };
        if back {
            let named = open.map_or(coordinate(runs[first]), |open| open.coordinates[0]);
            runs[last] = pack(offset(runs[last]), named);
        }
        if let Some(&named) = open.and_then(|open| open.coordinates.last())
            && !self.rarely(12)
        {
            runs[first] = pack(offset(runs[first]), named);
        }
        self.spoiled_piece(n, count, reverse, runs, plain)
    }

    /// Gives some runs the coordinate of the one before. With those that have it by chance, these are about half.
    fn cut_finely(&mut self, runs: &mut [u64]) {
        for i in 1..runs.len() {
            if self.below(5) < 2 {
                runs[i] = pack(offset(runs[i]), coordinate(runs[i - 1]));
            }
        }
    }

    /// Where a run starts that ends a piece of `n` vertices, or begins one that is sent reversed: often of one vertex. `n` is above 1.
    fn last_run(&mut self, n: u32, reverse: bool) -> u32 {
        match (self.flip(), reverse) {
            (true, false) => n - 1,
            (true, true) => 1,
            _ => self.between(1, u64::from(n) - 1) as u32,
        }
    }

    fn spoiled_piece(
        &mut self,
        mut n: u32,
        open: u32,
        reverse: bool,
        mut runs: Vec<u64>,
        plain: &Plain,
    ) -> Deed {
        let place = self.below(runs.len() as u64) as usize;
        let (at, named) = (offset(runs[place]), coordinate(runs[place]));
        match self.below(80) {
            0 => n = 0,
            1 => n = MAX_VERTICES - open + 2,
            2 => n = self.pick(&[MAX_VERTICES + 1, MAX_VERTICES + 2, u32::MAX]),
            3 => runs.clear(),
            4 => runs[0] += 1,
            5 => runs.insert(place, runs[place]),
            6 => runs.push(pack(n.min((1 << 24) - 1), named)),
            7 => runs.push(pack(0, named)),
            8 => runs[place] = pack(at, named ^ 1),
            9 => runs[place] = pack(at, named ^ 128),
            10 => {
                let sets = plain.sets.len() as u64;
                runs[place] = pack(at, u64::from(plain.worker) + 256 * sets);
            }
            11 => runs[place] = pack(at, u64::from(plain.worker) + 256 * u64::from(u32::MAX)),
            _ => {}
        }
        Deed::Join { n, reverse, runs }
    }

    /// The last accepted call with another argument, or another call.
    fn changed(&mut self, deed: &Deed, plain: &Plain) -> Deed {
        let mut deed = deed.clone();
        match &mut deed {
            Deed::Add { ids } if ids.is_empty() => ids.push(self.pick(&[0, plain.n])),
            Deed::Add { ids } => match self.below(6) {
                0 => ids[0] ^= 1,
                1 => {
                    ids.pop();
                }
                2 => ids.push(plain.n),
                3 => ids.reverse(),
                4 => ids.clear(),
                _ => return Deed::Close(self.way(plain.open.as_ref())),
            },
            Deed::Join { n, reverse, runs } => match self.below(7) {
                0 => *n = n.wrapping_add(1),
                1 => *reverse = !*reverse,
                2 => {
                    runs.pop();
                }
                3 => runs[0] ^= 1 << self.below(64),
                4 => runs.push(runs[0]),
                // Its merged runs, of which the open ones would be the same.
                5 => runs.dedup_by_key(|run| coordinate(*run)),
                _ => return self.set_of(plain.n),
            },
            Deed::Close(way) => {
                // Of a cycle, without the vertex that was dropped.
                let n = plain.closed.last().map_or(1, |last| last.coordinates.len()) as u32;
                *way = match *way {
                    Way::Line => Way::Cycle { pivot: 0 },
                    Way::Cycle { .. } if self.rarely(4) => Way::Line,
                    Way::Cycle { pivot } => Way::Cycle {
                        pivot: pivot.wrapping_add(self.pick(&[1, n, n + 1])),
                    },
                }
            }
        }
        deed
    }

    fn look(&mut self, plain: &Plain) -> Call {
        let unitigs = plain.closed.len() as u32;
        if unitigs == 0 || self.rarely(16) {
            return Call::Show {
                unitig: self.pick(&[unitigs, unitigs + 1, u32::MAX]),
                vertex: 0,
                room: 1,
            };
        }
        let unitig = self.below(u64::from(unitigs)) as u32;
        let coordinates = &plain.closed[unitig as usize].coordinates;
        let n = coordinates.len() as u32;
        if self.rarely(12) {
            let vertex = self.pick(&[n, n + 1, u32::MAX]);
            return Call::Show {
                unitig,
                vertex,
                room: 1,
            };
        }
        let vertex = match self.below(4) {
            0 => self.pick(&[0, n - 1]),
            _ => self.below(u64::from(n)) as u32,
        };
        let named = coordinates[vertex as usize];
        let ids = plain.sets[(named / 256) as usize].len();
        let room = match self.below(10) {
            0 => ids.saturating_sub(1),
            1 => 0,
            2 => ids + 3,
            _ => ids,
        };
        Call::Show {
            unitig,
            vertex,
            room,
        }
    }
}

fn walks_back(unitig: &Unitig) -> bool {
    let all = &unitig.coordinates;
    all.len() > 1 && all.first() == all.last()
}
