//! The plain store: sets as they were sent, a unitig as one coordinate per vertex and the vertices where a run starts. It has no
//! buffers, only their lengths, by which it refuses.

use crate::calls::{Answer, Call, Clause, Deed, Lengths, Way};
use crate::records::{limit_ids, prefix_of, record_of};
use crate::runs::{coordinate, is_sharp, offset};
use crate::{MAX_COLORS, MAX_VERTICES, Why};

#[derive(Debug, Clone, PartialEq, Eq)]
pub struct Unitig {
    pub coordinates: Vec<u64>,
    pub starts: Vec<u32>,
}

impl Unitig {
    /// A sharp list, expanded.
    fn of(runs: &[u64], n: u32) -> Self {
        let mut coordinates = Vec::with_capacity(n as usize);
        for (i, &run) in runs.iter().enumerate() {
            let end = runs.get(i + 1).map_or(n, |&next| offset(next));
            coordinates.resize(end as usize, coordinate(run));
        }
        let starts = runs.iter().map(|&run| offset(run)).collect();
        Unitig {
            coordinates,
            starts,
        }
    }

    fn count(&self) -> u64 {
        self.coordinates.len() as u64
    }

    /// From the other side: each start s > 0 becomes n - s.
    fn reverse(&mut self) {
        self.coordinates.reverse();
        let n = self.coordinates.len() as u32;
        for start in &mut self.starts[1..] {
            *start = n - *start;
        }
        self.starts[1..].reverse();
    }

    /// With the piece behind it, but for the piece's first vertex and its start 0.
    fn joined(&self, piece: &Unitig) -> Unitig {
        let shift = self.coordinates.len() as u32 - 1;
        let shifted = piece.starts[1..].iter().map(|&start| start + shift);
        Unitig {
            coordinates: [&self.coordinates[..], &piece.coordinates[1..]].concat(),
            starts: self.starts.iter().copied().chain(shifted).collect(),
        }
    }

    /// Without each start whose vertex has the coordinate of the one before.
    fn drop_equal_starts(&mut self) {
        let coordinates = &self.coordinates;
        self.starts.retain(|&start| {
            let vertex = start as usize;
            vertex == 0 || coordinates[vertex] != coordinates[vertex - 1]
        });
    }

    /// 16: whether its last vertex can be its first one again.
    fn limit_cycle(&self) -> Result<(), Clause> {
        if self.coordinates.len() < 2 {
            return Err(Clause::OneVertex);
        }
        if self.coordinates.first() != self.coordinates.last() {
            return Err(Clause::OtherEnd);
        }
        Ok(())
    }

    /// Without the last vertex, and without the start of a run that had no other.
    fn drop_last(&mut self) {
        self.coordinates.pop();
        let n = self.coordinates.len() as u32;
        self.starts.retain(|&start| start < n);
    }

    /// Turned left; a run starts at 0 and at each vertex unlike the one before.
    fn turn(&mut self, pivot: u32) {
        let n = self.coordinates.len();
        self.coordinates.rotate_left(pivot as usize % n);
        self.starts = (0..n)
            .filter(|&v| v == 0 || self.coordinates[v] != self.coordinates[v - 1])
            .map(|v| v as u32)
            .collect();
    }

    /// The length of its run bytes.
    fn bytes(&self) -> u64 {
        let runs = self.starts.len();
        prefix_of(runs as u32).len() as u64 + 8 * runs as u64
    }
}

pub struct Plain {
    pub n: u32,
    pub worker: u32,
    pub lengths: Lengths,
    pub sets: Vec<Vec<u32>>,
    pub closed: Vec<Unitig>,
    pub open: Option<Unitig>,
    pub last: u32,
    /// The last accepted call and its answer.
    pub accepted: Option<(Deed, u64)>,
    /// The bytes of the sets' records, counted as they come.
    pub record_bytes: u64,
}

impl Plain {
    pub fn start(n: u32, worker: u32, lengths: Lengths) -> Result<Plain, Clause> {
        if !(1..=MAX_COLORS).contains(&n) {
            return Err(Clause::Colors);
        }
        if worker > 255 {
            return Err(Clause::Worker);
        }
        if lengths.index == 0 {
            return Err(Clause::NoIndexEntry);
        }
        if lengths.all().iter().any(|&len| len > u64::from(u32::MAX)) {
            return Err(Clause::LongBuffer);
        }
        Ok(Plain {
            n,
            worker,
            lengths,
            sets: Vec::new(),
            closed: Vec::new(),
            open: None,
            last: 0,
            accepted: None,
            record_bytes: 0,
        })
    }

    pub fn call(&mut self, call: &Call) -> Result<Answer, Clause> {
        match call {
            Call::Show {
                unitig,
                vertex,
                room,
            } => self.show(*unitig, *vertex, *room).map(Answer::Ids),
            Call::Numbered { number, deed } => self.numbered(*number, deed).map(Answer::Value),
        }
    }

    fn numbered(&mut self, number: u32, deed: &Deed) -> Result<u64, Clause> {
        if number == 0 {
            return Err(Clause::NumberZero);
        }
        if number == self.last {
            return match &self.accepted {
                Some((before, answer)) if before == deed => Ok(*answer),
                Some((Deed::Add { .. }, _)) if matches!(deed, Deed::Add { .. }) => {
                    Err(Clause::OtherArguments)
                }
                Some((Deed::Join { .. }, _)) if matches!(deed, Deed::Join { .. }) => {
                    Err(Clause::OtherArguments)
                }
                Some((Deed::Close(_), _)) if matches!(deed, Deed::Close(_)) => {
                    Err(Clause::OtherArguments)
                }
                _ => Err(Clause::OtherCall),
            };
        }
        if u64::from(number) != u64::from(self.last) + 1 {
            return Err(Clause::NumberFar);
        }
        let answer = match deed {
            Deed::Add { ids } => self.add(ids)?,
            Deed::Join { n, reverse, runs } => self.join(*n, *reverse, runs)?,
            Deed::Close(way) => self.close(*way)?,
        };
        self.last = number;
        self.accepted = Some((deed.clone(), answer));
        Ok(answer)
    }

    fn add(&mut self, ids: &[u32]) -> Result<u64, Clause> {
        limit_ids(self.n, ids).map_err(|why| match why {
            Why::NotAscending => Clause::NotAscending,
            _ => Clause::NotBelow,
        })?;
        let end = self.record_bytes + record_of(self.n, ids).len() as u64;
        if end > self.lengths.records {
            return Err(Clause::RecordFile);
        }
        // One entry more than there are sets is used.
        let place = self.sets.len() as u64;
        if place + 1 >= self.lengths.index {
            return Err(Clause::Index);
        }
        self.sets.push(ids.to_vec());
        self.record_bytes = end;
        Ok(u64::from(self.worker) + 256 * place)
    }

    fn join(&mut self, n: u32, reverse: bool, runs: &[u64]) -> Result<u64, Clause> {
        if n == 0 {
            return Err(Clause::NoVertices);
        }
        let count = match &self.open {
            None => u64::from(n),
            Some(open) => open.count() + u64::from(n) - 1,
        };
        if count > u64::from(MAX_VERTICES) {
            return Err(Clause::ManyVertices);
        }
        if !is_sharp(runs, n) {
            return Err(Clause::NotSharp);
        }
        for &run in runs {
            if coordinate(run) % 256 != u64::from(self.worker) {
                return Err(Clause::OtherWorker);
            }
            if coordinate(run) / 256 >= self.sets.len() as u64 {
                return Err(Clause::NoSet);
            }
        }
        let mut piece = Unitig::of(runs, n);
        if reverse {
            piece.reverse();
        }
        let mut joined = match &self.open {
            None => piece,
            Some(open) if open.coordinates.last() != piece.coordinates.first() => {
                return Err(Clause::Junction);
            }
            Some(open) => open.joined(&piece),
        };
        joined.drop_equal_starts();
        if joined.starts.len() as u64 > self.lengths.open {
            return Err(Clause::OpenRuns);
        }
        // The piece is held as sent.
        if runs.len() as u64 > self.lengths.held {
            return Err(Clause::HeldPiece);
        }
        self.open = Some(joined);
        Ok(count)
    }

    fn close(&mut self, way: Way) -> Result<u64, Clause> {
        let Some(open) = &self.open else {
            return Err(Clause::NoneOpen);
        };
        let mut unitig = open.clone();
        if let Way::Cycle { pivot } = way {
            // A cycle is sent until its first vertex comes round again, which counts once.
            unitig.limit_cycle()?;
            unitig.drop_last();
            unitig.turn(pivot);
        }
        let used: u64 = self.closed.iter().map(Unitig::bytes).sum();
        if used + unitig.bytes() > self.lengths.runs {
            return Err(Clause::RunFile);
        }
        let place = self.closed.len() as u64;
        if 2 * (place + 1) > self.lengths.table {
            return Err(Clause::Table);
        }
        self.closed.push(unitig);
        self.open = None;
        Ok(place)
    }

    fn show(&self, unitig: u32, vertex: u32, room: usize) -> Result<Vec<u32>, Clause> {
        let Some(unitig) = self.closed.get(unitig as usize) else {
            return Err(Clause::NoUnitig);
        };
        let Some(&coordinate) = unitig.coordinates.get(vertex as usize) else {
            return Err(Clause::NoVertex);
        };
        let set = &self.sets[(coordinate / 256) as usize];
        if set.len() > room {
            return Err(Clause::Output);
        }
        Ok(set.clone())
    }
}
