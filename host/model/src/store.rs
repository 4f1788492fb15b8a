//! The store over its state and its six buffers: bytes, runs and numbers as they lie there. Anybody may have altered both
//! between two calls; then it refuses with 15, 5 or 11.

use crate::calls::{Answer, Call, Clause, Deed, Lengths, Way};
use crate::records::{limit_ids, read_record, record_of};
use crate::runs::{
    append_runs, coordinate, is_sharp, merged, offset, oriented, read_runs, rotate_runs, write_runs,
};
use crate::{MAX_COLORS, MAX_VERTICES, Why};

#[derive(Debug, Clone, PartialEq, Eq)]
pub struct Buffers {
    pub records: Vec<u8>,
    pub index: Vec<u64>,
    pub open: Vec<u64>,
    pub held: Vec<u64>,
    pub runs: Vec<u8>,
    pub table: Vec<u64>,
}

impl Buffers {
    /// Buffers so long that hold this value everywhere.
    pub fn filled(lengths: Lengths, value: u8) -> Self {
        let words = |len: u64| vec![u64::from(value); len as usize];
        Buffers {
            records: vec![value; lengths.records as usize],
            index: words(lengths.index),
            open: words(lengths.open),
            held: words(lengths.held),
            runs: vec![value; lengths.runs as usize],
            table: words(lengths.table),
        }
    }

    pub fn lengths(&self) -> Lengths {
        Lengths {
            records: self.records.len() as u64,
            index: self.index.len() as u64,
            open: self.open.len() as u64,
            held: self.held.len() as u64,
            runs: self.runs.len() as u64,
            table: self.table.len() as u64,
        }
    }
}

/// How much of each buffer is used: the index has one entry more than there are sets, the table two for each unitig.
#[derive(Debug, Clone, Copy, PartialEq, Eq)]
pub struct Used {
    pub records: u64,
    pub sets: u32,
    pub open: u64,
    pub held: u64,
    pub runs: u64,
    pub unitigs: u32,
}

#[derive(Debug, Clone, Copy, PartialEq, Eq)]
pub enum Current {
    Nothing,
    Open(u32),
}

/// The last accepted call, with what neither the buffers nor the answer tell of it.
#[derive(Debug, Clone, Copy, PartialEq, Eq)]
pub enum Last {
    Nothing,
    Add,
    Join { n: u32, reverse: bool },
    Close(Way),
}

#[derive(Debug, Clone, Copy, PartialEq, Eq)]
pub struct State {
    pub n: u32,
    pub worker: u32,
    pub lengths: Lengths,
    pub used: Used,
    pub current: Current,
    pub number: u32,
    pub last: Last,
    pub answer: u64,
}

/// 1 and 3 of start: what is outside its limits.
fn limit_start(n: u32, worker: u32, lengths: Lengths) -> Result<(), Clause> {
    if n == 0 || n > MAX_COLORS {
        return Err(Clause::Colors);
    }
    if worker > 255 {
        return Err(Clause::Worker);
    }
    if lengths.index < 1 {
        return Err(Clause::NoIndexEntry);
    }
    for len in lengths.all() {
        if len > 4_294_967_295 {
            return Err(Clause::LongBuffer);
        }
    }
    Ok(())
}

/// 16, of sharp runs: the first one has the first vertex, the last one the last vertex.
fn limit_cycle(open: &[u64], count: u32) -> Result<(), Clause> {
    if count < 2 {
        return Err(Clause::OneVertex);
    }
    if open.first().map(|&run| coordinate(run)) != open.last().map(|&run| coordinate(run)) {
        return Err(Clause::OtherEnd);
    }
    Ok(())
}

impl State {
    pub fn start(n: u32, worker: u32, buffers: &mut Buffers) -> Result<State, Clause> {
        let lengths = buffers.lengths();
        limit_start(n, worker, lengths)?;
        buffers.index[0] = 0;
        Ok(State {
            n,
            worker,
            lengths,
            used: Used {
                records: 0,
                sets: 0,
                open: 0,
                held: 0,
                runs: 0,
                unitigs: 0,
            },
            current: Current::Nothing,
            number: 0,
            last: Last::Nothing,
            answer: 0,
        })
    }

    /// A call, which takes the state and hands it back.
    pub fn call(self, call: &Call, buffers: &mut Buffers) -> (State, Result<Answer, Clause>) {
        let answered = match call {
            Call::Show {
                unitig,
                vertex,
                room,
            } => self
                .show(*unitig, *vertex, *room, buffers)
                .map(|ids| (self, Answer::Ids(ids))),
            Call::Numbered { number, deed } => self
                .numbered(*number, deed, buffers)
                .map(|state| (state, Answer::Value(state.answer))),
        };
        match answered {
            Ok((state, answer)) => (state, Ok(answer)),
            Err(clause) => (self, Err(clause)),
        }
    }

    /// 15.
    fn limit_state(&self, buffers: &Buffers) -> Result<(), Clause> {
        let used = [
            self.used.records,
            u64::from(self.used.sets) + 1,
            self.used.open,
            self.used.held,
            self.used.runs,
            2 * u64::from(self.used.unitigs),
        ];
        let fits = used
            .iter()
            .zip(self.lengths.all())
            .all(|(&u, len)| u <= len);
        let open = match self.current {
            Current::Nothing => true,
            Current::Open(count) => (1..=MAX_VERTICES).contains(&count),
        };
        if self.lengths != buffers.lengths()
            || !fits
            || limit_start(self.n, self.worker, self.lengths).is_err()
            || !open
        {
            return Err(Clause::Altered);
        }
        Ok(())
    }

    /// The state behind a numbered call: the same one where the call is a repeat.
    fn numbered(&self, number: u32, deed: &Deed, buffers: &mut Buffers) -> Result<State, Clause> {
        self.limit_state(buffers)?;
        if number == 0 {
            return Err(Clause::NumberZero);
        }
        if number == self.number {
            self.limit_repeat(deed, buffers)?;
            return Ok(*self);
        }
        if u64::from(number) != u64::from(self.number) + 1 {
            return Err(Clause::NumberFar);
        }
        let mut state = match deed {
            Deed::Add { ids } => self.add(ids, buffers)?,
            Deed::Join { n, reverse, runs } => self.join(*n, *reverse, runs, buffers)?,
            Deed::Close(way) => self.close(*way, buffers)?,
        };
        state.number = number;
        Ok(state)
    }

    /// 11: the last call, as the state and the buffers have it, is not this one.
    fn limit_repeat(&self, deed: &Deed, buffers: &Buffers) -> Result<(), Clause> {
        let same = match (self.last, deed) {
            (Last::Add, Deed::Add { ids }) => {
                let Ok(held) = self.set_of(self.answer, buffers) else {
                    return Err(Clause::HeldUnreadable);
                };
                held == *ids
            }
            (Last::Join { n, reverse }, Deed::Join { .. }) => {
                let runs = buffers.held[..self.used.held as usize].to_vec();
                *deed == Deed::Join { n, reverse, runs }
            }
            (Last::Close(way), Deed::Close(again)) => way == *again,
            _ => return Err(Clause::OtherCall),
        };
        if same {
            Ok(())
        } else {
            Err(Clause::OtherArguments)
        }
    }

    /// The set of the record that a coordinate names.
    fn set_of(&self, coordinate: u64, buffers: &Buffers) -> Result<Vec<u32>, Clause> {
        let place = coordinate / 256;
        if coordinate % 256 != u64::from(self.worker) || place >= u64::from(self.used.sets) {
            return Err(Clause::RecordDamaged);
        }
        let start = buffers.index[place as usize];
        if start > self.used.records {
            return Err(Clause::RecordDamaged);
        }
        let part = &buffers.records[start as usize..self.used.records as usize];
        match read_record(self.n, part) {
            Ok((ids, _)) => Ok(ids),
            Err(_) => Err(Clause::RecordDamaged),
        }
    }

    fn add(&self, ids: &[u32], buffers: &mut Buffers) -> Result<State, Clause> {
        match limit_ids(self.n, ids) {
            Ok(()) => {}
            Err(Why::NotAscending) => return Err(Clause::NotAscending),
            Err(_) => return Err(Clause::NotBelow),
        }
        let record = record_of(self.n, ids);
        let end = self.used.records + record.len() as u64;
        if end > self.lengths.records {
            return Err(Clause::RecordFile);
        }
        let Some(entry) = buffers.index.get_mut(self.used.sets as usize + 1) else {
            return Err(Clause::Index);
        };
        *entry = end;
        buffers.records[self.used.records as usize..end as usize].copy_from_slice(&record);
        Ok(State {
            used: Used {
                records: end,
                sets: self.used.sets + 1,
                ..self.used
            },
            last: Last::Add,
            answer: u64::from(self.worker) + 256 * u64::from(self.used.sets),
            ..*self
        })
    }

    /// The open runs: 5 where they are not sharp for the open count.
    fn open_runs<'a>(&self, count: u32, buffers: &'a Buffers) -> Result<&'a [u64], Clause> {
        let open = &buffers.open[..self.used.open as usize];
        if !is_sharp(open, count) {
            return Err(Clause::OpenDamaged);
        }
        Ok(open)
    }

    fn join(
        &self,
        n: u32,
        reverse: bool,
        runs: &[u64],
        buffers: &mut Buffers,
    ) -> Result<State, Clause> {
        if n == 0 {
            return Err(Clause::NoVertices);
        }
        let count = match self.current {
            Current::Nothing => u64::from(n),
            Current::Open(open) => u64::from(open) + u64::from(n) - 1,
        };
        if count > u64::from(MAX_VERTICES) {
            return Err(Clause::ManyVertices);
        }
        if !is_sharp(runs, n) {
            return Err(Clause::NotSharp);
        }
        for &run in runs {
            let (worker, place) = (coordinate(run) % 256, coordinate(run) / 256);
            if worker != u64::from(self.worker) {
                return Err(Clause::OtherWorker);
            }
            if place >= u64::from(self.used.sets) {
                return Err(Clause::NoSet);
            }
        }
        // The new open runs, merged, and behind how many they go.
        let (new, behind) = match self.current {
            Current::Nothing => (merged(&oriented(runs, n, reverse)), 0),
            Current::Open(open) => {
                let before = self.open_runs(open, buffers)?;
                let first = if reverse { runs.last() } else { runs.first() };
                if before.last().map(|&run| coordinate(run)) != first.map(|&run| coordinate(run)) {
                    return Err(Clause::Junction);
                }
                match append_runs(before, self.used.open, open, runs, n, reverse) {
                    Ok((new, _)) => (new, self.used.open),
                    Err(why) => unreachable!("sharp lists that meet: {why:?}"),
                }
            }
        };
        let open = behind + new.len() as u64;
        if open > self.lengths.open {
            return Err(Clause::OpenRuns);
        }
        // It is held as sent, since a repeat is compared with that.
        if runs.len() as u64 > self.lengths.held {
            return Err(Clause::HeldPiece);
        }
        buffers.open[behind as usize..open as usize].copy_from_slice(&new);
        buffers.held[..runs.len()].copy_from_slice(runs);
        Ok(State {
            used: Used {
                open,
                held: runs.len() as u64,
                ..self.used
            },
            current: Current::Open(count as u32),
            last: Last::Join { n, reverse },
            answer: count,
            ..*self
        })
    }

    fn close(&self, way: Way, buffers: &mut Buffers) -> Result<State, Clause> {
        let Current::Open(count) = self.current else {
            return Err(Clause::NoneOpen);
        };
        let open = self.open_runs(count, buffers)?;
        // What is filed, and of how many vertices.
        let (filed, vertices) = match way {
            Way::Line => (write_runs(open), count),
            Way::Cycle { pivot } => {
                limit_cycle(open, count)?;
                // The runs are steady for one vertex fewer too, and turning leaves out a run without a vertex.
                let turned = rotate_runs(open, count - 1, pivot, false);
                (turned.and_then(|runs| write_runs(&runs)), count - 1)
            }
        };
        let bytes = match filed {
            Ok(bytes) => bytes,
            Err(why) => unreachable!("a sharp list: {why:?}"),
        };
        let end = self.used.runs + bytes.len() as u64;
        if end > self.lengths.runs {
            return Err(Clause::RunFile);
        }
        let row = 2 * self.used.unitigs as usize;
        let Some(row) = buffers.table.get_mut(row..row + 2) else {
            return Err(Clause::Table);
        };
        row.copy_from_slice(&[self.used.runs, u64::from(vertices)]);
        buffers.runs[self.used.runs as usize..end as usize].copy_from_slice(&bytes);
        Ok(State {
            used: Used {
                open: 0,
                runs: end,
                unitigs: self.used.unitigs + 1,
                ..self.used
            },
            current: Current::Nothing,
            last: Last::Close(way),
            answer: u64::from(self.used.unitigs),
            ..*self
        })
    }

    fn show(
        &self,
        unitig: u32,
        vertex: u32,
        room: usize,
        buffers: &Buffers,
    ) -> Result<Vec<u32>, Clause> {
        self.limit_state(buffers)?;
        if unitig >= self.used.unitigs {
            return Err(Clause::NoUnitig);
        }
        let row = 2 * unitig as usize;
        let (start, count) = (buffers.table[row], buffers.table[row + 1]);
        if u64::from(vertex) >= count {
            return Err(Clause::NoVertex);
        }
        if count > u64::from(MAX_VERTICES) || start > self.used.runs {
            return Err(Clause::UnitigDamaged);
        }
        let Ok((runs, _)) = read_runs(&buffers.runs[start as usize..self.used.runs as usize])
        else {
            return Err(Clause::UnitigDamaged);
        };
        if !is_sharp(&runs, count as u32) {
            return Err(Clause::UnitigDamaged);
        }
        let named = runs
            .iter()
            .filter(|&&run| offset(run) <= vertex)
            .map(|&run| coordinate(run))
            .next_back();
        let Some(named) = named else {
            return Err(Clause::UnitigDamaged);
        };
        let ids = self.set_of(named, buffers)?;
        if ids.len() > room {
            return Err(Clause::Output);
        }
        Ok(ids)
    }
}
