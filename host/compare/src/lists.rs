//! A list of calls from a start, with what the model over buffers answers to each; the plain store is asked the same.

use crate::calls::Shape;
use crate::random::Random;
use model::calls::{Answer, Call, Clause, Deed, Lengths};
use model::plain::Plain;
use model::runs::{coordinate, offset, pack};
use model::store::{Buffers, Current, State};
use model::{MAX_COLORS, MAX_VERTICES};

/// What every place of a buffer holds before the start.
pub const FILL: u8 = 165;

/// How much one list may hold, so that it fits the program `sessions`.
const MOST_IDS: usize = 40_000;
const MOST_RUNS: usize = 20_000;
const MOST_SHOWN: usize = 60_000;

pub type Told = Result<Answer, Clause>;

/// An accepted start leads to the state behind the last call.
pub struct List {
    pub n: u32,
    pub worker: u32,
    pub lengths: Lengths,
    pub started: Result<State, Clause>,
    pub calls: Vec<Call>,
    pub told: Vec<Told>,
    /// Which calls were accepted, and neither refused nor a repeat. A show is none of these.
    pub accepted: Vec<bool>,
    pub buffers: Buffers,
    /// Where the two models differ.
    pub differences: Vec<String>,
}

impl List {
    pub fn random(random: &mut Random, shape: &Shape) -> List {
        let (n, worker, lengths) = (shape.n, shape.worker, shape.lengths);
        let mut buffers = Buffers::filled(lengths, FILL);
        let mut list = List {
            n,
            worker,
            lengths,
            started: State::start(n, worker, &mut buffers),
            calls: Vec::new(),
            told: Vec::new(),
            accepted: Vec::new(),
            buffers,
            differences: Vec::new(),
        };
        match (list.started, Plain::start(n, worker, lengths)) {
            (Ok(state), Ok(plain)) => list.fill(state, plain, random, shape),
            // A call that nobody may answer.
            (Err(one), Err(other)) if one.number() == other.number() => {
                list.calls.push(Call::Numbered {
                    number: 1,
                    deed: Deed::Add { ids: vec![0] },
                });
            }
            (one, other) => list.differences.push(format!(
                "start: over buffers {:?}, plain {:?}",
                one.err(),
                other.err()
            )),
        }
        list
    }

    fn fill(&mut self, mut state: State, mut plain: Plain, random: &mut Random, shape: &Shape) {
        let (mut ids_sent, mut runs_sent, mut room_lent) = (0, 0, 0);
        let mut overtaken = None;
        while self.calls.len() < shape.calls {
            let call = random.call(&plain, shape, overtaken.as_ref());
            match &call {
                Call::Show { room, .. } => room_lent += room,
                Call::Numbered { deed, .. } => match deed {
                    Deed::Add { ids } => ids_sent += ids.len(),
                    Deed::Join { runs, .. } => runs_sent += runs.len(),
                    Deed::Close(_) => {}
                },
            }
            if ids_sent > MOST_IDS || runs_sent > MOST_RUNS || room_lent > MOST_SHOWN {
                break;
            }
            let before = state.number;
            let (after, told) = state.call(&call, &mut self.buffers);
            state = after;
            let last = plain
                .accepted
                .as_ref()
                .map(|(deed, _)| (plain.last, deed.clone()));
            let plainly = plain.call(&call);
            if last
                .as_ref()
                .is_some_and(|(number, _)| *number != plain.last)
            {
                overtaken = last;
            }
            if number(&told) != number(&plainly) || told.as_ref().ok() != plainly.as_ref().ok() {
                self.differences.push(format!(
                    "call {}, {call:?}: over buffers {told:?}, plain {plainly:?}",
                    self.calls.len() + 1
                ));
            }
            self.calls.push(call);
            self.told.push(told);
            self.accepted.push(state.number != before);
        }
        if let Err(what) = same(&plain, &state, &self.buffers) {
            self.differences
                .push(format!("after {} calls: {what}", self.calls.len()));
        }
        self.started = Ok(state);
    }
}

/// What a store holds of its sets behind a list of calls.
pub struct History {
    pub n: u32,
    /// The used bytes of its record file.
    pub records: Vec<u8>,
    /// The accepted sets, in order.
    pub sets: Vec<Vec<u32>>,
}

impl List {
    /// The ids of each add, and whether it was accepted.
    pub fn adds(&self) -> impl Iterator<Item = (&Vec<u32>, bool)> {
        let calls = self.calls.iter().zip(&self.accepted);
        calls.filter_map(|(call, &accepted)| match call {
            Call::Numbered {
                deed: Deed::Add { ids },
                ..
            } => Some((ids, accepted)),
            _ => None,
        })
    }

    /// Where the start was accepted.
    pub fn history(&self) -> Option<History> {
        let used = self.started.ok()?.used.records as usize;
        let accepted = self.adds().filter(|&(_, accepted)| accepted);
        Some(History {
            n: self.n,
            records: self.buffers.records[..used].to_vec(),
            sets: accepted.map(|(ids, _)| ids.clone()).collect(),
        })
    }
}

/// How a list's sets and unitigs cross: how many unitigs were opened, in how many of them a set was filed while they were open, how
/// many pieces joined to them name such a set, how many shows of a closed one give such a set, and how many joins were sent again
/// after such a set.
#[derive(Default)]
pub struct Crossed {
    pub opened: u64,
    pub with_sets: u64,
    pub pieces: u64,
    pub shown: u64,
    pub overtaken: u64,
}

impl Crossed {
    pub fn add(&mut self, more: &Crossed) {
        self.opened += more.opened;
        self.with_sets += more.with_sets;
        self.pieces += more.pieces;
        self.shown += more.shown;
        self.overtaken += more.overtaken;
    }
}

impl List {
    pub fn crossed(&self) -> Crossed {
        let mut crossed = Crossed::default();
        let mut sets = 0;
        // Of the open unitig and of each closed one, the sets that were filed when it was opened.
        let mut open: Option<u64> = None;
        let mut closed = Vec::new();
        let mut with_set = false;
        // The join that came just before the last accepted call, an add.
        let (mut join, mut overtaken) = (None, None);
        let calls = self.calls.iter().zip(&self.told).zip(&self.accepted);
        for ((call, told), &accepted) in calls {
            match call {
                Call::Show { unitig, vertex, .. } if told.is_ok() => {
                    let place = self.place_at(*unitig, *vertex);
                    crossed.shown += u64::from(place >= closed[*unitig as usize]);
                }
                Call::Numbered { deed, .. } if accepted => match deed {
                    Deed::Add { .. } => {
                        sets += 1;
                        overtaken = join.take();
                        if open.is_some() {
                            crossed.with_sets += u64::from(!with_set);
                            with_set = true;
                        }
                    }
                    Deed::Join { runs, .. } => {
                        (join, overtaken) = (Some(call), None);
                        match open {
                            None => {
                                crossed.opened += 1;
                                open = Some(sets);
                                with_set = false;
                            }
                            Some(before) => {
                                let new = |&run: &u64| coordinate(run) / 256 >= before;
                                crossed.pieces += u64::from(runs.iter().any(new));
                            }
                        }
                    }
                    Deed::Close(_) => {
                        (join, overtaken) = (None, None);
                        closed.extend(open.take());
                    }
                },
                _ if overtaken == Some(call) => {
                    crossed.overtaken += u64::from(*told == Err(Clause::NumberFar));
                }
                _ => {}
            }
        }
        crossed
    }

    /// Which set a vertex of a closed unitig has, by what the buffers hold in the end.
    fn place_at(&self, unitig: u32, vertex: u32) -> u64 {
        let start = self.buffers.table[2 * unitig as usize] as usize;
        let (runs, _) = model::read_runs(&self.buffers.runs[start..]).expect("a shown unitig");
        let mut before = runs.iter().filter(|&&run| offset(run) <= vertex);
        coordinate(*before.next_back().expect("a shown vertex")) / 256
    }
}

/// What a run of lists should reach beside every refusal: the bounds from within, and what becomes of empty sets.
pub const REACHED: [&str; 13] = [
    "record file full",
    "index full",
    "open runs full",
    "held piece full",
    "run file full",
    "table full",
    "most vertices",
    "128 runs",
    "most colours",
    "empty set filed",
    "empty set sent again",
    "empty set's number with other ids",
    "empty set shown into no places",
];

impl List {
    /// Which of these this list reached.
    pub fn reached(&self) -> [bool; REACHED.len()] {
        let Ok(state) = self.started else {
            return [false; REACHED.len()];
        };
        let [filed, again, other, shown] = self.empty_sets();
        let (used, lengths) = (state.used, self.lengths);
        let most_vertices = Ok(Answer::Value(u64::from(MAX_VERTICES)));
        let counts = &self.buffers.table[..2 * used.unitigs as usize];
        let ends = counts.iter().step_by(2).skip(1).copied().chain([used.runs]);
        let bytes = counts
            .iter()
            .step_by(2)
            .zip(ends)
            .map(|(start, end)| end - start);
        [
            used.sets > 0 && used.records == lengths.records,
            used.sets > 0 && u64::from(used.sets) + 1 == lengths.index,
            used.open > 0 && used.open == lengths.open,
            used.held > 0 && used.held == lengths.held,
            used.unitigs > 0 && used.runs == lengths.runs,
            used.unitigs > 0 && 2 * u64::from(used.unitigs) == lengths.table,
            self.told.contains(&most_vertices),
            // From there on the count takes two bytes.
            bytes.max().is_some_and(|most| most >= 2 + 8 * 128),
            used.sets > 0 && self.n == MAX_COLORS,
            filed,
            again,
            other,
            shown,
        ]
    }

    /// What became of empty sets: filed, sent again, their number sent with other ids, shown into an output of no places.
    fn empty_sets(&self) -> [bool; 4] {
        let [mut filed, mut again, mut other, mut shown] = [false; 4];
        // The number of the last accepted call, where that added the empty set.
        let mut last = None;
        for ((call, told), &accepted) in self.calls.iter().zip(&self.told).zip(&self.accepted) {
            match call {
                Call::Show { room, .. } => {
                    shown |= *room == 0 && *told == Ok(Answer::Ids(Vec::new()));
                }
                Call::Numbered { number, deed } => {
                    let empty = *deed == Deed::Add { ids: Vec::new() };
                    if accepted {
                        filed |= empty;
                        last = empty.then_some(*number);
                    } else if last == Some(*number) {
                        again |= empty;
                        other |= *told == Err(Clause::OtherArguments);
                    }
                }
            }
        }
        [filed, again, other, shown]
    }
}

/// The refusal's number, or 0.
pub fn number(told: &Told) -> u32 {
    match told {
        Ok(_) => 0,
        Err(clause) => clause.number(),
    }
}

/// Whether state and buffers hold what the plain store holds: the accepted sets' records in order, with the index made afresh
/// from them, and each unitig's coordinates and starts; and whether each unitig's runs are 1 plus its changes of coordinate.
fn same(plain: &Plain, state: &State, buffers: &Buffers) -> Result<(), String> {
    let used = state.used;
    let records: Vec<u8> = plain
        .sets
        .iter()
        .flat_map(|ids| model::records::record_of(plain.n, ids))
        .collect();
    if buffers.records[..used.records as usize] != records {
        return Err("record file".into());
    }
    let count = plain.sets.len();
    if used.sets as usize != count
        || model::make_index(&records, count as u64) != Ok(buffers.index[..=count].to_vec())
    {
        return Err("index".into());
    }
    if (state.number, state.n, state.worker) != (plain.last, plain.n, plain.worker) {
        return Err("numbers".into());
    }
    if used.unitigs as usize != plain.closed.len() {
        return Err("number of unitigs".into());
    }
    let mut start = 0;
    for (place, unitig) in plain.closed.iter().enumerate() {
        let runs = match model::read_runs(&buffers.runs[start as usize..used.runs as usize]) {
            Ok((runs, len)) if buffers.table[2 * place] == start => {
                start += len;
                runs
            }
            _ => return Err(format!("unitig {place}: bytes")),
        };
        if buffers.table[2 * place + 1] != unitig.coordinates.len() as u64
            || runs != runs_of(&unitig.coordinates, &unitig.starts)
            || !is_expanded(&runs, &unitig.coordinates)
        {
            return Err(format!("unitig {place}"));
        }
        if runs.len() != 1 + changes(&unitig.coordinates) {
            return Err(format!("unitig {place}: number of runs"));
        }
    }
    if start != used.runs {
        return Err("run bytes".into());
    }
    match (&plain.open, state.current) {
        (None, Current::Nothing) => Ok(()),
        (Some(open), Current::Open(n))
            if n as usize == open.coordinates.len()
                && buffers.open[..used.open as usize]
                    == runs_of(&open.coordinates, &open.starts)
                && is_expanded(&buffers.open[..used.open as usize], &open.coordinates)
                && used.open as usize == 1 + changes(&open.coordinates) =>
        {
            Ok(())
        }
        _ => Err("open unitig".into()),
    }
}

fn runs_of(coordinates: &[u64], starts: &[u32]) -> Vec<u64> {
    let named = |&start: &u32| pack(start, coordinates[start as usize]);
    starts.iter().map(named).collect()
}

/// How many vertices have another coordinate than the one before.
fn changes(coordinates: &[u64]) -> usize {
    let pairs = coordinates.windows(2);
    pairs.filter(|pair| pair[0] != pair[1]).count()
}

/// Whether each vertex has the coordinate of its run.
fn is_expanded(runs: &[u64], coordinates: &[u64]) -> bool {
    runs.iter().enumerate().all(|(i, &run)| {
        let end = runs
            .get(i + 1)
            .map_or(coordinates.len(), |&next| offset(next) as usize);
        let part = &coordinates[offset(run) as usize..end];
        part.iter().all(|&named| named == coordinate(run))
    })
}
