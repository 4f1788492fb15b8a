//! The store's calls, their answers, and the clauses by which they are turned down: what both stores, [`crate::plain`] and
//! [`crate::store`], are asked and answer.

/// How a unitig is closed. A cycle has its first vertex again as its last one, which is dropped before the others are turned.
#[derive(Debug, Clone, Copy, PartialEq, Eq)]
pub enum Way {
    Line,
    Cycle { pivot: u32 },
}

/// A numbered call without its number, as sent.
#[derive(Debug, Clone, PartialEq, Eq)]
pub enum Deed {
    Add {
        ids: Vec<u32>,
    },
    Join {
        n: u32,
        reverse: bool,
        runs: Vec<u64>,
    },
    Close(Way),
}

#[derive(Debug, Clone, PartialEq, Eq)]
pub enum Call {
    Numbered {
        number: u32,
        deed: Deed,
    },
    /// `room` is the length of the output.
    Show {
        unitig: u32,
        vertex: u32,
        room: usize,
    },
}

/// What is answered: a coordinate, a vertex count or a place; or the ids that are put to the front of show's output, whose
/// number is the answer.
#[derive(Debug, Clone, PartialEq, Eq)]
pub enum Answer {
    Value(u64),
    Ids(Vec<u32>),
}

/// How long each buffer is.
#[derive(Debug, Clone, Copy, PartialEq, Eq)]
pub struct Lengths {
    pub records: u64,
    pub index: u64,
    pub open: u64,
    pub held: u64,
    pub runs: u64,
    pub table: u64,
}

impl Lengths {
    pub fn all(&self) -> [u64; 6] {
        [
            self.records,
            self.index,
            self.open,
            self.held,
            self.runs,
            self.table,
        ]
    }
}

/// Why a call is turned down: more than its number, so that a run can count which clauses were met.
#[derive(Debug, Clone, Copy, PartialEq, Eq, PartialOrd, Ord)]
pub enum Clause {
    Colors,
    Worker,
    NotAscending,
    NotBelow,
    NoIndexEntry,
    LongBuffer,
    RecordFile,
    Index,
    OpenRuns,
    HeldPiece,
    RunFile,
    Table,
    Output,
    OpenDamaged,
    UnitigDamaged,
    RecordDamaged,
    NotSharp,
    NoVertices,
    ManyVertices,
    Junction,
    OtherWorker,
    NoSet,
    NumberZero,
    NumberFar,
    OtherCall,
    OtherArguments,
    HeldUnreadable,
    NoneOpen,
    NoUnitig,
    NoVertex,
    Altered,
    OneVertex,
    OtherEnd,
}

impl Clause {
    /// The refusal's number in the specification. No refusal has the number 12: it was that of an add while a unitig
    /// was open, which is accepted now.
    pub fn number(self) -> u32 {
        match self {
            Clause::Colors | Clause::Worker => 1,
            Clause::NotAscending | Clause::NotBelow => 2,
            Clause::NoIndexEntry
            | Clause::LongBuffer
            | Clause::RecordFile
            | Clause::Index
            | Clause::OpenRuns
            | Clause::HeldPiece
            | Clause::RunFile
            | Clause::Table
            | Clause::Output => 3,
            Clause::OpenDamaged | Clause::UnitigDamaged | Clause::RecordDamaged => 5,
            Clause::NotSharp => 6,
            Clause::NoVertices | Clause::ManyVertices => 7,
            Clause::Junction => 8,
            Clause::OtherWorker | Clause::NoSet => 9,
            Clause::NumberZero | Clause::NumberFar => 10,
            Clause::OtherCall | Clause::OtherArguments | Clause::HeldUnreadable => 11,
            Clause::NoneOpen => 13,
            Clause::NoUnitig | Clause::NoVertex => 14,
            Clause::Altered => 15,
            Clause::OneVertex | Clause::OtherEnd => 16,
        }
    }
}
