//! Why a call is turned down.

use std::fmt;

/// A refusal of the specification, by its number. Nothing else comes with a refusal, and no lent place has changed.
/// The operations of this crate give the first seven; the others are those of the store. No refusal has the number 12.
#[derive(Debug, Clone, Copy, PartialEq, Eq, Hash)]
#[repr(u32)]
pub enum Refusal {
    Colors = 1,
    Ids = 2,
    Space = 3,
    Cut = 4,
    Damaged = 5,
    Runs = 6,
    Vertices = 7,
    Junction = 8,
    Coordinate = 9,
    Number = 10,
    Arguments = 11,
    Unopened = 13,
    Place = 14,
    Altered = 15,
    Acyclic = 16,
}

impl Refusal {
    /// Every refusal, in the order of their numbers.
    pub const ALL: [Refusal; 15] = [
        Refusal::Colors,
        Refusal::Ids,
        Refusal::Space,
        Refusal::Cut,
        Refusal::Damaged,
        Refusal::Runs,
        Refusal::Vertices,
        Refusal::Junction,
        Refusal::Coordinate,
        Refusal::Number,
        Refusal::Arguments,
        Refusal::Unopened,
        Refusal::Place,
        Refusal::Altered,
        Refusal::Acyclic,
    ];

    /// The number that the C functions answer.
    pub fn number(self) -> u32 {
        self as u32
    }

    /// The refusal of a number. 0 is success, and has none; nor have 12 and numbers above 16.
    pub fn from_number(number: u32) -> Option<Refusal> {
        let mut all = Refusal::ALL.into_iter();
        all.find(|refusal| refusal.number() == number)
    }

    /// What is wrong, in a line.
    pub fn text(self) -> &'static str {
        match self {
            Refusal::Colors => "the colour count, or the worker, is outside its limits",
            Refusal::Ids => {
                "the ids are not strictly ascending, or one is not below the colour count"
            }
            Refusal::Space => "the space lent is too short for the result",
            Refusal::Cut => "the input ends too early",
            Refusal::Damaged => "the input is no written form",
            Refusal::Runs => "a run list is not as the operation admits it",
            Refusal::Vertices => "a vertex count is outside its limits",
            Refusal::Junction => {
                "the piece does not begin with the coordinate on which the open unitig ends"
            }
            Refusal::Coordinate => "a coordinate names no record of this store",
            Refusal::Number => "the call number is neither the last nor the next",
            Refusal::Arguments => "the last number came with another call or other arguments",
            Refusal::Unopened => "no unitig is open",
            Refusal::Place => "there is no such closed unitig, or no such vertex of it",
            Refusal::Altered => "the state or the buffers are not those that the calls left",
            Refusal::Acyclic => "the open unitig does not walk back to its first vertex",
        }
    }
}

impl fmt::Display for Refusal {
    fn fmt(&self, f: &mut fmt::Formatter<'_>) -> fmt::Result {
        write!(f, "{} (refusal {})", self.text(), self.number())
    }
}

impl std::error::Error for Refusal {}
