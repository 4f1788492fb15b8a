//! A list of calls as a session of the program `sessions`, and the lines that it must answer: crates/sessions/src/main.rt says
//! what they are. It shows whole buffers, so that a place that should not have been written shows too.

use crate::commands::{hex, pairs};
use crate::lists::{FILL, List, number};
use crate::random::Random;
use model::calls::{Answer, Call, Deed, Way};

/// The most bytes that the program reads.
pub const MOST_BYTES: usize = 1_048_576;

pub struct Session {
    pub text: String,
    pub answers: Vec<String>,
}

fn joined<T: ToString>(items: &[T]) -> String {
    let words: Vec<String> = items.iter().map(T::to_string).collect();
    words.join(" ")
}

/// A name and the items, each behind a blank, up to the last that is not the fill.
fn trimmed<T: ToString + PartialEq + From<u8>>(name: &str, items: &[T]) -> String {
    let mut line = name.to_string();
    for item in &items[..end(items)] {
        line += " ";
        line += &item.to_string();
    }
    line
}

fn end<T: PartialEq + From<u8>>(items: &[T]) -> usize {
    let written = |item: &T| *item != T::from(FILL);
    items.iter().rposition(written).map_or(0, |last| last + 1)
}

/// `random` chooses what the program must not look at: numbers of a call that it has no use for, and one of several that mean the same.
pub fn session_of(list: &List, random: &mut Random) -> Session {
    let (mut calls, mut answers) = (Vec::new(), Vec::new());
    let mut ids: Vec<u32> = Vec::new();
    let mut runs: Vec<u64> = Vec::new();
    let mut shown: Vec<u32> = Vec::new();
    for (place, call) in list.calls.iter().enumerate() {
        let any = random.word() as u32;
        calls.push(match call {
            Call::Numbered { number, deed } => match deed {
                Deed::Add { ids: sent } => {
                    let from = ids.len() as u32;
                    ids.extend(sent);
                    [0, *number, any, any, from, sent.len() as u32]
                }
                Deed::Join {
                    n,
                    reverse,
                    runs: sent,
                } => {
                    let from = runs.len() as u32;
                    runs.extend(sent);
                    let reverse = if *reverse { any | 1 } else { 0 };
                    [1, *number, *n, reverse, from, sent.len() as u32]
                }
                Deed::Close(Way::Line) => [2, *number, any, any, any, any],
                Deed::Close(Way::Cycle { pivot }) => [3, *number, *pivot, any, any, any],
            },
            Call::Show {
                unitig,
                vertex,
                room,
            } => {
                let kind = random.pick(&[4, 5, u32::MAX]);
                [kind, *unitig, *vertex, any, any, *room as u32]
            }
        });
        // Nothing is told of a call behind a refused start.
        let told = list.told.get(place);
        if let Call::Show { room, .. } = call {
            let from = shown.len();
            shown.resize(from + room, u32::from(FILL));
            if let Some(Ok(Answer::Ids(given))) = told {
                shown[from..from + given.len()].copy_from_slice(given);
            }
        }
        answers.push(match told {
            None => format!("{FILL} {FILL}"),
            Some(told) => match told {
                Ok(Answer::Value(value)) => format!("0 {value}"),
                Ok(Answer::Ids(given)) => format!("0 {}", given.len()),
                Err(_) => format!("{} 0", number(told)),
            },
        });
    }
    let lengths = list.lengths.all();
    let text = format!(
        "{} {} {}\n{}\n{}\n{}\n",
        list.n,
        list.worker,
        joined(&lengths),
        joined(calls.as_flattened()),
        joined(&ids),
        pairs(&runs)
    );
    let start = match &list.started {
        Ok(_) => 0,
        Err(clause) => clause.number(),
    };
    let buffers = &list.buffers;
    answers.insert(0, format!("start {start}"));
    answers.push(trimmed("shown", &shown));
    let file = |name: &str, bytes: &[u8]| format!("{name} {}", hex(&bytes[..end(bytes)]));
    answers.push(file("records", &buffers.records));
    answers.push(trimmed("index", &buffers.index));
    answers.push(trimmed("open", &buffers.open));
    answers.push(trimmed("held", &buffers.held));
    answers.push(file("runs", &buffers.runs));
    answers.push(trimmed("table", &buffers.table));
    Session { text, answers }
}
