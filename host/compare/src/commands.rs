//! A list of calls as command lines of the program `roadfinch`, and the lines that it must answer.

use crate::lists::{List, Told};
use model::calls::{Answer, Call, Deed, Way};
use model::runs::{coordinate, offset};
use model::store::{Buffers, Current, State};

/// What the program says of each refusal. None has the number 12.
const REASONS: [(u32, &str); 15] = [
    (1, "colour count or worker outside its limits"),
    (
        2,
        "ids not strictly ascending, or not below the colour count",
    ),
    (3, "not enough space"),
    (4, "input ends too early"),
    (5, "not a written form"),
    (
        6,
        "runs do not start at 0, do not ascend, or reach the vertex count",
    ),
    (7, "vertex count outside its limits"),
    (8, "piece does not begin where the open unitig ends"),
    (9, "coordinate names no set of this store"),
    (10, "number is neither the last nor the next"),
    (11, "last number with another call or other arguments"),
    (13, "no unitig is open"),
    (14, "no such closed unitig or vertex"),
    (15, "state or buffers were altered"),
    (16, "open unitig does not walk back to its first vertex"),
];

fn refused(number: u32) -> String {
    let reason = REASONS.iter().find(|(of, _)| *of == number);
    let (_, text) = reason.expect("a refusal's number");
    format!("refused {number} {text}")
}

/// A command, and the lines that answer it.
pub struct Line {
    pub command: String,
    pub answers: Vec<String>,
}

fn spaced<T: ToString>(items: impl IntoIterator<Item = T>) -> String {
    items
        .into_iter()
        .map(|item| format!(" {}", item.to_string()))
        .collect()
}

pub fn pairs(runs: &[u64]) -> String {
    spaced(
        runs.iter()
            .map(|&run| format!("{}:{}", offset(run), coordinate(run))),
    )
}

pub fn hex(bytes: &[u8]) -> String {
    bytes.iter().map(|byte| format!("{byte:02x}")).collect()
}

/// Without its room where every set has room in the output that the program has.
fn command(call: &Call, n: u32) -> String {
    match call {
        Call::Show {
            unitig,
            vertex,
            room,
        } => {
            if *room >= n as usize && vertex % 2 == 0 {
                return format!("show {unitig} {vertex}");
            }
            format!("show {unitig} {vertex} {room}")
        }
        Call::Numbered { number, deed } => match deed {
            Deed::Add { ids } => format!("add {number}{}", spaced(ids)),
            Deed::Join { n, reverse, runs } => {
                let way = if *reverse { "reverse" } else { "forward" };
                format!("join {number} {n} {way}{}", pairs(runs))
            }
            Deed::Close(Way::Line) => format!("close {number} line"),
            Deed::Close(Way::Cycle { pivot }) => format!("close {number} cycle {pivot}"),
        },
    }
}

fn answer(told: &Told) -> String {
    match told {
        Ok(Answer::Value(value)) => format!("ok {value}"),
        Ok(Answer::Ids(ids)) => format!("ok {}:{}", ids.len(), spaced(ids)),
        Err(clause) => refused(clause.number()),
    }
}

/// The start, the calls, and what the store holds behind them. Behind a refused start nothing more is asked.
pub fn lines_of(list: &List) -> Vec<Line> {
    let start = [u64::from(list.n), u64::from(list.worker)];
    let command_of_start = format!("start{}", spaced(start.iter().chain(&list.lengths.all())));
    let state = match list.started {
        Ok(state) => state,
        Err(clause) => {
            return vec![Line {
                command: command_of_start,
                answers: vec![refused(clause.number())],
            }];
        }
    };
    let mut lines = vec![Line {
        command: command_of_start,
        answers: vec!["ok 0".into()],
    }];
    for (call, told) in list.calls.iter().zip(&list.told) {
        lines.push(Line {
            command: command(call, list.n),
            answers: vec![answer(told)],
        });
    }
    lines.extend(views(&state, &list.buffers));
    lines
}

fn views(state: &State, buffers: &Buffers) -> [Line; 4] {
    let used = state.used;
    let mut unitigs = vec![format!("ok {}", used.unitigs)];
    for place in 0..used.unitigs as usize {
        let (start, count) = (buffers.table[2 * place], buffers.table[2 * place + 1]);
        let bytes = &buffers.runs[start as usize..used.runs as usize];
        let runs = model::read_runs(bytes).map_or(Vec::new(), |(runs, _)| runs);
        unitigs.push(format!("{place} {count}{}", pairs(&runs)));
    }
    let open = match state.current {
        Current::Nothing => "none".into(),
        Current::Open(count) => count.to_string(),
    };
    let sizes = format!(
        "ok N {} W {} last {} sets {} records {} open {open} unitigs {} runs {}",
        state.n, state.worker, state.number, used.sets, used.records, used.unitigs, used.runs
    );
    let line = |command: &str, answers| Line {
        command: command.into(),
        answers,
    };
    [
        line(
            "records",
            vec![format!(
                "ok {}",
                hex(&buffers.records[..used.records as usize])
            )],
        ),
        line(
            "index",
            vec![format!(
                "ok{}",
                spaced(&buffers.index[..=used.sets as usize])
            )],
        ),
        line("unitigs", unitigs),
        line("state", vec![sizes]),
    ]
}
