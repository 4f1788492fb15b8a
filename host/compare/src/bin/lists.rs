//! Random lists of calls: `lists [CALLS [SEED]]`. At least CALLS calls (100,000), in lists that begin with a start each, go through both
//! models of the store and the proved programs `roadfinch` (as command lines) and `sessions` (as numbers), which must have been
//! built. Every line that a program answers is compared with the model's. SEED begins the lists (1): the same two numbers repeat
//! the same run. The stores of one colour count are then compared, each with each: the record bytes of the one are the beginning
//! of the other's exactly when its accepted sets are. Exits with 1 where an answer or such a pair differs; where a refusal that calls
//! can reach, a bound, or what can become of an empty set, was not met; where a set was filed in fewer than a third of the unitigs
//! while they were open, or no piece named one, no show gave one, or no join was sent again after one; where fewer than a fifth
//! of the closed unitigs are cycles, or a kind of cycle was not met; or where fewer than two fifths of the runs repeat the coordinate
//! before them, or something that becomes of such runs was not met: as with far fewer calls.

use compare::commands::{Line, lines_of};
use compare::cycles::CYCLES;
use compare::lists::{Crossed, History, List, REACHED, Told};
use compare::merging::{MERGING, Merging};
use compare::random::Random;
use compare::run::grouped;
use compare::sessions::{MOST_BYTES, Session, session_of};
use model::calls::{Answer, Call, Clause, Deed};
use std::collections::BTreeMap;
use std::io::Write;
use std::path::Path;
use std::process::{Command, Stdio};
use std::time::Instant;

/// How many differences are printed.
const SHOWN: u64 = 5;

/// How many lists have unitigs of the most vertices there may be.
const LARGEST: usize = 4;

const OPERATIONS: [&str; 5] = ["start", "add", "join", "close", "show"];

#[derive(Debug, Clone, Copy, PartialEq, Eq, PartialOrd, Ord)]
enum Outcome {
    Accepted,
    Repeat,
    Refused(u32, Clause),
}

/// How often each operation ended in which way.
type Counts = BTreeMap<(&'static str, Outcome), u64>;

/// Which refusals lists of calls can reach: those of 15, of 5 and of unreadable arguments need altered memory, and no buffer of
/// these programs is longer than 4,294,967,295.
fn reachable() -> Vec<(&'static str, Clause)> {
    use Clause::*;
    let mut all = Vec::new();
    for operation in ["add", "join", "close"] {
        for clause in [NumberZero, NumberFar, OtherCall, OtherArguments] {
            all.push((operation, clause));
        }
    }
    let mut more = |operation, clauses: &[Clause]| {
        all.extend(clauses.iter().map(|&clause| (operation, clause)));
    };
    more("start", &[Colors, Worker, NoIndexEntry]);
    more("add", &[NotAscending, NotBelow, RecordFile, Index]);
    more("join", &[NoVertices, ManyVertices, NotSharp, OtherWorker]);
    more("join", &[NoSet, Junction, OpenRuns, HeldPiece]);
    more("close", &[NoneOpen, OneVertex, OtherEnd, RunFile, Table]);
    more("show", &[NoUnitig, NoVertex, Output]);
    all
}

fn operation(call: &Call) -> &'static str {
    match call {
        Call::Show { .. } => "show",
        Call::Numbered { deed, .. } => match deed {
            Deed::Add { .. } => "add",
            Deed::Join { .. } => "join",
            Deed::Close(_) => "close",
        },
    }
}

fn outcome(told: &Told, accepted: bool) -> Outcome {
    match told {
        Err(clause) => Outcome::Refused(clause.number(), *clause),
        Ok(Answer::Ids(_)) => Outcome::Accepted,
        Ok(Answer::Value(_)) if accepted => Outcome::Accepted,
        Ok(Answer::Value(_)) => Outcome::Repeat,
    }
}

/// A line that a program must answer.
struct Wanted {
    list: usize,
    /// What is asked, as a person reads it.
    asked: String,
    answer: String,
    counted: Option<(&'static str, Outcome)>,
}

/// What a program is to be fed, and what it must answer.
#[derive(Default)]
struct Feed {
    text: String,
    wanted: Vec<Wanted>,
}

#[derive(Default)]
struct Tally {
    lines: u64,
    failed: u64,
    counts: Counts,
}

impl Tally {
    fn fail(&mut self, what: impl FnOnce() -> String) {
        self.failed += 1;
        if self.failed <= SHOWN {
            println!("FAILED: {}", what());
        }
    }

    fn compare(&mut self, program: &str, feed: &Feed, answered: &str) {
        let mut answers = answered.lines();
        for wanted in &feed.wanted {
            self.lines += 1;
            let answer = answers.next();
            if answer == Some(&wanted.answer) {
                if let Some(counted) = wanted.counted {
                    *self.counts.entry(counted).or_default() += 1;
                }
                continue;
            }
            self.fail(|| {
                format!(
                    "{program}, list {}, {}\n  program: {}\n  model:   {}",
                    wanted.list,
                    wanted.asked,
                    answer.unwrap_or("(nothing)"),
                    wanted.answer
                )
            });
        }
        let more = answers.count();
        if more > 0 {
            self.fail(|| format!("{program}: {more} lines more than asked for"));
        }
    }
}

/// Runs the program of this crate on this input; what it writes, if it ends well.
fn run(program: &str, input: &str) -> Result<String, String> {
    let built = format!("crates/{program}/out/{program}");
    let root = Path::new(env!("CARGO_MANIFEST_DIR")).join("../..");
    let mut child = Command::new(root.join(&built))
        .stdin(Stdio::piped())
        .stdout(Stdio::piped())
        .spawn()
        .map_err(|error| format!("{built}: {error}"))?;
    let mut stdin = child.stdin.take().ok_or("no standard input")?;
    std::thread::scope(|scope| {
        scope.spawn(move || stdin.write_all(input.as_bytes()));
        let output = child
            .wait_with_output()
            .map_err(|error| error.to_string())?;
        if !output.status.success() {
            return Err(format!("{program} ended with {}", output.status));
        }
        String::from_utf8(output.stdout).map_err(|error| error.to_string())
    })
}

/// The start's and each call's place in the counts, in their order.
fn counted_of(list: &List) -> Vec<(&'static str, Outcome)> {
    let start = match list.started {
        Ok(_) => Outcome::Accepted,
        Err(clause) => Outcome::Refused(clause.number(), clause),
    };
    let calls = list.calls.iter().zip(&list.told).zip(&list.accepted);
    std::iter::once(("start", start))
        .chain(calls.map(|((call, told), &new)| (operation(call), outcome(told, new))))
        .collect()
}

/// The list as command lines, behind those of the lists before.
fn feed_commands(
    feed: &mut Feed,
    list: usize,
    lines: &[Line],
    counted: &[(&'static str, Outcome)],
) {
    for (place, line) in lines.iter().enumerate() {
        feed.text += &line.command;
        feed.text += "\n";
        for answer in &line.answers {
            feed.wanted.push(Wanted {
                list,
                asked: format!("line {place}: {}", line.command),
                answer: answer.clone(),
                counted: counted.get(place).copied(),
            });
        }
    }
}

/// The list as a session, in a feed that has space for it.
fn feed_session(
    feeds: &mut Vec<Feed>,
    list: usize,
    lines: &[Line],
    counted: &[(&'static str, Outcome)],
    session: Session,
) {
    let fits = |feed: &Feed| feed.text.len() + session.text.len() <= MOST_BYTES;
    if !feeds.last().is_some_and(fits) {
        feeds.push(Feed::default());
    }
    let Some(feed) = feeds.last_mut() else {
        return;
    };
    feed.text += &session.text;
    for (place, answer) in session.answers.into_iter().enumerate() {
        let counted = counted.get(place).copied();
        let asked = match (counted, lines.get(place)) {
            (Some(_), Some(line)) => format!("line {place}: {}", line.command),
            _ => "what is left".into(),
        };
        feed.wanted.push(Wanted {
            list,
            asked,
            answer,
            counted,
        });
    }
}

/// One file, one history: each two stores of one colour count.
fn compare_histories(histories: &[History], tally: &mut Tally) {
    let (mut pairs, mut beginnings) = (0, 0);
    for a in histories {
        for b in histories.iter().filter(|b| a.n == b.n) {
            let begins = b.sets.starts_with(&a.sets);
            pairs += 1;
            beginnings += u64::from(begins);
            if b.records.starts_with(&a.records) != begins {
                tally.fail(|| {
                    format!(
                        "of {} colours: {:?} and {:?} in sets, {:02X?} and {:02X?} in bytes",
                        a.n, a.sets, b.sets, a.records, b.records
                    )
                });
            }
        }
    }
    println!(
        "record files: {} pairs of one colour count, {} where the one is the beginning of the other",
        grouped(pairs),
        grouped(beginnings)
    );
}

fn print_counts(counts: &Counts) {
    for operation in OPERATIONS {
        let mut line = format!("  {operation}:");
        let mut comma = "";
        for ((_, outcome), &count) in counts.iter().filter(|((of, _), _)| *of == operation) {
            let name = match outcome {
                Outcome::Refused(number, clause) => format!("{number} {clause:?}"),
                other => format!("{other:?}"),
            };
            line += &format!("{comma} {name} {}", grouped(count));
            comma = ",";
        }
        println!("{line}");
    }
}

/// How often each of [`CYCLES`] was met; how many failures that is.
fn print_cycles(cycles: &[u64; CYCLES.len()]) -> u64 {
    let met = || CYCLES.iter().zip(cycles);
    let counts: Vec<String> = met()
        .map(|(name, &count)| format!("{name} {}", grouped(count)))
        .collect();
    println!("unitigs closed: {}", counts.join(", "));
    let mut failed = 0;
    for (name, _) in met().filter(|(_, count)| **count == 0) {
        println!("FAILED: no {name}");
        failed += 1;
    }
    let [lines, closed, ..] = cycles;
    if 5 * closed < lines + closed {
        println!("FAILED: fewer than a fifth of the closed unitigs are cycles");
        failed += 1;
    }
    failed
}

/// What was met of [`MERGING`], and how many runs repeat the coordinate before them; how many failures that is.
fn print_merging(merging: &Merging) -> u64 {
    println!(
        "runs sent, but for those dropped at junctions: {}, of which {} repeat the coordinate before them",
        grouped(merging.sent),
        grouped(merging.repeating)
    );
    let mut failed = 0;
    if 5 * merging.repeating < 2 * merging.sent {
        println!("FAILED: fewer than two fifths of the runs repeat the coordinate before them");
        failed += 1;
    }
    println!("equal neighbours:");
    for name in MERGING {
        let count = merging.met.get(name).copied().unwrap_or(0);
        println!("  {name}: {}", grouped(count));
        if count == 0 {
            println!("FAILED: no {name}");
            failed += 1;
        }
    }
    failed
}

fn main() {
    let numbers: Vec<String> = std::env::args().skip(1).collect();
    let number = |place: usize, usual: u64| match numbers.get(place) {
        None => usual,
        Some(word) => word.parse().unwrap_or_else(|_| {
            eprintln!("usage: lists [CALLS [SEED]]");
            std::process::exit(2);
        }),
    };
    let (calls, seed) = (number(0, 100_000), number(1, 1));
    let began = Instant::now();

    let mut random = Random::new(seed);
    let mut models = Tally::default();
    let mut commands = Feed::default();
    let mut sessions: Vec<Feed> = Vec::new();
    let (mut lists, mut made) = (0, 0);
    let mut reached = [0; REACHED.len()];
    let (mut adds, mut empty) = (0, 0);
    let mut crossed = Crossed::default();
    let mut cycles = [0; CYCLES.len()];
    let mut merging = Merging::default();
    let mut histories = Vec::new();
    while made < calls || lists < LARGEST {
        let shape = if lists < LARGEST {
            random.largest_shape()
        } else {
            random.shape()
        };
        lists += 1;
        let list = List::random(&mut random, &shape);
        made += list.told.len() as u64;
        models.lines += list.told.len() as u64;
        for difference in &list.differences {
            models.fail(|| format!("models, list {lists}, {difference}"));
        }
        for (count, here) in reached.iter_mut().zip(list.reached()) {
            *count += u64::from(here);
        }
        for (ids, _) in list.adds() {
            adds += 1;
            empty += u64::from(ids.is_empty());
        }
        crossed.add(&list.crossed());
        for (count, here) in cycles.iter_mut().zip(list.cycles()) {
            *count += here;
        }
        merging.add(&list.merging());
        histories.extend(list.history());
        let counted = counted_of(&list);
        let lines = lines_of(&list);
        feed_commands(&mut commands, lists, &lines, &counted);
        let session = session_of(&list, &mut random);
        feed_session(&mut sessions, lists, &lines, &counted, session);
    }
    println!(
        "models: {} lists, {} calls, {} differ, {:.1} s",
        grouped(lists as u64),
        grouped(made),
        models.failed,
        began.elapsed().as_secs_f64()
    );

    compare_histories(&histories, &mut models);

    let mut failed = models.failed;
    let mut tallies = Vec::new();
    for (program, feeds) in [
        ("roadfinch", std::slice::from_ref(&commands)),
        ("sessions", &sessions[..]),
    ] {
        let began = Instant::now();
        let mut tally = Tally::default();
        for feed in feeds {
            match run(program, &feed.text) {
                Ok(answered) => tally.compare(program, feed, &answered),
                Err(error) => tally.fail(|| error),
            }
        }
        println!(
            "{program}: {} lines compared, {} differ, {:.1} s",
            grouped(tally.lines),
            tally.failed,
            began.elapsed().as_secs_f64()
        );
        for (operation, clause) in reachable() {
            let met = Outcome::Refused(clause.number(), clause);
            if !tally.counts.contains_key(&(operation, met)) {
                tally.fail(|| {
                    format!(
                        "{program}: {operation} met no {} {clause:?}",
                        clause.number()
                    )
                });
            }
        }
        failed += tally.failed;
        tallies.push(tally);
    }
    if tallies[0].counts != tallies[1].counts {
        println!("FAILED: the two programs agree on different calls");
        failed += 1;
    }
    println!("answers that agree, by operation:");
    print_counts(&tallies[0].counts);
    println!(
        "adds: {}, of the empty set {}",
        grouped(adds),
        grouped(empty)
    );
    println!(
        "unitigs opened: {}, a set filed while open in {}; pieces that name such a set {}, shows that give one {}, joins sent again after one {}",
        grouped(crossed.opened),
        grouped(crossed.with_sets),
        grouped(crossed.pieces),
        grouped(crossed.shown),
        grouped(crossed.overtaken)
    );
    let met = [crossed.pieces, crossed.shown, crossed.overtaken];
    if 3 * crossed.with_sets < crossed.opened || met.contains(&0) {
        println!("FAILED: too few sets filed while a unitig is open, or not met again");
        failed += 1;
    }
    failed += print_cycles(&cycles);
    failed += print_merging(&merging);
    println!("lists that reach a bound, or hold a call on an empty set:");
    for (name, &count) in REACHED.iter().zip(&reached) {
        println!("  {name}: {}", grouped(count));
        if count == 0 {
            println!("FAILED: no list has {name}");
            failed += 1;
        }
    }
    println!(
        "lists: {} calls through each program, {} failed, seed {seed}, {:.1} s",
        grouped(made),
        grouped(failed),
        began.elapsed().as_secs_f64()
    );
    if failed > 0 {
        std::process::exit(1);
    }
}
