//! The benchmark: `bench` measures the reference and the proved code on the same inputs, in turn, prints a table and writes
//! it to docs/BENCHMARK.md, with a picture, docs/benchmark.svg. The store's show is measured through the program `roadfinch`,
//! which is built where it is missing or old. Built without the archive it measures the reference alone and writes nothing.

use compare::picture::{Bar, picture};
use compare::proved;
use compare::random::Random;
use compare::run::grouped;
use compare::shows;
use model::MAX_VERTICES;
use model::records::record_of;
use model::runs::{coordinate, has_equal_neighbours, merged, offset, pack};
use oracle::color::{self, ColorWorkerWriter};
use oracle::drive;
use oracle::state::{ColorCoordinate, UnitigColor};
use std::fmt::Write;
use std::hint::black_box;
use std::time::Instant;

/// Each side is measured so often, in turn, and the shortest time counts.
const ROUNDS: usize = 15;

/// A round repeats its call until it takes about this long, so that the clock's grain doesn't show.
const ROUND_SECONDS: f64 = 0.004;

/// What a time is told by: a unit, and how many of them a call has.
type Unit = (&'static str, usize);

/// One measurement: a row of the table for each of its units.
struct Row {
    operation: &'static str,
    input: String,
    units: Vec<Unit>,
    /// Seconds for one call.
    reference: f64,
    proved: Option<f64>,
}

/// The shortest time of one call of each side, in seconds.
fn shortest(reference: &mut dyn FnMut(), proved: &mut dyn FnMut()) -> (f64, f64) {
    fn round(call: &mut dyn FnMut(), calls: u32) -> f64 {
        let began = Instant::now();
        for _ in 0..calls {
            call();
        }
        began.elapsed().as_secs_f64() / f64::from(calls)
    }
    let calls = |call: &mut dyn FnMut()| {
        round(call, 1);
        (ROUND_SECONDS / round(call, 2).max(1e-9)).clamp(1.0, 100_000.0) as u32
    };
    let (first, second) = (calls(reference), calls(proved));
    let mut best = (f64::MAX, f64::MAX);
    for _ in 0..ROUNDS {
        best.0 = best.0.min(round(reference, first));
        best.1 = best.1.min(round(proved, second));
    }
    best
}

#[derive(Default)]
struct Table {
    rows: Vec<Row>,
}

impl Table {
    fn row(
        &mut self,
        operation: &'static str,
        input: String,
        units: &[Unit],
        mut reference: impl FnMut(),
        mut proved: impl FnMut(),
    ) {
        let mut nothing = || {};
        let second: &mut dyn FnMut() = if proved::HERE {
            &mut proved
        } else {
            &mut nothing
        };
        let (first, second) = shortest(&mut reference, second);
        self.rows.push(Row {
            operation,
            input,
            units: units.to_vec(),
            reference: first,
            proved: proved::HERE.then_some(second),
        });
        let text = self.rows.last().map_or(String::new(), Row::text);
        print!("{text}");
    }

    fn text(&self) -> String {
        let mut text = String::from(HEADING);
        for row in &self.rows {
            text.push_str(&row.text());
        }
        text
    }

    /// A bar for each measurement in which the proved code took part.
    fn bars(&self) -> Vec<Bar> {
        let bar = |row: &Row| {
            Some(Bar {
                label: format!("{}: {}", row.operation, row.input),
                times: row.reference / row.proved?,
            })
        };
        self.rows.iter().filter_map(bar).collect()
    }
}

const HEADING: &str = "| operation | input | ns per | reference | roadfinch | times as fast |\n\
    |---|---|---|---:|---:|---:|\n";

impl Row {
    fn text(&self) -> String {
        let mut text = String::new();
        for &(unit, count) in &self.units {
            let each = |seconds: f64| seconds * 1e9 / count as f64;
            let _ = write!(
                text,
                "| {} | {} | {unit} | {:.2} |",
                self.operation,
                self.input,
                each(self.reference)
            );
            let _ = match self.proved {
                Some(proved) => {
                    let times = self.reference / proved;
                    writeln!(text, " {:.2} | {times:.1} |", each(proved))
                }
                None => writeln!(text, " - | - |"),
            };
        }
        text
    }
}

fn words(runs: &[u64]) -> Vec<UnitigColor> {
    runs.iter()
        .map(|&run| UnitigColor::new(offset(run), ColorCoordinate::from_u40(run >> 24)))
        .collect()
}

/// What the proved code answers must be 0: a refusal would be quick.
fn accepted(code: u32) {
    assert_eq!(code, 0);
}

/// Writing and reading one set.
fn set(
    table: &mut Table,
    kind: [&'static str; 2],
    n: u32,
    ids: &[u32],
    what: &str,
    units: &[Unit],
) {
    let record = record_of(n, ids);
    let input = format!("N = {}, {what}", grouped(n.into()));
    let mut writer = ColorWorkerWriter::default();
    let mut out = vec![0; record.len()];
    let mut numbers = [0; 2];
    table.row(
        kind[0],
        input.clone(),
        units,
        || {
            writer.output.clear();
            color::write_color_record(&mut writer, black_box(ids), n).unwrap();
            black_box(&writer.output);
        },
        || {
            accepted(proved::write_record(
                n,
                black_box(ids),
                &mut out,
                &mut numbers[0],
            ));
            black_box(&out);
        },
    );
    assert_eq!(writer.output, record);
    let mut back = vec![0; ids.len()];
    table.row(
        kind[1],
        input,
        units,
        || {
            black_box(drive::read_color_record(black_box(&record), n).unwrap());
        },
        || {
            let [given, taken] = &mut numbers;
            accepted(proved::read_record(
                n,
                black_box(&record),
                &mut back,
                given,
                taken,
            ));
            black_box(&back);
        },
    );
    if proved::HERE {
        assert_eq!(out, record);
        assert_eq!(back, ids);
    }
}

/// Random sets of N = 64.
fn small_sets(table: &mut Table, count: usize) {
    let sets = random_sets(64, count, 0..65);
    let input = format!("{} sets of N = 64", grouped(count as u64));
    many_sets(table, 64, &sets, input, ("set", count));
}

/// Random sets of N = 64 of which few ids are absent.
fn small_dense_sets(table: &mut Table, count: usize) {
    let sets = random_sets(64, count, 58..64);
    let input = format!(
        "{} sets of N = 64, 1 to 6 ids absent",
        grouped(count as u64)
    );
    many_sets(table, 64, &sets, input, ("set", count));
}

/// Random sets of one size, so many that their codes aren't foreseen as those of one set are that comes again and again.
fn sets_in_turn(table: &mut Table, n: u32, len: u32) {
    let count = 50;
    let sets = random_sets(n, count, len..len + 1);
    let input = format!(
        "N = {}, {count} sets of {} ids",
        grouped(n.into()),
        grouped(len.into())
    );
    many_sets(table, n, &sets, input, ("id", count * len as usize));
}

fn random_sets(n: u32, count: usize, sizes: std::ops::Range<u32>) -> Vec<Vec<u32>> {
    let mut random = Random::new(21);
    (0..count)
        .map(|_| {
            let len = sizes.start + random.below(u64::from(sizes.end - sizes.start)) as u32;
            random.set(n, len)
        })
        .collect()
}

/// Sets written to one file, and read from it by their starts.
fn many_sets(table: &mut Table, n: u32, sets: &[Vec<u32>], input: String, unit: Unit) {
    let mut file = Vec::new();
    let mut starts = vec![0];
    for ids in sets {
        file.extend(record_of(n, ids));
        starts.push(file.len() as u64);
    }
    let mut writer = ColorWorkerWriter::default();
    let mut out = vec![0; file.len()];
    table.row(
        "write records",
        input.clone(),
        &[unit],
        || {
            writer.output.clear();
            for ids in sets {
                color::write_color_record(&mut writer, ids, n).unwrap();
            }
            black_box(&writer.output);
        },
        || {
            let mut at = 0;
            for ids in sets {
                let mut written = 0;
                accepted(proved::write_record(n, ids, &mut out[at..], &mut written));
                at += written as usize;
            }
            black_box(&out);
        },
    );
    assert_eq!(writer.output, file);
    let mut ids = vec![0; n as usize];
    table.row(
        "read records",
        input,
        &[unit],
        || {
            for &start in &starts[..sets.len()] {
                let part = &file[start as usize..];
                black_box(drive::read_color_record(part, n).unwrap());
            }
        },
        || {
            for &start in &starts[..sets.len()] {
                let (mut given, mut taken) = (0, 0);
                let part = &file[start as usize..];
                accepted(proved::read_record(
                    n, part, &mut ids, &mut given, &mut taken,
                ));
                black_box(&ids);
            }
        },
    );
    if proved::HERE {
        assert_eq!(out, file);
    }
}

fn index(table: &mut Table, count: usize) {
    let mut random = Random::new(22);
    let mut file = Vec::new();
    let sets: Vec<Vec<u8>> = (0..1000)
        .map(|_| {
            let len = random.below(65) as u32;
            record_of(64, &random.set(64, len))
        })
        .collect();
    for i in 0..count {
        file.extend(&sets[i % sets.len()]);
    }
    let mut out = vec![0; count + 1];
    let made = drive::index_worker(&file, count as u32).unwrap();
    table.row(
        "make index",
        format!("{} records", grouped(count as u64)),
        &[("record", count)],
        || {
            black_box(drive::index_worker(black_box(&file), count as u32).unwrap());
        },
        || {
            accepted(proved::make_index(black_box(&file), count as u64, &mut out));
            black_box(&out);
        },
    );
    if proved::HERE {
        assert_eq!(out, made);
    }
}

/// A sharp list of evenly spaced runs with unequal neighbours.
fn even(count: usize, n: u32) -> Vec<u64> {
    let mut random = Random::new(23);
    (0..count)
        .map(|i| {
            let offset = (i as u64 * u64::from(n) / count as u64) as u32;
            pack(offset, random.below(1 << 39) * 2 + i as u64 % 2)
        })
        .collect()
}

fn reverse_and_append(table: &mut Table, count: usize, n: u32) {
    let runs = even(count, n);
    let list = words(&runs);
    let input = format!("{} runs, n = {}", grouped(count as u64), grouped(n.into()));
    let (mut out, mut numbers) = (vec![0; count + 1], [0; 2]);
    table.row(
        "reverse",
        input.clone(),
        &[("run", count)],
        || {
            black_box(color::reverse_color_runs(black_box(&list), n));
        },
        || {
            accepted(proved::reverse_runs(
                black_box(&runs),
                n,
                &mut out,
                &mut numbers[0],
            ));
            black_box(&out);
        },
    );
    let (mut first, mut second) = (list.clone(), runs.clone());
    table.row(
        "reverse in place",
        input.clone(),
        &[("run", count)],
        || {
            color::reverse_color_runs_in_place(black_box(&mut first), n);
        },
        || {
            accepted(proved::reverse_runs_in_place(
                black_box(&mut second),
                n,
                &mut numbers[0],
            ));
        },
    );
    assert!(!has_equal_neighbours(&runs));
    for (name, reverse) in [("append", false), ("append, reversed", true)] {
        let (reference, proved) = append(table, name, &runs, n, reverse);
        assert_eq!(reference.len(), count + 1);
        if proved::HERE {
            assert_eq!(proved, reference);
        }
    }
}

/// The piece behind an output of one run, unlike its first one; what each side makes of it, the proved code's where it takes part.
fn append(
    table: &mut Table,
    name: &'static str,
    runs: &[u64],
    n: u32,
    reverse: bool,
) -> (Vec<u64>, Vec<u64>) {
    let one = pack(0, 1 << 39);
    let list = words(runs);
    let input = format!(
        "{} runs, n = {}",
        grouped(runs.len() as u64),
        grouped(n.into())
    );
    let mut output = words(&[one]);
    let (mut out, mut numbers) = (vec![0; runs.len() + 1], [0; 2]);
    out[0] = one;
    table.row(
        name,
        input,
        &[("run", runs.len())],
        || {
            output.truncate(1);
            color::append_color_runs(&mut output, 1, black_box(&list), n, reverse);
            black_box(&output);
        },
        || {
            let [runs_now, vertices] = &mut numbers;
            accepted(proved::append_runs(
                &mut out,
                1,
                1,
                black_box(runs),
                n,
                reverse,
                runs_now,
                vertices,
            ));
            black_box(&out);
        },
    );
    out.truncate(numbers[0] as usize);
    (output.iter().map(|run| run.raw()).collect(), out)
}

/// Pieces with equal neighbours, of which the proved code keeps the first and the reference all.
fn append_merged(table: &mut Table, count: usize, n: u32) {
    let mut random = Random::new(27);
    let half = repeating(even(count, n), |_| random.flip());
    let tens = repeating(even(count, n), |i| i % 10 > 0);
    assert_eq!(merged(&tens).len(), count.div_ceil(10));
    for (name, runs, reverse) in [
        ("append, half of the runs repeating", &half, false),
        ("append, half of the runs repeating, reversed", &half, true),
        ("append, ten equal neighbours each", &tens, false),
        ("append, ten equal neighbours each, reversed", &tens, true),
    ] {
        let (reference, proved) = append(table, name, runs, n, reverse);
        assert!(has_equal_neighbours(&reference));
        if proved::HERE {
            assert_eq!(proved, merged(&reference));
        }
    }
}

/// The list, in which these runs repeat the coordinate before them.
fn repeating(mut runs: Vec<u64>, mut repeats: impl FnMut(usize) -> bool) -> Vec<u64> {
    for i in 1..runs.len() {
        if repeats(i) {
            runs[i] = pack(offset(runs[i]), coordinate(runs[i - 1]));
        }
    }
    runs
}

fn rotate(table: &mut Table, count: usize, n: u32, reverse: bool) {
    let runs = even(count, n);
    let list = words(&runs);
    // Within a run, so that the turned list has one run more.
    let pivot = offset(runs[count / 3]) + 1;
    let (mut out, mut numbers) = (vec![0; count + 1], [0]);
    table.row(
        if reverse {
            "rotate, reversed"
        } else {
            "rotate"
        },
        format!("{} runs, n = {}", grouped(count as u64), grouped(n.into())),
        &[("run", count)],
        || {
            let turned = color::rotate_cycle_color_runs(black_box(&list), n, pivot, reverse);
            black_box(turned);
        },
        || {
            let runs = black_box(&runs);
            accepted(proved::rotate_runs(
                runs,
                n,
                pivot,
                reverse,
                &mut out,
                &mut numbers[0],
            ));
            black_box(&out);
        },
    );
    if proved::HERE {
        let turned = color::rotate_cycle_color_runs(&list, n, pivot, reverse);
        let turned: Vec<u64> = turned.iter().map(|run| run.raw()).collect();
        assert_eq!(out[..numbers[0] as usize], turned);
    }
}

fn run_bytes(table: &mut Table, count: usize) {
    let runs = even(count, MAX_VERTICES);
    let list = words(&runs);
    let bytes = model::write_runs(&runs).unwrap();
    let input = format!("{} runs", grouped(count as u64));
    let (mut output, mut out, mut numbers) = (Vec::new(), vec![0; bytes.len()], [0; 2]);
    table.row(
        "write run bytes",
        input.clone(),
        &[("run", count)],
        || {
            output.clear();
            drive::write_unitig_color_runs(&mut output, black_box(&list)).unwrap();
            black_box(&output);
        },
        || {
            accepted(proved::write_runs(
                black_box(&runs),
                &mut out,
                &mut numbers[0],
            ));
            black_box(&out);
        },
    );
    assert_eq!(output, bytes);
    let (mut read, mut back) = (Vec::new(), vec![0; count]);
    table.row(
        "read run bytes",
        input,
        &[("run", count)],
        || {
            drive::read_unitig_color_runs(black_box(&bytes), &mut read).unwrap();
            black_box(&read);
        },
        || {
            let [given, taken] = &mut numbers;
            accepted(proved::read_runs(
                black_box(&bytes),
                &mut back,
                given,
                taken,
            ));
            black_box(&back);
        },
    );
    assert_eq!(read, list);
    if proved::HERE {
        assert_eq!(out, bytes);
        assert_eq!(back, runs);
    }
}

fn ids_of(ids: &[u32]) -> String {
    format!("{} ids", grouped(ids.len() as u64))
}

fn sparse(table: &mut Table, ids: u32) {
    let n = 1_048_576;
    let ids = Random::new(24).set(n, ids);
    let kind = ["write sparse", "read sparse"];
    set(table, kind, n, &ids, &ids_of(&ids), &[("id", ids.len())]);
}

/// Runs of 50 ids at random places.
fn clustered(table: &mut Table, runs: u32) {
    let n = 1_048_576;
    let ids = Random::new(28).clusters(n, runs, 50);
    let what = format!("{} runs of 50 ids", grouped(runs.into()));
    let kind = ["write clustered", "read clustered"];
    set(table, kind, n, &ids, &what, &[("id", ids.len())]);
}

fn bitmap(table: &mut Table, n: u32) {
    let ids = Random::new(25).set(n, n / 2);
    let kind = ["write bitmap", "read bitmap"];
    let units = [("id", ids.len()), ("bit", n as usize)];
    set(table, kind, n, &ids, &ids_of(&ids), &units);
}

fn dense(table: &mut Table, n: u32, absent: u32) {
    let ids = Random::new(26).set(n, n - absent);
    let kind = ["write dense", "read dense"];
    set(table, kind, n, &ids, &ids_of(&ids), &[("id", ids.len())]);
}

/// Dense sets with many holes: one id in so many is absent.
fn holed(table: &mut Table, n: u32, one_in: u32) {
    let ids = Random::new(26).set(n, n - n / one_in);
    let what = format!("{}, one in {one_in} absent", ids_of(&ids));
    let kind = ["write dense", "read dense"];
    set(table, kind, n, &ids, &what, &[("id", ids.len())]);
}

/// The proved code alone, in nanoseconds a unit: a whole call, and the same call refused for want of space, which makes every
/// test and writes nothing.
fn tests_alone(
    operation: &str,
    input: &str,
    (unit, units): (&str, usize),
    mut whole: impl FnMut(),
    mut refused: impl FnMut(),
) -> String {
    let (first, second) = shortest(&mut whole, &mut refused);
    let each = |seconds: f64| seconds * 1e9 / units as f64;
    let row = format!(
        "| {operation} | {input} | {unit} | {:.2} | {:.2} |\n",
        each(first),
        each(second)
    );
    print!("{row}");
    row
}

fn short_of_space(code: u32) {
    assert_eq!(code, 3);
}

/// The operations that are not as fast as asked for, and what their tests cost.
fn tests() -> String {
    let mut text =
        String::from("| operation | input | ns per | whole | tests |\n|---|---|---|---:|---:|\n");
    let mut numbers = [0; 2];
    let some = |name, n, ids: Vec<u32>| (name, n, ids_of(&ids), ids);
    for (name, n, what, ids) in [
        some("sparse", 1_048_576, Random::new(24).set(1_048_576, 1000)),
        (
            "clustered",
            1_048_576,
            "2,000 runs of 50 ids".to_string(),
            Random::new(28).clusters(1_048_576, 2000, 50),
        ),
        some("dense", 655_360, Random::new(26).set(655_360, 650_360)),
        (
            "dense",
            65_536,
            "58,983 ids, one in 10 absent".to_string(),
            Random::new(26).set(65_536, 58_983),
        ),
    ] {
        let input = format!("N = {}, {what}", grouped(n.into()));
        let record = record_of(n, &ids);
        let (mut out, mut back) = (vec![0; record.len()], vec![0; ids.len()]);
        let mut second = 0;
        text += &tests_alone(
            &format!("write {name}"),
            &input,
            ("id", ids.len()),
            || {
                accepted(proved::write_record(
                    n,
                    black_box(&ids),
                    &mut out,
                    &mut numbers[0],
                ))
            },
            || {
                short_of_space(proved::write_record(
                    n,
                    black_box(&ids),
                    &mut [],
                    &mut second,
                ))
            },
        );
        let [given, taken] = &mut numbers;
        let (mut a, mut b) = (0, 0);
        text += &tests_alone(
            &format!("read {name}"),
            &input,
            ("id", ids.len()),
            || {
                accepted(proved::read_record(
                    n,
                    black_box(&record),
                    &mut back,
                    given,
                    taken,
                ))
            },
            || {
                short_of_space(proved::read_record(
                    n,
                    black_box(&record),
                    &mut [],
                    &mut a,
                    &mut b,
                ))
            },
        );
    }
    let mut random = Random::new(21);
    let sets: Vec<Vec<u32>> = (0..1000)
        .map(|_| {
            let len = 1 + random.below(64) as u32;
            random.set(64, len)
        })
        .collect();
    let records: Vec<Vec<u8>> = sets.iter().map(|ids| record_of(64, ids)).collect();
    let (mut out, mut back) = (vec![0; 64], vec![0; 64]);
    text += &tests_alone(
        "write records",
        "1,000 sets of N = 64",
        ("set", 1000),
        || {
            for ids in &sets {
                accepted(proved::write_record(64, ids, &mut out, &mut 0));
            }
        },
        || {
            for ids in &sets {
                short_of_space(proved::write_record(64, ids, &mut [], &mut 0));
            }
        },
    );
    text += &tests_alone(
        "read records",
        "1,000 sets of N = 64",
        ("set", 1000),
        || {
            for record in &records {
                accepted(proved::read_record(64, record, &mut back, &mut 0, &mut 0));
            }
        },
        || {
            for record in &records {
                short_of_space(proved::read_record(64, record, &mut [], &mut 0, &mut 0));
            }
        },
    );
    let runs = even(100_000, 1_000_000);
    let one = pack(0, 1 << 39);
    for (name, reverse) in [("append", false), ("append, reversed", true)] {
        let (mut out, mut short) = (vec![0; 100_001], vec![0; 1]);
        out[0] = one;
        short[0] = one;
        text += &tests_alone(
            name,
            "100,000 runs, n = 1,000,000",
            ("run", 100_000),
            || {
                accepted(proved::append_runs(
                    &mut out,
                    1,
                    1,
                    black_box(&runs),
                    1_000_000,
                    reverse,
                    &mut 0,
                    &mut 0,
                ))
            },
            || {
                short_of_space(proved::append_runs(
                    &mut short,
                    1,
                    1,
                    black_box(&runs),
                    1_000_000,
                    reverse,
                    &mut 0,
                    &mut 0,
                ))
            },
        );
    }
    // The last run descends: refused (6) when all the others were tested.
    let (mut good, mut bad) = (runs.clone(), runs.clone());
    bad[99_999] = pack(0, 1);
    text += &tests_alone(
        "reverse in place",
        "100,000 runs, n = 1,000,000",
        ("run", 100_000),
        || {
            accepted(proved::reverse_runs_in_place(
                black_box(&mut good),
                1_000_000,
                &mut 0,
            ))
        },
        || {
            assert_eq!(
                proved::reverse_runs_in_place(black_box(&mut bad), 1_000_000, &mut 0),
                6
            )
        },
    );
    // The last payload is cut: refused (4) when all the others were tested.
    let file: Vec<u8> = records.iter().flatten().copied().collect();
    let (cut, mut entries) = (&file[..file.len() - 1], vec![0; 1001]);
    let mut untouched = entries.clone();
    text += &tests_alone(
        "make index",
        "1,000 records",
        ("record", 1000),
        || accepted(proved::make_index(black_box(&file), 1000, &mut entries)),
        || assert_eq!(proved::make_index(black_box(cut), 1000, &mut untouched), 4),
    );
    text
}

fn processor() -> String {
    let text = std::fs::read_to_string("/proc/cpuinfo").unwrap_or_default();
    let name = text
        .lines()
        .find_map(|line| line.strip_prefix("model name"));
    name.map_or("unknown".into(), |name| {
        name.trim_start_matches([':', '\t', ' ']).into()
    })
}

/// The line of the kit that is on the path, which built the archive.
fn kit() -> String {
    let said = std::process::Command::new("rt").arg("version").output();
    let text = said.map_or(String::new(), |it| {
        String::from_utf8_lossy(&it.stdout).trim().to_string()
    });
    if text.is_empty() {
        "unknown".into()
    } else {
        text
    }
}

fn main() {
    if proved::HERE {
        shows::build();
    }
    let most = MAX_VERTICES;
    println!("one size");
    let mut one = Table::default();
    sparse(&mut one, 1000);
    clustered(&mut one, 20);
    clustered(&mut one, 2000);
    bitmap(&mut one, 4096);
    dense(&mut one, 65_536, 500);
    holed(&mut one, 65_536, 10);
    holed(&mut one, 65_536, 5);
    sets_in_turn(&mut one, 1_048_576, 1000);
    sets_in_turn(&mut one, 4096, 2048);
    sets_in_turn(&mut one, 65_536, 65_036);
    small_sets(&mut one, 1000);
    small_dense_sets(&mut one, 1000);
    index(&mut one, 100_000);
    reverse_and_append(&mut one, 100_000, 1_000_000);
    append_merged(&mut one, 100_000, 1_000_000);
    rotate(&mut one, 100_000, 1_000_000, false);
    rotate(&mut one, 100_000, 1_000_000, true);
    rotate(&mut one, 100_000, most, false);
    rotate(&mut one, 100_000, most, true);
    run_bytes(&mut one, 100_000);

    println!("growth");
    let mut growth = Table::default();
    for times in [1, 10, 100] {
        sparse(&mut growth, 1000 * times);
    }
    for times in [1, 10, 100] {
        bitmap(&mut growth, 4096 * times);
    }
    for (n, absent) in [(65_536, 500), (655_360, 5000), (1_048_576, 8000)] {
        dense(&mut growth, n, absent);
    }
    for n in [65_536, 655_360] {
        holed(&mut growth, n, 10);
    }
    for times in [1, 10, 100] {
        small_sets(&mut growth, 1000 * times);
    }
    for times in [1, 10, 100] {
        index(&mut growth, 100_000 * times);
    }
    for times in [1, 10, 100] {
        reverse_and_append(&mut growth, 100_000 * times, most);
    }
    for times in [1, 10, 100] {
        rotate(&mut growth, 100_000 * times, most, false);
    }
    for times in [1, 10, 100] {
        run_bytes(&mut growth, 100_000 * times);
    }

    println!("rotate by its vertex count");
    let mut vertices = Table::default();
    for n in [10_000, 100_000, 1_000_000, 10_000_000, most] {
        rotate(&mut vertices, 1000, n, false);
    }

    if !proved::HERE {
        println!("built without the archive: docs/BENCHMARK.md is not written");
        return;
    }
    println!("show by its runs");
    let shown = shows::table();
    print!("{shown}");
    println!("what the tests cost");
    let text = format!(
        "# Benchmark

Written by `cargo run --release --bin bench` in `host/`; don't edit it. Processor: {}. Kit: {}.

![Times as fast as the reference](benchmark.svg)

Both sides run in one process on the same inputs, in turn: the reference (the Rust functions copied in `host/oracle`) as
Rust, the proved code through its C functions. Release builds. The shortest of {ROUNDS} rounds counts, each of as many calls
as take {:.0} ms. Each answer was compared with the other side's; where a piece has equal neighbours, which the reference
keeps, with the reference's without them. Inputs lie in memory and were read before. The proved
code's outputs are lent, allocated before the first round and written in earlier calls. The reference keeps its space from
call to call where its functions let it (writing records and run bytes, reading run bytes, append) and allocates its result
where they do (reading a record, index, reverse, rotate). \"Times as fast\" is the reference's time over the proved code's.

## One size

{}
## Growth

The same at 1, 10 and 100 times the size; the dense set ends at the largest N, 16 times. From some size on the lists no longer
fit the processor's caches.

{}
## Rotate by its vertex count

1,000 runs. The reference fills an array over the vertices; here the cost doesn't depend on them.

{}
## Show by its runs

A show tests all runs of its unitig and finds the vertex's among them. The reference has no store, and the store no C
functions: the program `roadfinch` is run as a process on a file of commands. Each unitig has 1,000,000 vertices and evenly
spaced runs; the sets have one id each, and the vertices shown are random. \"A show\" is the time of such a process less that
of one that only files the unitigs, divided by its shows: reading the line and printing the answer are in it. \"By its runs\" is
what is above a show of the unitig of one run. The shortest of {} rounds counts; every answer was compared.

{}
## What the tests cost

Where the proved code is slower than the reference, the tests are the reason: a refusal leaves all lent memory as it was, so a
call tests everything before it writes anything, where the reference tests little and writes as it goes. \"Tests\" is the same call with no space for its result: it makes every test and is refused (3); reverse in place and make
index, which test space first or not at all, are refused at their last run (6) or record (4) instead.
A set with more than 16,384 ids coded as distances is decoded a second time to fill, and where more are absent from a dense set
they are looked for twice, to measure it and to write it; a set of 136 colours or more
is measured before its length prefix can be written; make index reads each prefix twice; a piece is tested for sharpness,
and its equal neighbours are counted, before it is appended.

{}",
        processor(),
        kit(),
        ROUND_SECONDS * 1e3,
        one.text(),
        growth.text(),
        vertices.text(),
        shows::ROUNDS,
        shown,
        tests()
    );
    write("BENCHMARK.md", &text);
    write("benchmark.svg", &picture(&one.bars()));
}

fn write(name: &str, text: &str) {
    let path = format!("{}/../../docs/{name}", env!("CARGO_MANIFEST_DIR"));
    match std::fs::write(&path, text) {
        Ok(()) => println!("written: docs/{name}"),
        Err(error) => {
            eprintln!("{path}: {error}");
            std::process::exit(1);
        }
    }
}
