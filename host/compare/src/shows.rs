//! What a show costs by the runs of its unitig, measured through the program `roadfinch`: the store has no C functions.

use crate::random::Random;
use crate::run::grouped;
use std::fmt::Write;
use std::fs::File;
use std::path::PathBuf;
use std::process::{Command, Stdio, exit};
use std::time::Instant;

/// Each list of commands is run so often, in turn, and the shortest time counts.
pub const ROUNDS: usize = 9;

/// How many runs each unitig of the store has. With the first the others are compared.
const RUNS: [usize; 4] = [1, 100, 1000, 10_000];

/// The vertices of each unitig.
const VERTICES: u32 = 1_000_000;

/// The sets, of one id each, and the coordinates that they get.
const SETS: [(u32, u32); 2] = [(5, 0), (7, 256)];

fn root() -> PathBuf {
    PathBuf::from(concat!(env!("CARGO_MANIFEST_DIR"), "/../.."))
}

/// Builds the program where it is missing or older than its sources, and ends where that fails.
pub fn build() {
    let status = Command::new(root().join("tools/program"))
        .arg("roadfinch")
        .status();
    if !status.is_ok_and(|it| it.success()) {
        eprintln!("the program roadfinch was not built: tools/program roadfinch");
        exit(1);
    }
}

/// Commands, and their answers.
#[derive(Clone, Default)]
struct Script {
    commands: String,
    answers: String,
}

/// Where each run of a unitig begins: evenly spaced.
fn offsets(runs: usize) -> impl Iterator<Item = u32> {
    (0..runs).map(move |i| (i as u64 * u64::from(VERTICES) / runs as u64) as u32)
}

/// The store with its unitigs, of which each is closed.
fn filed() -> Script {
    let mut script = Script {
        commands: "start 16 0 1024 16 32768 32768 1048576 16\n".into(),
        answers: "ok 0\n".into(),
    };
    let mut number = 0;
    let mut call = |command: &str, arguments: &str, answer: u32| {
        number += 1;
        let _ = writeln!(script.commands, "{command} {number} {arguments}");
        let _ = writeln!(script.answers, "ok {answer}");
    };
    for (id, coordinate) in SETS {
        call("add", &id.to_string(), coordinate);
    }
    for (place, runs) in RUNS.into_iter().enumerate() {
        let mut piece = format!("{VERTICES} forward");
        for (i, offset) in offsets(runs).enumerate() {
            let _ = write!(piece, " {offset}:{}", SETS[i % 2].1);
        }
        call("join", &piece, VERTICES);
        call("close", "line", place as u32);
    }
    script
}

/// How many shows of a unitig are run: fewer where each takes longer.
fn shows(runs: usize) -> usize {
    (50_000_000 / runs).min(200_000)
}

/// The store, and shows of random vertices of one unitig. The vertices are the same for each.
fn shown(mut script: Script, place: usize) -> Script {
    let mut random = Random::new(29);
    let offsets: Vec<u32> = offsets(RUNS[place]).collect();
    for _ in 0..shows(RUNS[place]) {
        let vertex = random.below(VERTICES.into()) as u32;
        let run = offsets.partition_point(|&offset| offset <= vertex) - 1;
        let _ = writeln!(script.commands, "show {place} {vertex}");
        let _ = writeln!(script.answers, "ok 1: {}", SETS[run % 2].0);
    }
    script
}

/// Where the commands lie while they are run.
struct Input(PathBuf);

impl Input {
    fn new(name: usize, commands: &str) -> Self {
        let file = format!("roadfinch-shows-{}-{name}", std::process::id());
        let path = std::env::temp_dir().join(file);
        std::fs::write(&path, commands).expect("commands can be written");
        Input(path)
    }

    fn program(&self) -> Command {
        let mut program = Command::new(root().join("crates/roadfinch/out/roadfinch"));
        program.stdin(File::open(&self.0).expect("commands can be read"));
        program
    }

    fn answers(&self) -> String {
        let output = self.program().output().expect("the program runs");
        String::from_utf8_lossy(&output.stdout).into_owned()
    }

    fn seconds(&self) -> f64 {
        let mut program = self.program();
        program.stdout(Stdio::null());
        let began = Instant::now();
        let status = program.status().expect("the program runs");
        assert!(status.success());
        began.elapsed().as_secs_f64()
    }
}

impl Drop for Input {
    fn drop(&mut self) {
        let _ = std::fs::remove_file(&self.0);
    }
}

/// A line for each unitig: a show, what of it is by its runs, and that by the runs.
pub fn table() -> String {
    let filed = filed();
    let mut scripts = vec![filed.clone()];
    scripts.extend((0..RUNS.len()).map(|place| shown(filed.clone(), place)));
    let mut inputs = Vec::new();
    for (name, script) in scripts.iter().enumerate() {
        let input = Input::new(name, &script.commands);
        assert!(input.answers() == script.answers, "an answer is another");
        inputs.push(input);
    }
    let mut best = vec![f64::MAX; inputs.len()];
    for _ in 0..ROUNDS {
        for (shortest, input) in best.iter_mut().zip(&inputs) {
            *shortest = shortest.min(input.seconds());
        }
    }
    let each = |place: usize| (best[place + 1] - best[0]) / shows(RUNS[place]) as f64;
    let mut text = String::from(
        "| runs | µs a show | µs by its runs | the same, ns a run |\n|---:|---:|---:|---:|\n",
    );
    for (place, runs) in RUNS.into_iter().enumerate() {
        let whole = each(place) * 1e6;
        let _ = match place {
            0 => writeln!(text, "| {runs} | {whole:.2} | - | - |"),
            _ => {
                let more = whole - each(0) * 1e6;
                let run = more * 1e3 / (runs - 1) as f64;
                let runs = grouped(runs as u64);
                writeln!(text, "| {runs} | {whole:.2} | {more:.2} | {run:.2} |")
            }
        };
    }
    text
}
