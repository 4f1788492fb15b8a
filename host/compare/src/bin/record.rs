//! Makes what the program `cases` reads anew: `record` writes crates/cases/data/answers, crates/cases/data/files and
//! crates/cases/stdout, `record --check` only says whether they are as it would write them, and exits with 1 where they are not.

use compare::files::files;
use compare::recorded::sample;
use compare::reference::hush_panics;
use std::path::Path;

fn main() {
    let arguments: Vec<String> = std::env::args().skip(1).collect();
    let check = match arguments.iter().map(String::as_str).collect::<Vec<_>>()[..] {
        [] => false,
        ["--check"] => true,
        _ => {
            eprintln!("usage: record [--check]");
            std::process::exit(2);
        }
    };
    hush_panics();
    let recorded = sample();
    let folder = Path::new(env!("CARGO_MANIFEST_DIR")).join("../../crates/cases");
    let files = files();
    let told = format!(
        "{} recorded answers, 0 differ\n{}",
        recorded.lines, files.told
    );
    let mut same = true;
    for (name, text) in [
        ("data/answers", &recorded.text),
        ("data/files", &files.text),
        ("stdout", &told),
    ] {
        let path = folder.join(name);
        if check {
            same &= std::fs::read_to_string(&path).is_ok_and(|found| found == *text);
        } else if let Err(error) = std::fs::write(&path, text) {
            eprintln!("{}: {error}", path.display());
            std::process::exit(1);
        }
    }
    println!(
        "record: {} lines, {} bytes",
        recorded.lines + files.text.lines().count() as u64,
        recorded.text.len() + files.text.len()
    );
    if !same {
        println!("record: the files in crates/cases are not these; run `record` without --check");
        std::process::exit(1);
    }
}
