//! The count of a differential run: comparisons, differences by class, failures.

use crate::judge::Verdict;
use std::collections::BTreeMap;
use std::io::{IsTerminal, Write};
use std::time::{Duration, Instant};

/// How many failures are printed in full.
const SHOWN: u64 = 20;

pub struct Run {
    pub compared: u64,
    pub failed: u64,
    pub classes: BTreeMap<&'static str, u64>,
    section: &'static str,
    started: Instant,
    shown: Instant,
    terminal: bool,
}

impl Default for Run {
    fn default() -> Self {
        let now = Instant::now();
        Run {
            compared: 0,
            failed: 0,
            classes: BTreeMap::new(),
            section: "",
            started: now,
            shown: now,
            terminal: std::io::stderr().is_terminal(),
        }
    }
}

impl Run {
    pub fn seconds(&self) -> f64 {
        self.started.elapsed().as_secs_f64()
    }

    /// A part of the run, with its own line.
    pub fn section(&mut self, name: &'static str, part: impl FnOnce(&mut Run)) {
        self.section = name;
        let (compared, failed, began) = (self.compared, self.failed, Instant::now());
        part(self);
        self.clear_progress();
        println!(
            "{name}: {} comparisons, {} failed, {:.1} s",
            grouped(self.compared - compared),
            self.failed - failed,
            began.elapsed().as_secs_f64()
        );
    }

    /// The reference's outcome was judged.
    pub fn judged(&mut self, verdict: Verdict, case: impl FnOnce() -> String) {
        if let Verdict::Class(class) = verdict {
            *self.classes.entry(class).or_default() += 1;
        }
        self.held(verdict != Verdict::Unknown, case);
    }

    /// Something that must hold was tried.
    pub fn held(&mut self, holds: bool, case: impl FnOnce() -> String) {
        self.compared += 1;
        if !holds {
            self.failed += 1;
            if self.failed <= SHOWN {
                self.clear_progress();
                println!("FAILED in {}: {}", self.section, case());
            }
        }
        if self.compared.is_multiple_of(1024) {
            self.show_progress();
        }
    }

    fn show_progress(&mut self) {
        if self.terminal && self.shown.elapsed() > Duration::from_millis(500) {
            self.shown = Instant::now();
            eprint!(
                "\r{}: {} comparisons so far ",
                self.section,
                grouped(self.compared)
            );
            let _ = std::io::stderr().flush();
        }
    }

    fn clear_progress(&self) {
        if self.terminal {
            eprint!("\r\x1b[K");
        }
    }
}

/// A number with commas between its thousands.
pub fn grouped(number: u64) -> String {
    let digits = number.to_string();
    let mut text = String::new();
    for (i, digit) in digits.chars().enumerate() {
        if i > 0 && (digits.len() - i).is_multiple_of(3) {
            text.push(',');
        }
        text.push(digit);
    }
    text
}
