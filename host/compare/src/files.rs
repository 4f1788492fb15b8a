//! Record files that the reference wrote, as the lines that the program `cases` compares two by two. crates/cases/data/README.md
//! describes the format.

use crate::judge::{self, Verdict};
use crate::random::Random;
use crate::recorded::{MOST, line_of};
use crate::reference::{Outcome, RELEASE};

/// The lines, and what the program has to print of them.
pub struct Files {
    pub text: String,
    pub told: String,
}

/// A list of sets of `n` colours, and its record file.
struct File {
    n: u32,
    sets: Vec<Vec<u32>>,
    bytes: Vec<u8>,
}

impl File {
    fn of(n: u32, sets: &[Vec<u32>]) -> Self {
        File {
            n,
            sets: sets.to_vec(),
            bytes: sets.iter().flat_map(|ids| record(n, ids)).collect(),
        }
    }

    fn line(&self) -> String {
        let mut numbers = vec![u64::from(self.n), self.sets.len() as u64];
        numbers.push(self.bytes.len() as u64);
        numbers.extend(self.bytes.iter().map(|&byte| u64::from(byte)));
        for ids in &self.sets {
            numbers.push(ids.len() as u64);
            numbers.extend(ids.iter().map(|&id| u64::from(id)));
        }
        assert!(numbers.len() <= MOST && self.bytes.len() <= MOST);
        line_of(&numbers)
    }
}

/// A record as the reference writes it.
fn record(n: u32, ids: &[u32]) -> Vec<u8> {
    let seen = RELEASE.write_record(n, ids);
    let verdict = judge::write_record(n, ids, &model::write_record(n, ids), &seen);
    assert_ne!(verdict, Verdict::Unknown);
    match seen {
        Outcome::Gave(bytes) => bytes,
        _ => unreachable!("judged"),
    }
}

/// Files of so many colours: each beginning of a list; the list with another set at each place, ending there; the list turned
/// around; and empty sets alone.
fn of_count(n: u32, random: &mut Random) -> Vec<File> {
    let first = vec![if n == 2 { 1 } else { 0 }];
    let some = random.set(n, n / 5 + 1);
    let half = random.set(n, n.div_ceil(2));
    let all: Vec<u32> = (0..n).collect();
    let list = [first.clone(), vec![], some, first, half, all];
    let mut files: Vec<File> = (0..=list.len()).map(|k| File::of(n, &list[..k])).collect();
    for (k, set) in list.iter().enumerate() {
        let other = match set.len() {
            0 => vec![0],
            _ => set[1..].to_vec(),
        };
        files.push(File::of(n, &[&list[..k], &[other]].concat()));
    }
    let turned: Vec<Vec<u32>> = list.iter().rev().cloned().collect();
    files.push(File::of(n, &turned));
    files.push(File::of(n, &[vec![], vec![]]));
    files
}

/// All files. They have no seed: making them anew gives the same.
pub fn files() -> Files {
    let mut random = Random::new(16);
    let files: Vec<File> = [1, 2, 3, 8, 64, 300]
        .iter()
        .flat_map(|&n| of_count(n, &mut random))
        .collect();
    let (mut pairs, mut beginnings, mut other_sets) = (0, 0, 0);
    for a in &files {
        for b in &files {
            if a.n == b.n {
                let begins = b.sets.starts_with(&a.sets);
                assert_eq!(begins, b.bytes.starts_with(&a.bytes));
                pairs += 1;
                beginnings += u32::from(begins);
            } else {
                other_sets += u32::from(a.bytes == b.bytes && a.sets != b.sets);
            }
        }
    }
    Files {
        text: files.iter().map(File::line).collect(),
        told: format!(
            "{} record files, 0 misread\n\
             {pairs} pairs of one colour count: {beginnings} where the one is the beginning of the other in bytes and in sets, 0 in one of them alone\n\
             {other_sets} pairs of two colour counts with equal bytes and other sets\n",
            files.len()
        ),
    }
}
