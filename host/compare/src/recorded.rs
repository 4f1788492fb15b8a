//! A sample of the reference's answers, as the lines that the program `cases` replays. crates/cases/data/README.md describes
//! the format. Of an append whose piece has equal neighbours, which the reference keeps, the answer is the specification's.

use crate::judge::{self, Verdict};
use crate::random::Random;
use crate::reference::{Outcome, RELEASE};
use model::records::record_of;
use model::runs::pack;
use model::{MAX_VERTICES, Why};

/// No list of a line is longer, and no output lent: the program's buffers have this many places.
pub const MOST: usize = 2048;

/// No more bytes are recorded: the program reads them into one buffer.
const BYTES: usize = 262_144;

/// The lines, and how many there are.
pub struct Recorded {
    pub text: String,
    pub lines: u64,
}

/// One call with its answer.
struct Line<'a> {
    operation: u8,
    numbers: [u64; 4],
    space: usize,
    /// The refusal's number, or the numbers that come with success.
    answer: Result<[u64; 2], u32>,
    input: &'a [u64],
    output: &'a [u64],
}

impl Recorded {
    fn line(&mut self, line: Line) {
        assert!(line.input.len().max(line.output.len()).max(line.space) <= MOST);
        let (code, given) = match line.answer {
            Ok(given) => (0, given),
            Err(code) => (code, [0; 2]),
        };
        let mut numbers = vec![u64::from(line.operation)];
        numbers.extend(line.numbers);
        numbers.extend([line.space as u64, u64::from(code)]);
        numbers.extend(given);
        for list in [line.input, line.output] {
            numbers.push(list.len() as u64);
            numbers.extend(list);
        }
        self.text += &line_of(&numbers);
        self.lines += 1;
    }

    /// An operation that writes its items to the front of an output: with the space it needs, and with one place less.
    /// The items are the reference's.
    fn lent(
        &mut self,
        operation: u8,
        numbers: [u64; 4],
        input: &[u64],
        answer: Result<(Vec<u64>, [u64; 2]), Why>,
        short: bool,
    ) {
        let (output, answer) = match answer {
            Ok((output, given)) => (output, Ok(given)),
            Err(why) => (Vec::new(), Err(why.number())),
        };
        let space = if answer.is_ok() { output.len() } else { 5 };
        self.line(Line {
            operation,
            numbers,
            space,
            answer,
            input,
            output: &output,
        });
        if short && answer.is_ok() && space > 0 {
            self.line(Line {
                operation,
                numbers,
                space: space - 1,
                answer: Err(Why::Space.number()),
                input,
                output: &[],
            });
        }
    }

    fn write_record(&mut self, n: u32, ids: &[u32], short: bool) {
        let want = model::write_record(n, ids);
        let seen = RELEASE.write_record(n, ids);
        known(judge::write_record(n, ids, &want, &seen));
        let answer = recorded(want, seen).map(|bytes| (wide(&bytes), [bytes.len() as u64, 0]));
        self.lent(1, [u64::from(n), 0, 0, 0], &wide(ids), answer, short);
    }

    fn read_record(&mut self, n: u32, input: &[u8], short: bool) {
        let want = model::read_record(n, input);
        let seen = RELEASE.read_record(n, input);
        known(judge::read_record(n, input, &want, &seen, RELEASE.build));
        let answer =
            recorded(want, seen).map(|(ids, taken)| (wide(&ids), [ids.len() as u64, taken]));
        self.lent(2, [u64::from(n), 0, 0, 0], &wide(input), answer, short);
    }

    /// A set and back.
    fn both_ways(&mut self, n: u32, ids: &[u32], short: bool) {
        self.write_record(n, ids, short);
        self.read_record(n, &record_of(n, ids), short);
    }

    fn make_index(&mut self, bytes: &[u8], count: u64) {
        let want = model::make_index(bytes, count);
        let seen = RELEASE.make_index(bytes, count);
        known(judge::make_index(bytes, &want, &seen));
        let mut line = Line {
            operation: 3,
            numbers: [count, 0, 0, 0],
            space: count as usize + 1,
            answer: Ok([0; 2]),
            input: &wide(bytes),
            output: &[],
        };
        let entries = recorded(want, seen);
        match &entries {
            Ok(entries) => line.output = entries,
            Err(why) => line.answer = Err(why.number()),
        }
        self.line(line);
        // 3 comes before anything is read.
        self.line(Line {
            operation: 3,
            numbers: [count, 0, 0, 0],
            space: count as usize,
            answer: Err(Why::Space.number()),
            input: &wide(bytes),
            output: &[],
        });
    }

    fn reverse_runs(&mut self, runs: &[u64], n: u32, short: bool) {
        let numbers = [u64::from(n), 0, 0, 0];
        let want = model::reverse_runs(runs, n);
        let seen = RELEASE.reverse_runs(runs, n);
        known(judge::list(&want, &seen, "reverse-not-steady"));
        let answer = recorded(want.clone(), seen).map(|turned| (turned, [runs.len() as u64, 0]));
        self.lent(4, numbers, runs, answer, short);
        // In place, the list is the output.
        let seen = RELEASE.reverse_runs_in_place(runs, n);
        known(judge::list(&want, &seen, "reverse-not-steady"));
        let mut line = Line {
            operation: 5,
            numbers,
            space: runs.len(),
            answer: Ok([runs.len() as u64, 0]),
            input: runs,
            output: runs,
        };
        let turned = recorded(want, seen);
        match &turned {
            Ok(turned) => line.output = turned,
            Err(why) => line.answer = Err(why.number()),
        }
        self.line(line);
    }

    fn append_runs(
        &mut self,
        (output, output_count): (&[u64], u32),
        (piece, piece_count): (&[u64], u32),
        reverse: bool,
        short: bool,
    ) {
        let used = output.len() as u64;
        let want = model::append_runs(output, used, output_count, piece, piece_count, reverse);
        let seen = RELEASE.append_runs(output, output_count, piece, piece_count, reverse);
        let verdict = judge::append_runs(output, piece, &want, &seen);
        known(verdict);
        let vertices = want.as_ref().map_or(0, |(_, vertices)| *vertices);
        let want = want.map(|(new, _)| [output, &new].concat());
        let all = match verdict {
            // The reference keeps the piece's equal neighbours.
            Verdict::Class("append-merged") => want,
            _ => recorded(want, seen),
        };
        let numbers = [
            u64::from(output_count),
            u64::from(piece_count),
            u64::from(reverse),
            used,
        ];
        let input = [output, piece].concat();
        let mut line = Line {
            operation: 6,
            numbers,
            space: output.len() + 2,
            answer: Err(0),
            input: &input,
            output,
        };
        match &all {
            Ok(all) => {
                line.space = all.len();
                line.answer = Ok([all.len() as u64, vertices]);
                line.output = all;
            }
            Err(why) => line.answer = Err(why.number()),
        }
        let needed = line.space;
        self.line(line);
        if short && all.is_ok() && needed > output.len() {
            self.line(Line {
                operation: 6,
                numbers,
                space: needed - 1,
                answer: Err(Why::Space.number()),
                input: &input,
                output,
            });
        }
    }

    fn rotate_runs(&mut self, runs: &[u64], n: u32, pivot: u32, reverse: bool, short: bool) {
        let want = model::rotate_runs(runs, n, pivot, reverse);
        let seen = RELEASE.rotate_runs(runs, n, pivot, reverse);
        known(judge::list(&want, &seen, "rotate-not-steady"));
        let answer = recorded(want, seen).map(|turned| {
            let count = turned.len() as u64;
            (turned, [count, 0])
        });
        let numbers = [u64::from(n), u64::from(pivot), u64::from(reverse), 0];
        self.lent(7, numbers, runs, answer, short);
    }

    fn write_runs(&mut self, runs: &[u64], short: bool) {
        let want = model::write_runs(runs);
        let seen = RELEASE.write_runs(runs);
        known(judge::write_runs(&want, &seen));
        let answer = recorded(want, seen).map(|bytes| (wide(&bytes), [bytes.len() as u64, 0]));
        self.lent(8, [0; 4], runs, answer, short);
    }

    fn read_runs(&mut self, bytes: &[u8], short: bool) {
        let want = model::read_runs(bytes);
        let seen = RELEASE.read_runs(bytes);
        known(judge::read_runs(bytes, &want, &seen));
        let answer = recorded(want, seen).map(|(runs, taken)| {
            let given = runs.len() as u64;
            (runs, [given, taken])
        });
        self.lent(9, [0; 4], &wide(bytes), answer, short);
    }
}

/// Numbers in hexadecimal, one blank between them.
pub fn line_of(numbers: &[u64]) -> String {
    let words: Vec<String> = numbers.iter().map(|number| format!("{number:X}")).collect();
    words.join(" ") + "\n"
}

fn wide<T: Copy + Into<u64>>(items: &[T]) -> Vec<u64> {
    items.iter().map(|&item| item.into()).collect()
}

/// Nothing is recorded that the differential runs would not accept.
fn known(verdict: Verdict) {
    assert_ne!(verdict, Verdict::Unknown);
}

/// The reference's answer where the specification has one too, otherwise the specification's refusal.
fn recorded<T>(want: Result<T, Why>, seen: Outcome<T>) -> Result<T, Why> {
    match (want, seen) {
        (Ok(_), Outcome::Gave(answer)) => Ok(answer),
        (Ok(_), _) => unreachable!("judged"),
        (Err(why), _) => Err(why),
    }
}

/// The whole sample. It has no seed: making it anew gives the same lines.
pub fn sample() -> Recorded {
    let mut record = Recorded {
        text: String::new(),
        lines: 0,
    };
    worked_cases(&mut record);
    sets(&mut record);
    damage(&mut record);
    indexes(&mut record);
    lists(&mut record);
    run_bytes(&mut record);
    assert!(record.text.len() <= BYTES);
    record
}

/// The specification's bench cases of records and runs.
fn worked_cases(record: &mut Recorded) {
    for ids in [
        &[][..],
        &[5],
        &[0, 7],
        &[0, 1, 2, 3, 4],
        &[0, 1, 2, 4, 5, 6],
        &[0, 1, 2, 3, 4, 5, 6, 7],
    ] {
        record.both_ways(8, ids, true);
    }
    record.both_ways(1, &[0], true);
    record.both_ways(7, &[3], true);
    for n in [0, 1_048_577] {
        record.write_record(n, &[], false);
        record.read_record(n, &[0x01, 0x01], false);
    }
    let (a, b) = (2, 258);
    record.write_runs(&[pack(4, 258)], true);
    let list = [pack(0, a), pack(4, b)];
    record.reverse_runs(&list, 10, true);
    for pivot in [4, 14, 2] {
        record.rotate_runs(&list, 10, pivot, false, true);
    }
    let one = [pack(0, a)];
    record.append_runs((&one, 3), (&[pack(0, a), pack(2, b)], 5), false, true);
    record.append_runs((&one, 3), (&[pack(0, b), pack(2, a)], 5), true, true);
    record.append_runs((&one, 1), (&[pack(0, b)], 2), false, true);
    record.make_index(&[0x02, 0x62, 0x01, 0x02, 0x1A, 0x08], 2);
}

fn sets(record: &mut Recorded) {
    let mut random = Random::new(11);
    for n in 1..=6 {
        for bits in 0u32..1 << n {
            let ids: Vec<u32> = (0..n).filter(|id| (bits >> id) & 1 == 1).collect();
            record.both_ways(n, &ids, bits % 4 == 3);
        }
    }
    for n in [7, 8, 15, 16, 17, 31, 32, 33, 63, 64, 65, 100, 128, 256] {
        let (low, high) = (n / 4, n * 3 / 4);
        for len in [
            1,
            low - 1,
            low,
            low + 1,
            n / 2,
            high - 1,
            high,
            high + 1,
            n - 1,
            n,
        ] {
            if len <= n {
                let ids = random.set(n, len);
                record.both_ways(n, &ids, n < 20);
            }
        }
    }
    // The three regimes at larger N.
    for (n, len) in [
        (1000, 200),
        (1000, 500),
        (1000, 990),
        (2000, 1000),
        (65_536, 60),
        (1_048_576, 100),
    ] {
        let ids = random.set(n, len);
        record.both_ways(n, &ids, false);
    }
    record.both_ways(1_048_576, &[0, 1_048_575], true);
    record.both_ways(
        2040,
        &(0..2040).filter(|id| id % 400 != 7).collect::<Vec<_>>(),
        false,
    );
    for ids in [&[8][..], &[3, 3], &[4, 3], &[0, 1, 8], &[u32::MAX]] {
        record.write_record(8, ids, false);
    }
    // 1 before 2.
    record.write_record(0, &[3, 3], false);
}

fn damage(record: &mut Recorded) {
    let mut random = Random::new(12);
    let prefixes: [&[u8]; 14] = [
        &[],
        &[0x80],
        &[0x80, 0x80, 0x80, 0x80],
        &[0x80, 0x80, 0x80, 0x80, 0x80],
        &[0x80, 0x00],
        &[0x82, 0x00, 0x62, 0x01],
        &[0x80, 0x80, 0x80, 0x80, 0x00],
        &[0xFF, 0xFF, 0xFF, 0xFF, 0x0F],
        &[0xFF, 0xFF, 0xFF, 0xFF, 0x10],
        &[0x82, 0x80, 0x80, 0x80, 0x10, 0x62, 0x01],
        &[0x00],
        &[0x02, 0x62],
        &[0x7F],
        &[0xFF, 0x7F],
    ];
    for bytes in prefixes {
        record.read_record(8, bytes, false);
        record.make_index(bytes, 1);
        record.read_runs(bytes, false);
    }
    let payloads: [(u32, &[u8]); 10] = [
        (8, &[0x03]),
        (8, &[0x01, 0x00]),
        (8, &[0x42, 0x02]),
        (3, &[0x02]),
        (2, &[0xA2]),
        (1, &[0x04]),
        (8, &[0x00, 0x00, 0x00, 0x00, 0x03, 0x00, 0x00, 0x00, 0x00]),
        (8, &[0x02, 0x06, 0x02, 0x00, 0x00, 0x00]),
        (8, &[0x00; 8]),
        (8, &[0x00]),
    ];
    for (n, payload) in payloads {
        record.read_record(n, &[&[payload.len() as u8], payload].concat(), false);
    }
    for n in [1, 3, 8, 20, 64] {
        for _ in 0..4 {
            let len = random.below(u64::from(n) + 1) as u32;
            let good = record_of(n, &random.set(n, len));
            for _ in 0..12 {
                let bit = random.below(good.len() as u64 * 8);
                let mut bytes = good.clone();
                bytes[(bit / 8) as usize] ^= 1 << (bit % 8);
                record.read_record(n, &bytes, false);
            }
            for _ in 0..2 {
                let cut = random.below(good.len() as u64) as usize;
                record.read_record(n, &good[..cut], false);
            }
            record.read_record(n + 1, &good, false);
            record.read_record(n, &[&good[..], &[0xFF, 0x00]].concat(), true);
        }
    }
}

fn indexes(record: &mut Recorded) {
    let mut random = Random::new(13);
    record.make_index(&[], 0);
    record.make_index(&[], 1);
    record.make_index(&[0x01, 0xFF], 1);
    record.make_index(&[0x02, 0x62], 1);
    for _ in 0..12 {
        let records = 1 + random.below(6);
        let mut file = Vec::new();
        for _ in 0..records {
            let len = random.below(65) as u32;
            file.extend(record_of(64, &random.set(64, len)));
        }
        for count in [0, 1, records, records + 1] {
            record.make_index(&file, count);
        }
        let cut = random.below(file.len() as u64) as usize;
        record.make_index(&file[..cut], records);
    }
}

fn lists(record: &mut Recorded) {
    let mut random = Random::new(14);
    for turn in 0..150 {
        let n = random.below(30) as u32;
        let runs = match turn % 3 {
            0 if n > 0 => random.sharp(n, 8),
            0 | 1 => random.steady(n, 8),
            _ => random.neither(n, 4),
        };
        let short = turn % 5 == 0;
        record.reverse_runs(&runs, n, short);
        let (pivot, reverse) = (random.below(60) as u32, random.flip());
        record.rotate_runs(&runs, n, pivot, reverse, short);
        let piece_count = 1 + random.below(20) as u32;
        let piece = random.sharp(piece_count, 6);
        let reverse = random.flip();
        record.append_runs((&runs, n), (&piece, piece_count), reverse, short);
    }
    let most = MAX_VERTICES;
    let list = [pack(0, 5), pack(1, 6), pack(most - 1, 7)];
    for n in [most - 1, most, most + 1, u32::MAX] {
        record.reverse_runs(&list, n, true);
    }
    for pivot in [0, 1, most - 1, u32::MAX] {
        record.rotate_runs(&list, most, pivot, pivot % 2 == 1, true);
    }
    record.rotate_runs(&list, most + 1, 1, false, true);
    for (output_count, piece_count) in [
        (most, 1),
        (1, most),
        (most, 2),
        (most - 1, 2),
        (0, 1),
        (1, 0),
    ] {
        for reverse in [false, true] {
            let one = [pack(0, 5)];
            record.append_runs(
                (&one, output_count),
                (&[pack(0, 6)], piece_count),
                reverse,
                true,
            );
        }
    }
    let long: Vec<u64> = (0..200).map(|i| pack(i * 3, u64::from(i) * 71)).collect();
    record.reverse_runs(&long, 600, false);
    record.rotate_runs(&long, 600, 250, true, true);
}

fn run_bytes(record: &mut Recorded) {
    let mut random = Random::new(15);
    for count in [0, 1, 2, 3, 5, 8, 127, 128] {
        let runs: Vec<u64> = (0..count).map(|_| random.word()).collect();
        record.write_runs(&runs, count < 100);
        let bytes = model::write_runs(&runs).expect("short");
        record.read_runs(&bytes, count < 100);
        record.read_runs(&bytes[..bytes.len() - 1], false);
        record.read_runs(&[&bytes[..], &[0x01]].concat(), false);
    }
}
