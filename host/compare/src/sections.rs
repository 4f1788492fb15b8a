//! The cases of the differential runs. Everything is made from a seed; `times` makes the random parts that much longer.

use crate::checks::{self, Append};
use crate::proved;
use crate::random::{Random, part};
use crate::run::Run;
use model::MAX_VERTICES;
use model::records::{prefix_of, record_of};
use model::runs::{coordinate, offset, pack};
use model::sets::encode_set;
use std::collections::HashMap;

pub fn all(run: &mut Run, times: u64, seed: u64) {
    run.section("all sets, N up to 14", small_sets);
    run.section("all payloads of up to 2 bytes, N up to 9", small_payloads);
    run.section("sets in each regime and at its limits", |run| {
        regimes(run, times, seed)
    });
    run.section("sets that are none", |run| wrong_sets(run, times, seed));
    run.section("damaged records", |run| damaged_records(run, times, seed));
    run.section("prefixes", prefixes);
    run.section("indexes", |run| indexes(run, times, seed));
    run.section("all short run lists", small_lists);
    run.section("all small pieces", small_pieces);
    run.section("pieces with one repeat, or one change", single_repeats);
    run.section("run lists", |run| lists(run, times, seed));
    run.section("run lists at the vertex limit", |run| {
        long_lists(run, times, seed)
    });
    run.section("run bytes", |run| run_bytes(run, times, seed));
    run.section("more runs than a list may have", too_many_runs);
}

/// The set whose ids are the ones of a number.
fn set_of(bits: u32) -> Vec<u32> {
    (0..32).filter(|id| (bits >> id) & 1 == 1).collect()
}

fn small_sets(run: &mut Run) {
    for n in 1..=14 {
        for bits in 0..1 << n {
            let ids = set_of(bits);
            checks::write_record(run, n, &ids);
            checks::read_record(run, n, &record_of(n, &ids));
        }
    }
}

fn small_payloads(run: &mut Run) {
    for n in 1..=9 {
        // Which payload is which set's, by writing them all: the model's reader is held against this too.
        let sets: HashMap<Vec<u8>, Vec<u32>> = (0..1 << n)
            .map(set_of)
            .map(|ids| (encode_set(n, &ids), ids))
            .collect();
        let mut payload = |payload: &[u8]| {
            let read = model::sets::decode_set(n, payload).ok();
            run.held(read.as_ref() == sets.get(payload), || {
                format!("N = {n}, payload {payload:X?}: the model reads {read:?}")
            });
            checks::read_record(run, n, &[&[payload.len() as u8], payload].concat());
        };
        payload(&[]);
        for first in 0..=255 {
            payload(&[first]);
            for second in 0..=255 {
                payload(&[first, second]);
            }
        }
    }
}

/// Sizes of sets in each regime of N and on both sides of each limit.
fn lens(random: &mut Random, n: u32, extra: u64) -> Vec<u32> {
    let (low, high) = (n / 4, (u64::from(n) * 3 / 4) as u32);
    let mut lens: Vec<u32> = [
        0,
        1,
        2,
        low.saturating_sub(1),
        low,
        low + 1,
        n / 2,
        high.saturating_sub(1),
        high,
        high + 1,
        n.saturating_sub(2),
        n - 1,
        n,
    ]
    .into_iter()
    .filter(|&len| len <= n)
    .collect();
    for _ in 0..extra {
        lens.push(random.below(u64::from(low) + 1) as u32);
        lens.push(low + random.below(u64::from(high - low) + 1) as u32);
        lens.push(high + random.below(u64::from(n - high) + 1) as u32);
        // A few of many, and all but a few.
        lens.push(random.below(u64::from(n.min(1000)) + 1) as u32);
        lens.push(n - random.below(u64::from(n.min(1000)) + 1) as u32);
    }
    lens.sort_unstable();
    lens.dedup();
    lens
}

fn regimes(run: &mut Run, times: u64, seed: u64) {
    let mut random = Random::new(seed ^ 1);
    let small = (1..=70).chain([100, 127, 128, 129, 255, 256, 257, 1000, 1023, 1024, 1025]);
    let middle = [4095, 4096, 4097, 16_383, 16_384, 65_535, 65_536, 65_537];
    let large = [262_143, 262_144, 1_048_573, 1_048_574, 1_048_575, 1_048_576];
    let sizes = small
        .map(|n| (n, 8))
        .chain(middle.map(|n| (n, 2)))
        .chain(large.map(|n| (n, 0)));
    for (n, extra) in sizes {
        for len in lens(&mut random, n, extra * times) {
            let ids = random.set(n, len);
            checks::write_record(run, n, &ids);
            checks::read_record(run, n, &record_of(n, &ids));
        }
    }
    for _ in 0..20 * times {
        let n = 1 + random.below(1 << 20) as u32;
        let len = random.below(u64::from(n) + 1) as u32;
        let ids = random.set(n, len);
        checks::write_record(run, n, &ids);
        checks::read_record(run, n, &record_of(n, &ids));
    }
    // The end of the range by itself.
    let n = 1_048_576;
    for ids in [&[0][..], &[n - 1], &[0, n - 1], &[n - 2, n - 1]] {
        checks::write_record(run, n, ids);
        checks::read_record(run, n, &record_of(n, ids));
    }
}

/// Colour counts outside the limits, ids out of order, twice, or not below N; alone and together.
fn wrong_sets(run: &mut Run, times: u64, seed: u64) {
    let mut random = Random::new(seed ^ 2);
    let outside = [0, 1_048_577, 1_048_580, 2_000_000, 4_000_000];
    for n in outside {
        for ids in [&[][..], &[0], &[1], &[3, 5, 9], &[5, 3], &[4, 4]] {
            checks::write_record(run, n, ids);
            checks::read_record(run, n, &record_of(8, &[0, 7]));
            checks::read_record(run, n, &record_of(1_048_577, &[3]));
            checks::read_record(run, n, &[]);
            checks::read_record(run, n, &[0x80, 0x00]);
        }
    }
    for n in [0, u32::MAX] {
        checks::write_record(run, n, &[]);
        checks::read_record(run, n, &[0x01, 0x01]);
        checks::read_record(run, n, &[0x02, 0x62, 0x01]);
    }
    checks::write_record(run, u32::MAX, &[0, 70_000, u32::MAX - 1]);
    for _ in 0..4000 * times {
        let n = 1 + random.below(100) as u32;
        let len = random.below(u64::from(n) + 1) as u32;
        let mut ids = random.set(n, len);
        for _ in 0..1 + random.below(2) {
            if ids.is_empty() {
                ids.push(n);
                continue;
            }
            let place = random.below(ids.len() as u64) as usize;
            let other = random.below(ids.len() as u64) as usize;
            match random.below(6) {
                0 => ids.swap(place, other),
                1 => ids[place] = ids[other],
                2 => ids[place] = n,
                3 => ids[place] = n + random.below(200) as u32,
                4 => ids.push(n),
                _ => ids.insert(place, random.below(u64::from(n) + 2) as u32),
            }
        }
        checks::write_record(run, n, &ids);
        if len < n / 4 {
            // Far away numbers: the reference walks up to them where the set is dense.
            let place = random.below(ids.len() as u64) as usize;
            ids[place] = random.pick(&[u32::MAX, u32::MAX - 1, 1 << 31, 1 << 20, 1 << 30]);
            checks::write_record(run, n, &ids);
        }
    }
}

/// Copies of good records with flipped bits, cut, lengthened, with other lengths, and read with other colour counts.
fn damaged_records(run: &mut Run, times: u64, seed: u64) {
    let mut random = Random::new(seed ^ 3);
    let sizes = [
        1, 2, 3, 4, 5, 7, 8, 9, 12, 16, 20, 31, 32, 33, 50, 64, 65, 100, 128, 300, 1000, 5000,
    ];
    for _ in 0..400 * times {
        let n = random.pick(&sizes);
        let len = match random.below(4) {
            0 => random.below(u64::from(n) + 1),
            1 => random.below(u64::from(n / 4) + 1),
            2 => u64::from(n) - random.below(u64::from(n / 4) + 1),
            _ => u64::from(n / 4) + random.below(u64::from(n / 2) + 1),
        };
        let ids = random.set(n, len as u32);
        let good = record_of(n, &ids);
        let bits = good.len() as u64 * 8;
        let all = bits <= 160;

        for i in 0..bits.min(160) {
            let bit = if all { i } else { random.below(bits) };
            let mut bytes = good.clone();
            bytes[(bit / 8) as usize] ^= 1 << (bit % 8);
            checks::read_record(run, n, &bytes);
            if random.below(4) == 0 {
                let more = random.below(bits);
                bytes[(more / 8) as usize] ^= 1 << (more % 8);
                checks::read_record(run, n, &bytes);
            }
        }
        for i in 0..good.len().min(24) {
            let cut = if all {
                i
            } else {
                random.below(good.len() as u64) as usize
            };
            checks::read_record(run, n, &good[..cut]);
        }
        // Later bytes are ignored; counted as payload they are damage.
        let payload = encode_set(n, &ids);
        for tail in [
            &[0][..],
            &[1],
            &[0xFF],
            &[0, 0],
            &[0, 1],
            &[0xFF; 9],
            &[0; 20],
        ] {
            checks::read_record(run, n, &[&good[..], tail].concat());
            let longer = [&payload[..], tail].concat();
            checks::read_record(run, n, &[prefix_of(longer.len() as u32), longer].concat());
        }
        // Another length over the same bytes.
        let len = payload.len() as u32;
        for other in [
            0,
            1,
            len.saturating_sub(1),
            len + 1,
            len + 8,
            len * 2,
            len + 128,
        ] {
            checks::read_record(run, n, &[&prefix_of(other)[..], &payload].concat());
            let tail = [0; 20];
            checks::read_record(run, n, &[&prefix_of(other)[..], &payload, &tail].concat());
        }
        for other in [
            1,
            n - 1,
            n + 1,
            n / 2,
            n * 2,
            n * 4,
            random.below(2000) as u32,
        ] {
            checks::read_record(run, other, &good);
        }
    }
    // Payloads of any bytes, and of many zeros: codes wider than any number.
    for _ in 0..6000 * times {
        let n = random.pick(&sizes);
        let len = random.below(30) as usize;
        let zeros = random.below(24) as usize;
        let mut payload: Vec<u8> = (0..len)
            .map(|i| if i < zeros { 0 } else { random.word() as u8 })
            .collect();
        if let Some(first) = payload.first_mut()
            && random.flip()
        {
            *first = random.pick(&[0x02, 0x62, 0x1A, 0x06, 0x82, 0x24, 0xF6]);
        }
        checks::read_record(run, n, &[&prefix_of(len as u32)[..], &payload].concat());
    }
}

/// Every row of up to five bytes out of those at a limit of a group, before a good payload or nothing; and the limits of
/// each length.
fn prefixes(run: &mut Run) {
    let bytes = [0x00, 0x01, 0x0F, 0x10, 0x7F, 0x80, 0x8F, 0xFF];
    let mut rows: Vec<Vec<u8>> = vec![Vec::new()];
    let mut last = 0;
    for _ in 0..5 {
        let until = rows.len();
        for i in last..until {
            for byte in bytes {
                let row = [&rows[i][..], &[byte]].concat();
                rows.push(row);
            }
        }
        last = until;
    }
    for row in rows {
        checks::prefix(run, &row);
        if row.len() < 5 {
            checks::prefix(run, &[&row[..], &[0x62, 0x01]].concat());
        } else {
            checks::prefix(run, &[&row[..], &[0xFF]].concat());
        }
    }
    for shift in [7, 14, 21, 28, 31, 32] {
        for value in [
            (1u64 << shift) - 2,
            (1 << shift) - 1,
            1 << shift,
            (1 << shift) + 1,
        ] {
            if let Ok(value) = u32::try_from(value) {
                checks::prefix(run, &prefix_of(value));
            }
        }
    }
    // A payload that is there: one byte less, exactly, one more, on both sides of each length's limit. 40,000 ids as a
    // bitmap make a payload of 20,004 bytes, so this meets prefixes of one, two and three bytes.
    let mut random = Random::new(4);
    for n in [1000, 1040, 131_000, 131_072, 160_000] {
        let record = record_of(n, &random.set(n, n / 2));
        checks::read_record(run, n, &record);
        checks::read_record(run, n, &record[..record.len() - 1]);
        checks::read_record(run, n, &[&record[..], &[7]].concat());
    }
}

fn indexes(run: &mut Run, times: u64, seed: u64) {
    let mut random = Random::new(seed ^ 5);
    for _ in 0..600 * times {
        let n = random.pick(&[1, 8, 64, 300, 2000]);
        let records = random.below(9);
        let mut file = Vec::new();
        for _ in 0..records {
            let len = random.below(u64::from(n) + 1) as u32;
            file.extend(record_of(n, &random.set(n, len)));
        }
        for count in 0..=records + 1 {
            checks::make_index(run, &file, count);
        }
        if file.is_empty() {
            continue;
        }
        for _ in 0..10 {
            let cut = random.below(file.len() as u64) as usize;
            let count = random.below(records + 2);
            checks::make_index(run, &file[..cut], count);
            let mut other = file.clone();
            other[cut] ^= random.pick(&[0x01, 0x80, 0x7F, 0xFF]);
            checks::make_index(run, &other, count);
        }
    }
    // Counts that no buffer has entries for.
    for count in [
        1_000_000,
        u64::from(u32::MAX),
        1 << 32,
        u64::MAX - 1,
        u64::MAX,
    ] {
        checks::make_index(run, &[0x01, 0x01], count);
    }
    // Many records, and one long one.
    let many = [0x01, 0x01].repeat(20_000);
    checks::make_index(run, &many, 20_000);
    checks::make_index(run, &many, 20_001);
    checks::make_index(run, &record_of(1 << 20, &random.set(1 << 20, 1 << 19)), 1);
}

/// Every list of up to three runs out of six offsets and two coordinates, for up to four vertices: all operations.
fn small_lists(run: &mut Run) {
    let lists = |most: u32, offsets: u32| {
        let words: Vec<u64> = (0..offsets)
            .flat_map(|o| [pack(o, 1), pack(o, 2)])
            .collect();
        let mut lists: Vec<Vec<u64>> = vec![Vec::new()];
        let mut last = 0;
        for _ in 0..most {
            let until = lists.len();
            for i in last..until {
                for &word in &words {
                    let list = [&lists[i][..], &[word]].concat();
                    lists.push(list);
                }
            }
            last = until;
        }
        lists
    };
    for list in lists(3, 6) {
        for n in 0..5 {
            checks::reverse_runs(run, &list, n);
            for pivot in 0..n + 2 {
                checks::rotate_runs(run, &list, n, pivot, false);
                checks::rotate_runs(run, &list, n, pivot, true);
            }
        }
    }
    let short = lists(2, 3);
    for output in &short {
        for piece in &short {
            for output_count in 0..4 {
                for piece_count in 0..4 {
                    append_both_ways(run, (output, output_count), (piece, piece_count));
                }
            }
        }
    }
}

/// Every sharp list of these two coordinates and up to six vertices: each vertex behind the first goes on with its run, repeats its
/// coordinate in a run of its own, or has the other one.
fn sharp_lists(one: u64, other: u64) -> Vec<(Vec<u64>, u32)> {
    let mut lists = vec![(vec![pack(0, one)], 1), (vec![pack(0, other)], 1)];
    let mut from = 0;
    for at in 1..6 {
        let to = lists.len();
        for i in from..to {
            let runs = lists[i].0.clone();
            for named in [one, other] {
                lists.push(([&runs[..], &[pack(at, named)]].concat(), at + 1));
            }
            lists.push((runs, at + 1));
        }
        from = to;
    }
    lists
}

/// A piece, appended as it is and reversed.
fn append_both_ways(
    run: &mut Run,
    (output, output_count): (&[u64], u32),
    (piece, piece_count): (&[u64], u32),
) {
    for reverse in [false, true] {
        checks::append_runs(
            run,
            Append {
                output,
                output_count,
                piece,
                piece_count,
                reverse,
            },
        );
    }
}

/// Each such list as a piece, in both directions, behind outputs of one run and of several: equal neighbours of the output's own, and
/// a run without a vertex, among them. The two coordinates differ in the worker alone, then in the record alone.
fn small_pieces(run: &mut Run) {
    for (a, b) in [(1, 2), (2, 258)] {
        let outputs: [(&[u64], u32); 6] = [
            (&[pack(0, a)], 1),
            (&[pack(0, a)], 3),
            (&[pack(0, a), pack(1, b)], 2),
            (&[pack(0, a), pack(1, a)], 2),
            (&[pack(0, b), pack(1, b), pack(2, b)], 4),
            (&[pack(0, a), pack(0, b)], 1),
        ];
        for (piece, piece_count) in sharp_lists(a, b) {
            for (output, output_count) in outputs {
                append_both_ways(run, (output, output_count), (&piece, piece_count));
            }
        }
    }
}

/// Of each number of runs, pieces in which one run alone repeats the coordinate before it, and in which one alone doesn't, at each
/// place: code that takes several runs at a time has to see it anywhere.
fn single_repeats(run: &mut Run) {
    let output = [pack(0, 1)];
    for count in 2..=40 {
        for place in 1..count {
            for repeats in [false, true] {
                let mut named = 2;
                let piece: Vec<u64> = (0..count)
                    .map(|i| {
                        if i > 0 && (i == place) != repeats {
                            named += 256;
                        }
                        pack(3 * i, named)
                    })
                    .collect();
                append_both_ways(run, (&output, 5), (&piece, 3 * count));
            }
        }
    }
}

/// The list as a piece for this output: in three of four times half of its runs repeat the coordinate before them, otherwise none
/// does; and half the time it then meets the output.
fn as_piece(random: &mut Random, mut runs: Vec<u64>, output: &[u64], reverse: bool) -> Vec<u64> {
    if random.below(4) == 0 {
        part(&mut runs);
    } else {
        random.repeat(&mut runs);
    }
    let first = if reverse {
        runs.last_mut()
    } else {
        runs.first_mut()
    };
    if let (Some(first), Some(&last), true) = (first, output.last(), random.flip()) {
        *first = pack(offset(*first), coordinate(last));
    }
    runs
}

/// A list that is sharp, steady or neither.
fn list(random: &mut Random, n: u32, most: u32) -> Vec<u64> {
    match random.below(5) {
        0 | 1 if n > 0 => random.sharp(n, most),
        2 | 3 => random.steady(n, most),
        _ => random.neither(n, most),
    }
}

fn lists(run: &mut Run, times: u64, seed: u64) {
    let mut random = Random::new(seed ^ 6);
    for _ in 0..15_000 * times {
        let n = match random.below(8) {
            0 => random.below(3) as u32,
            1 => 1000 + random.below(3000) as u32,
            _ => 1 + random.below(60) as u32,
        };
        let runs = list(&mut random, n, 12);
        checks::reverse_runs(run, &runs, n);
        let pivot = match random.below(6) {
            0 => u32::MAX - random.below(3) as u32,
            1 => n,
            _ => random.below(u64::from(n) * 2 + 1) as u32,
        };
        let reverse = random.flip();
        checks::rotate_runs(run, &runs, n, pivot, reverse);

        let piece_count = random.below(50) as u32;
        let most = random.pick(&[2, 8, 40]);
        let piece = list(&mut random, piece_count, most);
        let reverse = random.flip();
        checks::append_runs(
            run,
            Append {
                output: &runs,
                output_count: n,
                piece: &as_piece(&mut random, piece, &runs, reverse),
                piece_count,
                reverse,
            },
        );
    }
    // Long lists.
    for _ in 0..20 * times {
        let n = 20_000 + random.below(50_000) as u32;
        let runs = random.steady(n, 20_000);
        checks::reverse_runs(run, &runs, n);
        let (pivot, reverse) = (random.below(u64::from(n)) as u32, random.flip());
        checks::rotate_runs(run, &runs, n, pivot, reverse);
        let piece_count = 1 + random.below(50_000) as u32;
        let piece = random.sharp(piece_count, 20_000);
        let output = random.sharp(n, 100);
        checks::append_runs(
            run,
            Append {
                output: &output,
                output_count: n,
                piece: &as_piece(&mut random, piece, &output, reverse),
                piece_count,
                reverse,
            },
        );
    }
}

/// Vertex counts at 16,777,215, where they end, and above.
fn long_lists(run: &mut Run, times: u64, seed: u64) {
    let mut random = Random::new(seed ^ 7);
    let most = MAX_VERTICES;
    let counts = [
        most - 1,
        most,
        most + 1,
        most + 2,
        1 << 25,
        u32::MAX - 1,
        u32::MAX,
    ];
    for n in counts {
        for _ in 0..30 * times {
            let inside = n.min(most);
            let runs = list(&mut random, inside, 8);
            checks::reverse_runs(run, &runs, n);
        }
        for runs in [
            &[][..],
            &[pack(0, 5)],
            &[pack(0, 5), pack(most, 6)],
            &[pack(most, 5)],
        ] {
            checks::reverse_runs(run, runs, n);
        }
    }
    // The reference and the model fill an array over the vertices, so these are few.
    for (n, turns) in [(most, 3), (most - 1, 1), (most + 1, 1), (u32::MAX, 4)] {
        for _ in 0..turns * times {
            let runs = random.steady(n.min(most), 6);
            let pivot = random.pick(&[0, 1, most / 2, most - 1, most, most + 1, u32::MAX]);
            let reverse = random.flip();
            checks::rotate_runs(run, &runs, n, pivot, reverse);
        }
        checks::rotate_runs(run, &[], n, 0, false);
    }
    // Sums on both sides of the limit, by which the last offset stays within 24 bits or not.
    let pairs = [
        (most, 1),
        (1, most),
        (most, 2),
        (2, most),
        (most - 1, 2),
        (1 << 23, 1 << 23),
        (1 << 23, (1 << 23) + 1),
        (most, most),
        (u32::MAX, 1),
        (1, u32::MAX),
        (u32::MAX, u32::MAX),
        (0, most),
        (most, 0),
        (0, u32::MAX),
    ];
    for (output_count, piece_count) in pairs {
        for _ in 0..12 * times {
            let output = list(&mut random, output_count.min(most), 4);
            let piece = list(&mut random, piece_count.min(most), 4);
            for reverse in [false, true] {
                checks::append_runs(
                    run,
                    Append {
                        output: &output,
                        output_count,
                        piece: &as_piece(&mut random, piece.clone(), &output, reverse),
                        piece_count,
                        reverse,
                    },
                );
            }
        }
    }
}

fn run_bytes(run: &mut Run, times: u64, seed: u64) {
    let mut random = Random::new(seed ^ 8);
    let both = |run: &mut Run, runs: &[u64]| {
        checks::write_runs(run, runs);
        let mut bytes = model::write_runs(runs).expect("short enough");
        checks::read_runs(run, &bytes);
        checks::read_runs(run, &bytes[..bytes.len() - 1]);
        bytes.push(0xFF);
        checks::read_runs(run, &bytes);
    };
    for count in (0..40).chain([126, 127, 128, 129, 16_382, 16_383, 16_384, 16_385]) {
        let runs: Vec<u64> = (0..count).map(|_| random.word()).collect();
        both(run, &runs);
    }
    for count in [2_097_151, 2_097_152] {
        both(run, &vec![pack(4, 258); count]);
    }
    for _ in 0..1500 * times {
        let runs: Vec<u64> = (0..random.below(20)).map(|_| random.word()).collect();
        both(run, &runs);
        let bytes = model::write_runs(&runs).expect("short enough");
        for _ in 0..10 {
            let cut = random.below(bytes.len() as u64 + 1) as usize;
            checks::read_runs(run, &bytes[..cut]);
            let mut other = bytes.clone();
            let place = random.below(bytes.len() as u64) as usize;
            other[if random.flip() { 0 } else { place }] ^= random.word() as u8;
            checks::read_runs(run, &other);
        }
    }
}

unsafe extern "C" {
    fn mmap(
        address: *mut u8,
        length: usize,
        protection: i32,
        flags: i32,
        descriptor: i32,
        offset: i64,
    ) -> *mut u64;
    fn munmap(address: *mut u64, length: usize) -> i32;
}

/// 4,294,967,296 runs: 32 GiB of addresses, of which no page is touched, since the count alone is refused.
fn too_many_runs(run: &mut Run) {
    const COUNT: usize = 1 << 32;
    // PROT_READ; MAP_PRIVATE, MAP_ANONYMOUS and MAP_NORESERVE, as Linux has them on x86-64.
    let (read, flags) = (1, 0x02 | 0x20 | 0x4000);
    // SAFETY: a new private mapping, which is read as zeros where it is read at all, and unmapped behind the last use.
    let start = unsafe { mmap(std::ptr::null_mut(), COUNT * 8, read, flags, -1, 0) };
    if start as isize == -1 {
        println!("not run: the system gives no 32 GiB of addresses");
        return;
    }
    let runs = unsafe { std::slice::from_raw_parts(start, COUNT) };
    let want = model::write_runs(runs).map_err(|why| why.number());
    run.held(want == Err(6), || "the model writes 2^32 runs".into());
    run.held(oracle::drive::refuses_runs(runs), || {
        "the reference writes 2^32 runs".into()
    });
    if proved::HERE {
        let (mut out, mut written) = ([7; 16], 9);
        let code = proved::write_runs(runs, &mut out, &mut written);
        run.held(code == 6 && out == [7; 16] && written == 9, || {
            format!("write runs, 2^32 of them: answer {code}")
        });
    }
    unsafe { munmap(start, COUNT * 8) };
}
