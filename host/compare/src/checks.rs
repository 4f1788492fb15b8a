//! One case of each operation through all sides: the reference in both builds against the model, and the proved code against
//! the model in buffers that are exactly full, one short, empty and longer, filled with a pattern and compared whole.

use crate::judge;
use crate::proved;
use crate::reference::{Outcome, RELEASE, builds};
use crate::run::Run;
use model::Why;

/// Items that a pattern is made of: no two neighbours alike.
trait Pattern: Copy + PartialEq {
    fn at(place: usize) -> Self;
}

impl Pattern for u8 {
    fn at(place: usize) -> u8 {
        (place * 37 + 0x5A) as u8
    }
}

impl Pattern for u32 {
    fn at(place: usize) -> u32 {
        (place as u32).wrapping_mul(0x9E37_79B1) ^ 0x5AC3_0F96
    }
}

impl Pattern for u64 {
    fn at(place: usize) -> u64 {
        (place as u64).wrapping_mul(0x9E37_79B9_7F4A_7C15) ^ 0x5AC3_0F96_1234_5678
    }
}

/// What a number behind a pointer holds before a call.
const NUMBER: u64 = 0xC3C3_C3C3_C3C3_C3C3;

/// An output with a margin on either side: what lies outside must stay too.
struct Lent<T> {
    all: Vec<T>,
    start: usize,
    size: usize,
}

impl<T: Pattern> Lent<T> {
    /// `turn` moves the output by some items, so that it starts at every alignment.
    fn new(size: usize, turn: u64) -> Self {
        let start = 8 + (turn % 8) as usize;
        Lent {
            all: (0..start + size + 8).map(T::at).collect(),
            start,
            size,
        }
    }

    fn part(&mut self) -> &mut [T] {
        &mut self.all[self.start..self.start + self.size]
    }

    /// Whether it is as it was made, but for these items from `from` on.
    fn holds(&self, from: usize, items: &[T]) -> bool {
        let first = self.start + from;
        self.all.iter().enumerate().all(|(place, &item)| {
            let new = place.checked_sub(first).and_then(|i| items.get(i));
            item == new.copied().unwrap_or(T::at(place))
        })
    }
}

/// The sizes to lend for a result of so many items. The longest leaves so much space that a short record is written
/// without being measured first.
fn sizes(needed: usize) -> Vec<usize> {
    let mut sizes = vec![needed, needed + 7, needed + 128];
    if needed > 0 {
        sizes.push(needed - 1);
    }
    if needed > 1 {
        sizes.push(0);
    }
    sizes
}

/// Hands the proved code an output of each size: the answer, the numbers and every item of the output must be the model's.
/// `reference_len` is the number of items that the reference's answer has, where it has one.
fn lend<T: Pattern>(
    run: &mut Run,
    want: Result<(&[T], &[u64]), &Why>,
    reference_len: Option<usize>,
    case: &dyn Fn() -> String,
    call: &dyn Fn(&mut [T], &mut [u64; 2]) -> u32,
) {
    let needed = want.map_or(3, |(items, _)| items.len());
    for size in sizes(needed) {
        let short = want.is_ok() && size < needed;
        if short {
            // The reference has no such refusal: it takes the space it needs.
            let beyond = reference_len.is_some_and(|len| len > size);
            let verdict = if beyond {
                judge::Verdict::Class("space")
            } else {
                judge::Verdict::Unknown
            };
            run.judged(verdict, case);
        }
        if !proved::HERE {
            continue;
        }
        let mut out = Lent::new(size, run.compared);
        let mut numbers = [NUMBER; 2];
        let code = call(out.part(), &mut numbers);
        let (want_code, items, given): (u32, &[T], &[u64]) = match want {
            Ok(_) if short => (Why::Space.number(), &[], &[]),
            Ok((items, given)) => (0, items, given),
            Err(why) => (why.number(), &[], &[]),
        };
        let mut want_numbers = [NUMBER; 2];
        want_numbers[..given.len()].copy_from_slice(given);
        let holds = code == want_code && numbers == want_numbers && out.holds(0, items);
        run.held(holds, || {
            format!(
                "{}, {size} lent: answer {code}, numbers {numbers:X?}, output as expected: {}; wanted {want_code}, {want_numbers:X?}",
                case(),
                out.holds(0, items)
            )
        });
    }
}

/// The length of the release build's answer, where it has one.
fn len_of<T>(seen: &Outcome<Vec<T>>) -> Option<usize> {
    match seen {
        Outcome::Gave(items) => Some(items.len()),
        _ => None,
    }
}

fn len_of_read<T>(seen: &Outcome<(Vec<T>, u64)>) -> Option<usize> {
    match seen {
        Outcome::Gave((items, _)) => Some(items.len()),
        _ => None,
    }
}

/// The start of a list, for a line about a failure.
fn shown<T: std::fmt::Debug>(items: &[T]) -> String {
    if items.len() <= 40 {
        format!("{items:X?}")
    } else {
        format!("{:X?}.. ({} items)", &items[..40], items.len())
    }
}

pub fn write_record(run: &mut Run, n: u32, ids: &[u32]) {
    let want = model::write_record(n, ids);
    let case = || format!("write record, N = {n}, ids (hex) {}", shown(ids));
    let mut len = None;
    for reference in builds() {
        let seen = reference.write_record(n, ids);
        len = len.or(len_of(&seen));
        run.judged(judge::write_record(n, ids, &want, &seen), || {
            format!(
                "{}: {:?} saw {seen:X?}, wanted {want:X?}",
                case(),
                reference.build
            )
        });
    }
    let numbers = want.as_ref().map_or([0], |bytes| [bytes.len() as u64]);
    let want = want.as_ref().map(|bytes| (&bytes[..], &numbers[..]));
    lend(run, want, len, &case, &|out, numbers| {
        proved::write_record(n, ids, out, &mut numbers[0])
    });
}

pub fn read_record(run: &mut Run, n: u32, input: &[u8]) {
    let want = model::read_record(n, input);
    let case = || format!("read record, N = {n}, bytes {}", shown(input));
    let mut len = None;
    for reference in builds() {
        let seen = reference.read_record(n, input);
        len = len.or(len_of_read(&seen));
        run.judged(
            judge::read_record(n, input, &want, &seen, reference.build),
            || {
                format!(
                    "{}: {:?} saw {seen:X?}, wanted {want:X?}",
                    case(),
                    reference.build
                )
            },
        );
    }
    let numbers = want
        .as_ref()
        .map_or([0; 2], |(ids, taken)| [ids.len() as u64, *taken]);
    let want = want.as_ref().map(|(ids, _)| (&ids[..], &numbers[..]));
    lend(run, want, len, &case, &|out, numbers| {
        let [given, taken] = numbers;
        proved::read_record(n, input, out, given, taken)
    });
}

/// The index has its own way with space: 3 comes before anything is read.
pub fn make_index(run: &mut Run, bytes: &[u8], count: u64) {
    let case = || format!("make index, count {count}, bytes {}", shown(bytes));
    // No larger output is lent: beyond that the refusal is the one for space.
    let most = 1_000_000;
    let want = if count <= most {
        model::make_index(bytes, count)
    } else {
        Err(Why::Space)
    };
    if want != Err(Why::Space) {
        for reference in builds() {
            let seen = reference.make_index(bytes, count);
            run.judged(judge::make_index(bytes, &want, &seen), || {
                format!(
                    "{}: {:?} saw {seen:X?}, wanted {want:X?}",
                    case(),
                    reference.build
                )
            });
        }
    }
    let full = count.min(most) as usize + 1;
    for size in [full, full - 1, full + 7, 0] {
        let fits = model::index_fits(count, size);
        if fits.is_err() {
            run.judged(judge::Verdict::Class("space"), case);
        }
        if !proved::HERE {
            continue;
        }
        let want = fits.and(want.as_ref().map_err(Clone::clone));
        let mut out = Lent::new(size, run.compared);
        let code = proved::make_index(bytes, count, out.part());
        let (want_code, items): (u32, &[u64]) = match &want {
            Ok(entries) => (0, entries),
            Err(why) => (why.number(), &[]),
        };
        run.held(code == want_code && out.holds(0, items), || {
            format!("{}, {size} lent: answer {code}, wanted {want:?}", case())
        });
    }
}

/// Both forms of reverse.
pub fn reverse_runs(run: &mut Run, runs: &[u64], n: u32) {
    let want = model::reverse_runs(runs, n);
    let case = || format!("reverse runs, n = {n}, runs {}", shown(runs));
    let mut len = None;
    for reference in builds() {
        let seen = reference.reverse_runs(runs, n);
        len = len.or(len_of(&seen));
        run.judged(judge::list(&want, &seen, "reverse-not-steady"), || {
            format!(
                "{}: {:?} saw {seen:X?}, wanted {want:X?}",
                case(),
                reference.build
            )
        });
        let seen = reference.reverse_runs_in_place(runs, n);
        run.judged(judge::list(&want, &seen, "reverse-not-steady"), || {
            format!(
                "{}, in place: {:?} saw {seen:X?}, wanted {want:X?}",
                case(),
                reference.build
            )
        });
    }
    // Vertex by vertex: the colours in the other order.
    if let Ok(turned) = &want
        && n <= 4096
    {
        let mut colours = model::runs::colours(runs, n);
        colours.reverse();
        run.held(colours == model::runs::colours(turned, n), case);
    }
    let numbers = [runs.len() as u64];
    lend(
        run,
        want.as_ref().map(|turned| (&turned[..], &numbers[..])),
        len,
        &case,
        &|out, numbers| proved::reverse_runs(runs, n, out, &mut numbers[0]),
    );
    if proved::HERE {
        let mut list = Lent::new(runs.len(), run.compared);
        list.part().copy_from_slice(runs);
        let mut count = NUMBER;
        let code = proved::reverse_runs_in_place(list.part(), n, &mut count);
        let holds = match &want {
            Ok(turned) => code == 0 && count == runs.len() as u64 && list.holds(0, turned),
            Err(why) => code == why.number() && count == NUMBER && list.holds(0, runs),
        };
        run.held(holds, || {
            format!(
                "{}, in place: answer {code}, count {count:X}, wanted {want:X?}",
                case()
            )
        });
    }
}

/// Up to so many runs of a piece, its append is tried in every size.
const FEW: usize = 8;

/// The sizes to lend behind the output: of a piece of few runs also each one up to the runs as sent, so that none between those and
/// the merged runs is passed over.
fn append_sizes(needed: usize, sent: usize) -> Vec<usize> {
    let mut sizes = sizes(needed);
    if sent <= FEW {
        sizes.retain(|&size| size > sent);
        sizes.extend(0..=sent);
    }
    sizes
}

/// The arguments of an append but for the space behind the output.
#[derive(Debug, Clone, Copy)]
pub struct Append<'a> {
    pub output: &'a [u64],
    pub output_count: u32,
    pub piece: &'a [u64],
    pub piece_count: u32,
    pub reverse: bool,
}

pub fn append_runs(run: &mut Run, given: Append) {
    let Append {
        output,
        output_count,
        piece,
        piece_count,
        reverse,
    } = given;
    let used = output.len();
    let want = model::append_runs(
        output,
        used as u64,
        output_count,
        piece,
        piece_count,
        reverse,
    );
    let case = || {
        format!(
            "append runs, output {} of {output_count}, piece {} of {piece_count}, reverse {reverse}",
            shown(output),
            shown(piece)
        )
    };
    let mut len = None;
    for reference in builds() {
        let seen = reference.append_runs(output, output_count, piece, piece_count, reverse);
        len = len.or(len_of(&seen));
        run.judged(judge::append_runs(output, piece, &want, &seen), || {
            format!(
                "{}: {:?} saw {seen:X?}, wanted {want:X?}",
                case(),
                reference.build
            )
        });
    }
    // Vertex by vertex: the output's colours without the last, then the oriented piece's.
    if let Ok((new, vertices)) = &want
        && *vertices <= 4096
    {
        let mut colours = model::runs::colours(output, output_count);
        colours.pop();
        let mut added = model::runs::colours(piece, piece_count);
        if reverse {
            added.reverse();
        }
        colours.extend(added);
        let all = [output, new].concat();
        run.held(
            colours == model::runs::colours(&all, *vertices as u32),
            case,
        );
    }
    let needed = want.as_ref().map_or(2, |(new, _)| new.len());
    for size in append_sizes(needed, piece.len()) {
        let short = want.is_ok() && size < needed;
        if short {
            let beyond = len.is_some_and(|len| len > used + size);
            let verdict = if beyond {
                judge::Verdict::Class("space")
            } else {
                judge::Verdict::Unknown
            };
            run.judged(verdict, case);
        }
        if !proved::HERE {
            continue;
        }
        let call = |said: u64, turn: u64| {
            let mut out = Lent::new(used + size, turn);
            out.part()[..used].copy_from_slice(output);
            let mut numbers = [NUMBER; 2];
            let [count, vertices] = &mut numbers;
            let code = proved::append_runs(
                out.part(),
                said,
                output_count,
                piece,
                piece_count,
                reverse,
                count,
                vertices,
            );
            (out, numbers, code)
        };
        let (out, numbers, code) = call(used as u64, run.compared);
        let holds = match &want {
            Ok((new, vertices)) if !short => {
                let all = [output, new].concat();
                code == 0 && numbers == [all.len() as u64, *vertices] && out.holds(0, &all)
            }
            refused => {
                let number = refused.as_ref().map_or_else(Why::number, |_| 3);
                code == number && numbers == [NUMBER; 2] && out.holds(0, output)
            }
        };
        run.held(holds, || {
            format!(
                "{}, {size} more lent: answer {code}, {numbers:X?}, wanted {want:X?}",
                case()
            )
        });
        // More runs said than lent: 3, before anything else.
        for said in [(used + size) as u64 + 1, u64::MAX] {
            let (out, numbers, code) = call(said, run.compared);
            let holds = code == 3 && numbers == [NUMBER; 2] && out.holds(0, output);
            run.held(holds, || {
                format!("{}, {said} runs said: answer {code}", case())
            });
        }
    }
}

pub fn rotate_runs(run: &mut Run, runs: &[u64], n: u32, pivot: u32, reverse: bool) {
    let want = model::rotate_runs(runs, n, pivot, reverse);
    let case = || {
        format!(
            "rotate runs, n = {n}, pivot {pivot}, reverse {reverse}, runs {}",
            shown(runs)
        )
    };
    let mut len = None;
    for reference in builds() {
        let seen = reference.rotate_runs(runs, n, pivot, reverse);
        len = len.or(len_of(&seen));
        run.judged(judge::list(&want, &seen, "rotate-not-steady"), || {
            format!(
                "{}: {:?} saw {seen:X?}, wanted {want:X?}",
                case(),
                reference.build
            )
        });
    }
    let numbers = want.as_ref().map_or([0], |turned| [turned.len() as u64]);
    lend(
        run,
        want.as_ref().map(|turned| (&turned[..], &numbers[..])),
        len,
        &case,
        &|out, numbers| proved::rotate_runs(runs, n, pivot, reverse, out, &mut numbers[0]),
    );
}

pub fn write_runs(run: &mut Run, runs: &[u64]) {
    let want = model::write_runs(runs);
    let case = || format!("write runs, {}", shown(runs));
    let mut len = None;
    for reference in builds() {
        let seen = reference.write_runs(runs);
        len = len.or(len_of(&seen));
        run.judged(judge::write_runs(&want, &seen), || {
            format!(
                "{}: {:?} saw {seen:X?}, wanted {want:X?}",
                case(),
                reference.build
            )
        });
    }
    let numbers = want.as_ref().map_or([0], |bytes| [bytes.len() as u64]);
    let want = want.as_ref().map(|bytes| (&bytes[..], &numbers[..]));
    lend(run, want, len, &case, &|out, numbers| {
        proved::write_runs(runs, out, &mut numbers[0])
    });
}

pub fn read_runs(run: &mut Run, bytes: &[u8]) {
    let want = model::read_runs(bytes);
    let case = || format!("read runs, bytes {}", shown(bytes));
    let mut len = None;
    for reference in builds() {
        let seen = reference.read_runs(bytes);
        len = len.or(len_of_read(&seen));
        run.judged(judge::read_runs(bytes, &want, &seen), || {
            format!(
                "{}: {:?} saw {seen:X?}, wanted {want:X?}",
                case(),
                reference.build
            )
        });
    }
    let numbers = want
        .as_ref()
        .map_or([0; 2], |(runs, taken)| [runs.len() as u64, *taken]);
    let want = want.as_ref().map(|(runs, _)| (&runs[..], &numbers[..]));
    lend(run, want, len, &case, &|out, numbers| {
        let [given, taken] = numbers;
        proved::read_runs(bytes, out, given, taken)
    });
}

/// A length prefix through each operation that reads one: by itself, before a record, in a file, and before runs.
pub fn prefix(run: &mut Run, bytes: &[u8]) {
    let want = model::records::read_prefix(bytes);
    for reference in builds() {
        let seen = reference.read_prefix(bytes);
        run.judged(judge::prefix(bytes, &want, &seen), || {
            format!(
                "prefix {bytes:X?}: {:?} saw {seen:X?}, wanted {want:X?}",
                reference.build
            )
        });
    }
    if let Ok((value, len)) = want {
        let written = RELEASE.write_prefix(value);
        run.held(written == Outcome::Gave(bytes[..len].to_vec()), || {
            format!("prefix of {value}: the reference writes {written:X?}")
        });
    }
    read_record(run, 8, bytes);
    make_index(run, bytes, 1);
    read_runs(run, bytes);
}
