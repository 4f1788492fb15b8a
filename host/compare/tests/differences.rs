//! Each section of docs/DIFFERENCES.md on its input: what the specification says, what the reference does in either build,
//! and that the proved code (where the archive takes part) answers as the specification says and alters nothing else.

use compare::checks::{self, Append};
use compare::judge::{self, CLASSES, Verdict};
use compare::reference::Outcome::{self, Failed, Gave, Panicked};
use compare::reference::{DEBUG, RELEASE, hush_panics};
use compare::run::Run;
use model::Why;
use model::runs::pack;
use std::io::ErrorKind::UnexpectedEof;

const A: u64 = 7;
const B: u64 = 8;
const C: u64 = 9;

/// All sides agree on the case but for this class.
fn only(class: &str, case: impl FnOnce(&mut Run)) {
    hush_panics();
    let mut run = Run::default();
    case(&mut run);
    assert_eq!(run.failed, 0);
    let met: Vec<_> = run
        .classes
        .keys()
        .copied()
        .filter(|&met| met != "space")
        .collect();
    let wanted: &[&str] = if class == "space" { &[] } else { &[class] };
    assert_eq!(met, wanted);
    assert!(run.classes[class] > 0);
}

/// The specification's number for reading a record, and the two builds' outcomes, which are the ids.
fn read(class: &str, n: u32, record: &[u8]) -> (u32, [Outcome<Vec<u32>>; 2]) {
    only(class, |run| checks::read_record(run, n, record));
    let ids = |outcome| match outcome {
        Gave((ids, _)) => Gave(ids),
        Failed(kind) => Failed(kind),
        Panicked => Panicked,
        Outcome::NotRun => Outcome::NotRun,
    };
    (
        number(model::read_record(n, record)),
        [&RELEASE, &DEBUG].map(|build| ids(build.read_record(n, record))),
    )
}

fn write(class: &str, n: u32, ids: &[u32]) -> (u32, [Outcome<Vec<u8>>; 2]) {
    only(class, |run| checks::write_record(run, n, ids));
    (
        number(model::write_record(n, ids)),
        [&RELEASE, &DEBUG].map(|build| build.write_record(n, ids)),
    )
}

fn reverse(class: &str, runs: &[u64], n: u32) -> (u32, [Outcome<Vec<u64>>; 2]) {
    only(class, |run| checks::reverse_runs(run, runs, n));
    let both = [&RELEASE, &DEBUG].map(|build| build.reverse_runs(runs, n));
    let in_place = [&RELEASE, &DEBUG].map(|build| build.reverse_runs_in_place(runs, n));
    assert_eq!(both, in_place);
    (number(model::reverse_runs(runs, n)), both)
}

fn rotate(class: &str, runs: &[u64], n: u32, reverse: bool) -> (u32, [Outcome<Vec<u64>>; 2]) {
    only(class, |run| checks::rotate_runs(run, runs, n, 0, reverse));
    (
        number(model::rotate_runs(runs, n, 0, reverse)),
        [&RELEASE, &DEBUG].map(|build| build.rotate_runs(runs, n, 0, reverse)),
    )
}

fn append(
    class: &str,
    (output, output_count): (&[u64], u32),
    (piece, piece_count): (&[u64], u32),
    reverse: bool,
) -> (u32, [Outcome<Vec<u64>>; 2]) {
    let case = Append {
        output,
        output_count,
        piece,
        piece_count,
        reverse,
    };
    only(class, |run| checks::append_runs(run, case));
    let used = output.len() as u64;
    let answer = model::append_runs(output, used, output_count, piece, piece_count, reverse);
    (
        number(answer),
        [&RELEASE, &DEBUG]
            .map(|build| build.append_runs(output, output_count, piece, piece_count, reverse)),
    )
}

fn number<T>(answer: Result<T, Why>) -> u32 {
    answer.map_or_else(|why| why.number(), |_| 0)
}

fn both<T: Clone>(outcome: Outcome<T>) -> [Outcome<T>; 2] {
    [outcome.clone(), outcome]
}

#[test]
fn space() {
    let record = vec![0x01, 0x01];
    assert_eq!(write("space", 1, &[]), (0, both(Gave(record))));
    assert_eq!(model::put(&[0x01, 0x01], &mut [0]), Err(Why::Space));
    only("space", |run| checks::make_index(run, &[], 0));
    assert_eq!(model::index_fits(0, 0), Err(Why::Space));
}

#[test]
fn colors_limit() {
    let (release, debug) = (Gave(vec![0x01, 0x02]), Panicked);
    assert_eq!(
        write("colors-limit", 0, &[]),
        (1, both(Gave(vec![0x01, 0x01])))
    );
    assert_eq!(write("colors-limit", 0, &[0]), (1, [release, debug]));
    let one_more = Gave(vec![0x01, 0x01]);
    assert_eq!(write("colors-limit", 1_048_577, &[]), (1, both(one_more)));
    assert_eq!(
        read("colors-limit", 0, &[0x01, 0x01]),
        (1, both(Gave(vec![])))
    );
    assert_eq!(read("colors-limit", 0, &[0x01, 0x02]), (1, both(Panicked)));
    assert_eq!(
        read("colors-limit", 1_048_577, &[0x01, 0x01]),
        (1, both(Gave(vec![])))
    );
}

#[test]
fn ids_not_ascending() {
    let class = "ids-not-ascending";
    assert_eq!(write(class, 1, &[0, 0]), (2, both(Gave(vec![0x01, 0x0A]))));
    assert_eq!(write(class, 2, &[1, 0]), (2, both(Gave(vec![0x01, 0x3A]))));
    let wrapped = Gave(vec![0x07, 0x6A, 0xC0, 0x00, 0x00, 0x00, 0x00, 0x00]);
    assert_eq!(write(class, 12, &[3, 3]), (2, [wrapped, Panicked]));
}

#[test]
fn ids_not_below_n() {
    let class = "ids-not-below-n";
    assert_eq!(
        write(class, 1, &[1]),
        (2, [Gave(vec![0x01, 0x12]), Panicked])
    );
    let other = Gave(vec![0x02, 0x42, 0x04]);
    assert_eq!(write(class, 8, &[9]), (2, [other, Panicked]));
    assert_eq!(
        write(class, 4, &[4]),
        (2, [Gave(vec![0x01, 0x02]), Panicked])
    );
    assert_eq!(write(class, 4, &[64]), (2, both(Panicked)));
    // Only the last id is asserted.
    assert_eq!(
        write(class, 8, &[9, 3]),
        (2, both(Gave(vec![0x02, 0x8A, 0x00])))
    );
}

#[test]
fn prefix_needless_group() {
    let class = "prefix-needless-group";
    let record = [0x82, 0x00, 0x62, 0x01];
    assert_eq!(read(class, 8, &record), (5, both(Gave(vec![5]))));
    only(class, |run| checks::make_index(run, &[0x80, 0x00], 1));
    assert_eq!(RELEASE.make_index(&[0x80, 0x00], 1), Gave(vec![0, 2]));
    assert_eq!(number(model::make_index(&[0x80, 0x00], 1)), 5);
    only(class, |run| checks::read_runs(run, &[0x80, 0x00]));
    assert_eq!(RELEASE.read_runs(&[0x80, 0x00]), Gave((vec![], 2)));
    assert_eq!(number(model::read_runs(&[0x80, 0x00])), 5);
}

#[test]
fn prefix_high_bits() {
    let class = "prefix-high-bits";
    let record = [0x82, 0x80, 0x80, 0x80, 0x10, 0x62, 0x01];
    assert_eq!(read(class, 8, &record), (5, both(Gave(vec![5]))));
    let zero = [0x80, 0x80, 0x80, 0x80, 0x10];
    only(class, |run| checks::make_index(run, &zero, 1));
    assert_eq!(RELEASE.make_index(&zero, 1), Gave(vec![0, 5]));
    assert_eq!(number(model::make_index(&zero, 1)), 5);
    only(class, |run| checks::read_runs(run, &zero));
    assert_eq!(RELEASE.read_runs(&zero), Gave((vec![], 5)));
    assert_eq!(number(model::read_runs(&zero)), 5);
}

#[test]
fn padding_bit() {
    assert_eq!(
        read("padding-bit", 1, &[0x01, 0x03]),
        (5, both(Gave(vec![])))
    );
}

#[test]
fn trailing_byte() {
    assert_eq!(
        read("trailing-byte", 1, &[0x02, 0x01, 0x00]),
        (5, both(Gave(vec![])))
    );
}

#[test]
fn bitmap_count() {
    assert_eq!(
        read("bitmap-count", 3, &[0x01, 0x02]),
        (5, both(Gave(vec![])))
    );
}

#[test]
fn id_not_below_n() {
    assert_eq!(
        read("id-not-below-n", 8, &[0x02, 0x42, 0x02]),
        (5, both(Gave(vec![8])))
    );
}

#[test]
fn absent_not_below_n() {
    let class = "absent-not-below-n";
    assert_eq!(read(class, 2, &[0x01, 0xA2]), (5, both(Gave(vec![0, 1]))));
    // Two absent ids, of which the second is 2^32 by its gap: 0 once the sum has wrapped.
    let mut bits = Vec::new();
    for code in [6, 1, u64::from(u32::MAX) - 1] {
        model::bits::delta(code, &mut bits);
    }
    let payload = model::bits::bytes_of(&bits);
    let record = [&[payload.len() as u8][..], &payload].concat();
    let wrapped = Gave(vec![0, 2, 3, 4, 5, 6, 7]);
    assert_eq!(read(class, 8, &record), (5, [wrapped, Panicked]));
}

#[test]
fn id_cut() {
    let record = [0x06, 0x02, 0x06, 0x02, 0x00, 0x00, 0x00];
    assert_eq!(read("id-cut", 8, &record), (5, both(Gave(vec![3]))));
}

#[test]
fn len_above_n() {
    assert_eq!(read("len-above-n", 1, &[0x01, 0x04]), (5, both(Panicked)));
    // More than can be allocated: the process ends. It is another process, so this one can see it.
    use std::os::unix::process::ExitStatusExt;
    let aborted = std::process::Command::new(env!("CARGO_BIN_EXE_diff"))
        .arg("--abort")
        .output()
        .expect("the differential program starts");
    const SIGABRT: i32 = 6;
    assert_eq!(aborted.status.signal(), Some(SIGABRT));
    assert!(aborted.stdout.is_empty());
}

#[test]
fn wide_code() {
    // delta with 64 low bits, all zero.
    let mut record = [0; 11];
    record[..2].copy_from_slice(&[0x0A, 0xC0]);
    assert_eq!(read("wide-code", 8, &record), (5, [Gave(vec![]), Panicked]));
}

#[test]
fn width_cut() {
    let record = [0x09, 0x00, 0x00, 0x00, 0x00, 0x03, 0x00, 0x00, 0x00, 0x00];
    assert_eq!(read("width-cut", 8, &record), (5, both(Gave(vec![]))));
}

#[test]
fn cut_code() {
    assert_eq!(
        read("cut-code", 1, &[0x00]),
        (5, both(Failed(UnexpectedEof)))
    );
}

#[test]
fn index_cut_payload() {
    only("index-cut-payload", |run| {
        checks::make_index(run, &[0x01], 1)
    });
    assert_eq!(RELEASE.make_index(&[0x01], 1), Gave(vec![0, 2]));
    assert_eq!(DEBUG.make_index(&[0x01], 1), Gave(vec![0, 2]));
    assert_eq!(number(model::make_index(&[0x01], 1)), 4);
    assert_eq!(RELEASE.make_index(&[0x02, 0x62], 1), Gave(vec![0, 3]));
}

#[test]
fn vertices_limit() {
    let class = "vertices-limit";
    let n = 16_777_216;
    assert_eq!(reverse(class, &[], n), (7, both(Gave(vec![]))));
    assert_eq!(rotate(class, &[], n, false), (7, both(Gave(vec![]))));
    let list = [pack(0, A), pack(1, B)];
    let turned = Gave(vec![pack(0, B), pack(16_777_215, A)]);
    assert_eq!(reverse(class, &list, n), (7, both(turned)));
    assert_eq!(
        reverse(class, &[pack(0, A), pack(0, B)], n),
        (7, both(Panicked))
    );
}

#[test]
fn reverse_not_steady() {
    let class = "reverse-not-steady";
    assert_eq!(
        reverse(class, &[pack(1, A)], 0),
        (6, both(Gave(vec![pack(0, A)])))
    );
    let descending = [pack(0, A), pack(2, B), pack(1, C)];
    let turned = Gave(vec![pack(0, C), pack(2, B), pack(1, A)]);
    assert_eq!(reverse(class, &descending, 3), (6, both(turned)));
    assert_eq!(
        reverse(class, &[pack(0, A), pack(1, B)], 0),
        (6, both(Panicked))
    );
}

#[test]
fn rotate_not_steady() {
    let class = "rotate-not-steady";
    assert_eq!(
        rotate(class, &[pack(1, A)], 0, false),
        (6, both(Gave(vec![])))
    );
    let invented = Gave(vec![pack(0, 0), pack(3, A)]);
    assert_eq!(rotate(class, &[pack(3, A)], 5, false), (6, both(invented)));
    let turned = Gave(vec![pack(0, A)]);
    assert_eq!(rotate(class, &[pack(3, A)], 5, true), (6, both(turned)));
    let descending = [pack(0, A), pack(2, B), pack(1, C)];
    assert_eq!(rotate(class, &descending, 3, false), (6, both(Panicked)));
}

#[test]
fn append_counts() {
    let class = "append-counts";
    let (a, b) = ([pack(0, A)], [pack(0, B)]);
    assert_eq!(
        append(class, (&a, 0), (&a, 1), false),
        (7, both(Gave(a.to_vec())))
    );
    assert_eq!(append(class, (&a, 0), (&b, 1), false), (7, both(Panicked)));
    let appended = Gave(vec![a[0], b[0]]);
    assert_eq!(append(class, (&a, 1), (&b, 0), false), (7, both(appended)));
    let beyond = Gave(vec![a[0], pack(16_777_214, B)]);
    assert_eq!(
        append(class, (&a, 16_777_215), (&b, 2), false),
        (7, both(beyond))
    );
}

#[test]
fn append_output() {
    let class = "append-output";
    let b = [pack(0, B)];
    assert_eq!(
        append(class, (&[], 1), (&b, 1), false),
        (6, both(Gave(b.to_vec())))
    );
    let at_end = [pack(0, A), pack(1, C)];
    let descends = Gave(vec![pack(0, A), pack(1, C), pack(0, B)]);
    assert_eq!(
        append(class, (&at_end, 1), (&b, 1), false),
        (6, both(descends))
    );
    let late = [pack(1, A)];
    let appended = Gave(vec![pack(1, A), pack(1, B)]);
    assert_eq!(
        append(class, (&late, 2), (&b, 1), false),
        (6, both(appended))
    );
}

#[test]
fn append_piece() {
    let class = "append-piece";
    let a = [pack(0, A)];
    assert_eq!(
        append(class, (&a, 1), (&[], 1), false),
        (6, both(Gave(a.to_vec())))
    );
    let late = [pack(1, B)];
    let appended = Gave(vec![pack(0, A), pack(1, B)]);
    assert_eq!(
        append(class, (&a, 1), (&late, 2), false),
        (6, both(appended))
    );
    let above = [pack(0, B), pack(2, C)];
    let appended = Gave(vec![pack(0, A), pack(0, B), pack(2, C)]);
    assert_eq!(
        append(class, (&a, 1), (&above, 1), false),
        (6, both(appended))
    );
    assert_eq!(
        append(class, (&a, 1), (&above, 1), true),
        (6, both(Panicked))
    );
}

/// What the specification puts behind the output, where it accepts.
fn appended(
    (output, output_count): (&[u64], u32),
    (piece, piece_count): (&[u64], u32),
    reverse: bool,
) -> (Vec<u64>, u64) {
    let used = output.len() as u64;
    model::append_runs(output, used, output_count, piece, piece_count, reverse).expect("accepted")
}

#[test]
fn append_merged() {
    let class = "append-merged";
    let a = [pack(0, A)];
    for reverse in [false, true] {
        // Like the output's last, and unlike it.
        let like = [pack(0, A), pack(1, A)];
        assert_eq!(
            append(class, (&a, 1), (&like, 2), reverse),
            (0, both(Gave(like.to_vec())))
        );
        assert_eq!(appended((&a, 1), (&like, 2), reverse), (vec![], 2));
        let unlike = [pack(0, B), pack(1, B)];
        assert_eq!(
            append(class, (&a, 1), (&unlike, 2), reverse),
            (0, both(Gave([&a[..], &unlike].concat())))
        );
        let first = vec![pack(0, B)];
        assert_eq!(appended((&a, 1), (&unlike, 2), reverse), (first, 2));
    }
    let piece = [pack(0, A), pack(1, A), pack(2, B), pack(3, B)];
    let kept = Gave(vec![a[0], pack(3, A), pack(4, B), pack(5, B)]);
    assert_eq!(append(class, (&a, 3), (&piece, 5), false), (0, both(kept)));
    assert_eq!(appended((&a, 3), (&piece, 5), false), (vec![pack(4, B)], 7));
    let kept = Gave(vec![a[0], pack(2, B), pack(4, B), pack(5, A), pack(6, A)]);
    assert_eq!(append(class, (&a, 3), (&piece, 5), true), (0, both(kept)));
    let merged = vec![pack(2, B), pack(5, A)];
    assert_eq!(appended((&a, 3), (&piece, 5), true), (merged, 7));
}

/// A piece without equal neighbours is no such case, even where the output has some, or an equal run that isn't its last, or where
/// neighbours have one worker.
#[test]
fn pieces_without_equal_neighbours_are_appended_alike() {
    hush_panics();
    let other = A + 256;
    type Runs<'a> = &'a [u64];
    let cases: [(Runs, Runs, u32, Runs); 5] = [
        (
            &[pack(0, A), pack(1, A)],
            &[pack(0, other), pack(1, A)],
            2,
            &[pack(1, other), pack(2, A)],
        ),
        (&[pack(0, A), pack(1, B)], &[pack(0, A)], 1, &[pack(1, A)]),
        (&[pack(0, A), pack(1, A)], &[pack(0, A)], 2, &[]),
        (
            &[pack(0, A), pack(1, A)],
            &[pack(0, B), pack(1, A)],
            2,
            &[pack(1, B), pack(2, A)],
        ),
        (
            &[pack(0, A), pack(1, B)],
            &[pack(0, B), pack(1, A), pack(2, B)],
            3,
            &[pack(2, A), pack(3, B)],
        ),
    ];
    for (output, piece, piece_count, new) in cases {
        let case = Append {
            output,
            output_count: 2,
            piece,
            piece_count,
            reverse: false,
        };
        let mut run = Run::default();
        checks::append_runs(&mut run, case);
        assert_eq!(run.failed, 0);
        assert!(run.classes.keys().all(|&met| met == "space"));
        let vertices = u64::from(piece_count) + 1;
        assert_eq!(
            appended((output, 2), (piece, piece_count), false),
            (new.to_vec(), vertices)
        );
    }
}

/// What the class doesn't cover: an answer that keeps an equal run, inside or at the junction, or has another colour; and a reference
/// that merges too, has another colour, gives no list or gives nothing.
#[test]
fn only_merging_is_merged() {
    let output = [pack(0, A)];
    let equal = [pack(0, A), pack(1, B), pack(2, B)];
    let seen = Gave([&output[..], &[pack(1, B), pack(2, B)]].concat());
    let judged = |piece: &[u64], new: &[u64], seen: &Outcome<Vec<u64>>| {
        judge::append_runs(&output, piece, &Ok((new.to_vec(), 3)), seen)
    };
    let merged = [pack(1, B)];
    assert_eq!(
        judged(&equal, &merged, &seen),
        Verdict::Class("append-merged")
    );
    for new in [
        &[pack(1, B), pack(2, B)][..],
        &[pack(0, A), pack(1, B)],
        &[pack(1, C)],
        &[pack(2, B)],
        &[],
    ] {
        assert_eq!(judged(&equal, new, &seen), Verdict::Unknown, "{new:X?}");
    }
    for other in [
        Gave([&output[..], &merged].concat()),
        Gave(vec![output[0], pack(1, B), pack(2, C)]),
        Gave(vec![output[0], pack(2, B), pack(1, B)]),
        Panicked,
        Failed(UnexpectedEof),
    ] {
        assert_eq!(
            judged(&equal, &merged, &other),
            Verdict::Unknown,
            "{other:X?}"
        );
    }
    // Of a piece without equal neighbours the runs have to be the same.
    let apart = [pack(0, A), pack(1, B)];
    assert_eq!(judged(&apart, &merged, &seen), Verdict::Unknown);
    let same = Gave([&output[..], &merged].concat());
    assert_eq!(judged(&apart, &merged, &same), Verdict::Same);
}

/// Elias's gamma code of s: as many zeros as s has bits, less one, then its bits, highest first.
fn elias_gamma(s: u64, bits: &mut Vec<bool>) {
    let b = s.ilog2();
    bits.extend((0..b).map(|_| false));
    bits.extend((0..=b).rev().map(|i| (s >> i) & 1 == 1));
}

#[test]
fn elias() {
    for v in (0..2000).chain([1 << 20, 1 << 32]) {
        let mut ours = Vec::new();
        model::bits::gamma(v, &mut ours);
        let bytes = oracle::drive::code_bytes(false, v);
        assert_eq!(model::bits::bytes_of(&ours), bytes, "gamma({v})");
        let mut elias = Vec::new();
        elias_gamma(v + 1, &mut elias);
        // Behind the first one the bits stand in the other order.
        let b = (v + 1).ilog2() as usize;
        elias[b + 1..].reverse();
        assert_eq!(ours, elias, "gamma({v})");

        let mut ours = Vec::new();
        model::bits::delta(v, &mut ours);
        let bytes = oracle::drive::code_bytes(true, v);
        assert_eq!(model::bits::bytes_of(&ours), bytes, "delta({v})");
        // Elias's delta of s: the gamma code of the number of its bits, then those below the highest.
        let mut elias = Vec::new();
        elias_gamma(b as u64 + 1, &mut elias);
        let inner = (b as u64 + 1).ilog2() as usize;
        elias[inner + 1..].reverse();
        elias.extend((0..b).map(|i| ((v + 1) >> i) & 1 == 1));
        assert_eq!(ours, elias, "delta({v})");
    }
    let mut bits = Vec::new();
    model::bits::gamma(3, &mut bits);
    model::bits::gamma(4, &mut bits);
    // 4 is 001 00 in both orders, 5 is 001 01 for Elias and 001 10 here.
    let text: String = bits
        .iter()
        .map(|&bit| if bit { '1' } else { '0' })
        .collect();
    assert_eq!(text, "0010000110");
}

#[test]
fn partial_output() {
    // Two runs announced, one there: the reference has put the one in place of what the list held.
    let bytes = [0x02, 0x04, 0x00, 0x00, 0x02, 0x01, 0x00, 0x00, 0x00];
    let left = oracle::drive::runs_left_behind(&bytes, &[pack(9, A), pack(10, B), pack(11, C)]);
    assert_eq!(left, [pack(4, 258)]);
    assert_eq!(number(model::read_runs(&bytes)), 4);
    // The proved code's output is compared whole after the refusal.
    let mut run = Run::default();
    checks::read_runs(&mut run, &bytes);
    assert_eq!(run.failed, 0);
}

#[test]
fn said_runs() {
    let a = [pack(0, A)];
    // One run said to be two, counts of 0: 3 comes first.
    assert_eq!(number(model::append_runs(&a, 2, 0, &a, 0, false)), 3);
    assert_eq!(number(model::append_runs(&a, 1, 0, &a, 0, false)), 7);
    // `checks` also calls the proved code with more runs said than lent.
    let case = Append {
        output: &a,
        output_count: 0,
        piece: &a,
        piece_count: 0,
        reverse: false,
    };
    only("append-counts", |run| checks::append_runs(run, case));
}

/// The words between back quotes in the headings of the third level.
fn sections() -> Vec<String> {
    let text = include_str!("../../../docs/DIFFERENCES.md");
    text.lines()
        .filter_map(|line| line.strip_prefix("### `"))
        .map(|rest| rest.trim_end_matches('`').to_string())
        .collect()
}

#[test]
fn every_class_has_its_section_and_test() {
    let sections = sections();
    for (class, section) in CLASSES.iter().zip(&sections) {
        assert_eq!(
            class, section,
            "the classes stand first, in the order of the list"
        );
    }
    assert!(sections.len() >= CLASSES.len());
    let tests = include_str!("differences.rs");
    for section in sections {
        let test = format!("#[test]\nfn {}()", section.replace('-', "_"));
        assert!(tests.contains(&test), "{section} has no test");
    }
}
