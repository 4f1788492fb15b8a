//! The safe functions on the specification's worked cases: answers, refusals, and that a refusal alters nothing.

use roadfinch::{Appended, Read, Refusal};

fn run(offset: u32, coordinate: u64) -> u64 {
    roadfinch::run(offset, coordinate).unwrap()
}

const A: u64 = 7;
const B: u64 = 9;

#[test]
fn records() {
    let cases: [(u32, &[u32], &[u8]); 8] = [
        (8, &[], &[0x01, 0x01]),
        (8, &[5], &[0x02, 0x62, 0x01]),
        (8, &[0, 7], &[0x02, 0x1A, 0x08]),
        (8, &[0, 1, 2, 3, 4], &[0x02, 0xF6, 0x03]),
        (8, &[0, 1, 2, 4, 5, 6], &[0x02, 0xDE, 0x18]),
        (8, &[0, 1, 2, 3, 4, 5, 6, 7], &[0x01, 0x24]),
        (1, &[0], &[0x01, 0x02]),
        // 1 is not below 7/4 = 1: a bitmap.
        (7, &[3], &[0x02, 0x82, 0x00]),
    ];
    for (n, ids, record) in cases {
        let mut out = [0xAA; 16];
        assert_eq!(roadfinch::write_record(n, ids, &mut out), Ok(record.len()));
        assert_eq!(&out[..record.len()], record, "N = {n}, {ids:?}");
        assert!(out[record.len()..].iter().all(|&byte| byte == 0xAA));
        let mut back = [99; 8];
        let read = Read {
            items: ids.len(),
            bytes: record.len(),
        };
        assert_eq!(roadfinch::read_record(n, &out, &mut back), Ok(read));
        assert_eq!(&back[..ids.len()], ids);
        assert!(back[ids.len()..].iter().all(|&id| id == 99));
    }
}

#[test]
fn record_refusals() {
    let mut out = [0xAA; 3];
    for n in [0, 1_048_577, u32::MAX] {
        assert_eq!(
            roadfinch::write_record(n, &[], &mut out),
            Err(Refusal::Colors)
        );
        assert_eq!(
            roadfinch::read_record(n, &[1, 1], &mut []),
            Err(Refusal::Colors)
        );
    }
    for ids in [&[8][..], &[3, 3], &[4, 3]] {
        assert_eq!(roadfinch::write_record(8, ids, &mut out), Err(Refusal::Ids));
    }
    assert_eq!(
        roadfinch::write_record(8, &[5], &mut out[..2]),
        Err(Refusal::Space)
    );
    assert_eq!(out, [0xAA; 3]);

    let mut ids = [99; 1];
    for cut in [&[][..], &[0x80], &[0x80, 0x80, 0x80, 0x80], &[0x02, 0x62]] {
        assert_eq!(roadfinch::read_record(8, cut, &mut ids), Err(Refusal::Cut));
    }
    for damaged in [
        &[0x80, 0x00][..],
        &[0x80; 5],
        &[0x00],
        &[0x01, 0x03],
        &[0x02, 0x01, 0x00],
    ] {
        assert_eq!(
            roadfinch::read_record(8, damaged, &mut ids),
            Err(Refusal::Damaged)
        );
    }
    let two = [0x02, 0x1A, 0x08];
    assert_eq!(
        roadfinch::read_record(8, &two, &mut ids),
        Err(Refusal::Space)
    );
    assert_eq!(ids, [99]);
}

#[test]
fn index() {
    let file = [0x02, 0x62, 0x01, 0x02, 0x1A, 0x08];
    let mut out = [5; 4];
    assert_eq!(roadfinch::make_index(&file, 2, &mut out), Ok(()));
    assert_eq!(out, [0, 3, 6, 5]);
    assert_eq!(roadfinch::make_index(&[], 0, &mut out[..1]), Ok(()));
    assert_eq!(
        roadfinch::make_index(&file, 2, &mut out[..2]),
        Err(Refusal::Space)
    );
    assert_eq!(
        roadfinch::make_index(&file, u64::MAX, &mut out),
        Err(Refusal::Space)
    );
    assert_eq!(
        roadfinch::make_index(&file[..5], 2, &mut out),
        Err(Refusal::Cut)
    );
    assert_eq!(
        roadfinch::make_index(&[0x80, 0x00], 1, &mut out),
        Err(Refusal::Damaged)
    );
    assert_eq!(out, [0, 3, 6, 5]);
}

#[test]
fn runs() {
    let list = [run(0, A), run(4, B)];
    let turned = [run(0, B), run(6, A)];
    let mut out = [1; 4];
    assert_eq!(roadfinch::reverse_runs(&list, 10, &mut out), Ok(2));
    assert_eq!(out, [turned[0], turned[1], 1, 1]);
    let mut place = list;
    assert_eq!(roadfinch::reverse_runs_in_place(&mut place, 10), Ok(2));
    assert_eq!(place, turned);
    for pivot in [4, 14] {
        let mut out = [1; 4];
        assert_eq!(
            roadfinch::rotate_runs(&list, 10, pivot, false, &mut out),
            Ok(2)
        );
        assert_eq!(out, [turned[0], turned[1], 1, 1]);
    }
    let mut out = [1; 3];
    assert_eq!(roadfinch::rotate_runs(&list, 10, 2, false, &mut out), Ok(3));
    assert_eq!(out, [run(0, A), run(2, B), run(8, A)]);
    assert_eq!(
        roadfinch::rotate_runs(&list, 10, 2, false, &mut out[..2]),
        Err(Refusal::Space)
    );
    assert_eq!(
        roadfinch::reverse_runs(&list, 16_777_216, &mut out),
        Err(Refusal::Vertices)
    );
    assert_eq!(
        roadfinch::reverse_runs(&list, 3, &mut out),
        Err(Refusal::Runs)
    );
    assert_eq!(out, [run(0, A), run(2, B), run(8, A)]);
}

#[test]
fn append() {
    let mut out = [run(0, A), 1];
    let piece = [run(0, A), run(2, B)];
    let done = Appended {
        runs: 2,
        vertices: 7,
    };
    assert_eq!(
        roadfinch::append_runs(&mut out, 1, 3, &piece, 5, false),
        Ok(done)
    );
    assert_eq!(out, [run(0, A), run(4, B)]);
    let mut out = [run(0, A), 1];
    let piece = [run(0, B), run(2, A)];
    assert_eq!(
        roadfinch::append_runs(&mut out, 1, 3, &piece, 5, true),
        Ok(done)
    );
    assert_eq!(out, [run(0, A), run(5, B)]);
    let mut out = [run(0, A), 1];
    let done = Appended {
        runs: 2,
        vertices: 2,
    };
    assert_eq!(
        roadfinch::append_runs(&mut out, 1, 1, &[run(0, B)], 2, false),
        Ok(done)
    );
    assert_eq!(out, [run(0, A), run(0, B)]);

    let mut out = [run(0, A)];
    let piece = [run(0, B)];
    let refusals = [
        (2, 0, 0, Refusal::Space),
        (1, 0, 1, Refusal::Vertices),
        (1, 1, 0, Refusal::Vertices),
        (1, 16_777_215, 2, Refusal::Vertices),
        (1, u32::MAX, u32::MAX, Refusal::Vertices),
        (0, 1, 1, Refusal::Runs),
        (1, 1, 1, Refusal::Space),
    ];
    for (used, out_count, count, why) in refusals {
        let answer = roadfinch::append_runs(&mut out, used, out_count, &piece, count, false);
        assert_eq!(
            answer,
            Err(why),
            "used {used}, counts {out_count} and {count}"
        );
    }
    assert_eq!(
        roadfinch::append_runs(&mut out, 1, 1, &[], 1, false),
        Err(Refusal::Runs)
    );
    assert_eq!(out, [run(0, A)]);
}

/// Of equal neighbours the first stays, of which the output's last run can be one.
#[test]
fn append_merges_equal_neighbours() {
    let piece = [run(0, A), run(1, A), run(2, B), run(3, B)];
    for (reverse, last, put) in [(false, A, run(4, B)), (true, B, run(5, A))] {
        let mut out = [run(0, last), 1, 1];
        let done = Appended {
            runs: 2,
            vertices: 7,
        };
        // One place is enough, none is not.
        let refused = roadfinch::append_runs(&mut out[..1], 1, 3, &piece, 5, reverse);
        assert_eq!(refused, Err(Refusal::Space));
        let accepted = roadfinch::append_runs(&mut out[..2], 1, 3, &piece, 5, reverse);
        assert_eq!(accepted, Ok(done));
        assert_eq!(out, [run(0, last), put, 1]);
    }
    // One worker doesn't make two coordinates one.
    let mut out = [run(0, A), 1, 1];
    let done = Appended {
        runs: 3,
        vertices: 2,
    };
    let others = [run(0, A + 256), run(1, A)];
    let accepted = roadfinch::append_runs(&mut out, 1, 1, &others, 2, false);
    assert_eq!(accepted, Ok(done));
    assert_eq!(out, [run(0, A), run(0, A + 256), run(1, A)]);
    // The output's own runs stay as they are.
    let mut out = [run(0, A), run(1, A), 1];
    let accepted = roadfinch::append_runs(&mut out, 2, 2, &[run(0, B)], 1, false);
    assert_eq!(accepted, Ok(done));
    assert_eq!(out, [run(0, A), run(1, A), run(1, B)]);
}

#[test]
fn run_bytes() {
    let list = [run(4, 258)];
    let bytes = [1, 0x04, 0, 0, 0x02, 0x01, 0, 0, 0];
    let mut out = [0xAA; 10];
    assert_eq!(roadfinch::write_runs(&list, &mut out), Ok(9));
    assert_eq!(out[..9], bytes);
    assert_eq!(out[9], 0xAA);
    assert_eq!(
        roadfinch::write_runs(&list, &mut out[..8]),
        Err(Refusal::Space)
    );
    let mut back = [1; 2];
    let read = Read { items: 1, bytes: 9 };
    assert_eq!(roadfinch::read_runs(&out, &mut back), Ok(read));
    assert_eq!(back, [list[0], 1]);
    assert_eq!(
        roadfinch::read_runs(&out[..8], &mut back),
        Err(Refusal::Cut)
    );
    assert_eq!(
        roadfinch::read_runs(&[0x81, 0x00], &mut back),
        Err(Refusal::Damaged)
    );
    assert_eq!(roadfinch::read_runs(&out, &mut []), Err(Refusal::Space));
}

#[test]
fn refusals_have_their_numbers_and_texts() {
    for none in [0, 12, 17, u32::MAX] {
        assert_eq!(Refusal::from_number(none), None);
    }
    let numbers = Refusal::ALL.map(Refusal::number);
    assert_eq!(numbers, [1, 2, 3, 4, 5, 6, 7, 8, 9, 10, 11, 13, 14, 15, 16]);
    for refusal in Refusal::ALL {
        assert_eq!(Refusal::from_number(refusal.number()), Some(refusal));
        assert!(!refusal.text().is_empty());
    }
    assert_eq!(
        Refusal::Cut.to_string(),
        "the input ends too early (refusal 4)"
    );
}

#[test]
fn parts_of_a_run() {
    assert_eq!(roadfinch::run(1 << 24, 0), None);
    assert_eq!(roadfinch::run(0, 1 << 40), None);
    let word = run(0xff_ffff, (1 << 40) - 1);
    assert_eq!(word, u64::MAX);
    assert_eq!(roadfinch::offset(run(4, 258)), 4);
    assert_eq!(roadfinch::coordinate(run(4, 258)), 258);
}
