//! The specification's own worked cases, by the model: what judges the others has to be right first.

use model::Why;
use model::runs::pack;

const A: u64 = 2;
const B: u64 = 258;

#[test]
fn records() {
    let cases: [(u32, &[u32], &[u8]); 8] = [
        (8, &[], &[0x01, 0x01]),
        (8, &[5], &[0x02, 0x62, 0x01]),
        (8, &[0, 7], &[0x02, 0x1A, 0x08]),
        (8, &[0, 1, 2, 3, 4], &[0x02, 0xF6, 0x03]),
        (8, &[0, 1, 2, 4, 5, 6], &[0x02, 0xDE, 0x18]),
        (8, &[0, 1, 2, 3, 4, 5, 6, 7], &[0x01, 0x24]),
        (1, &[0], &[0x01, 0x02]),
        (7, &[3], &[0x02, 0x82, 0x00]),
    ];
    for (n, ids, record) in cases {
        assert_eq!(model::write_record(n, ids), Ok(record.to_vec()));
        assert_eq!(
            model::read_record(n, record),
            Ok((ids.to_vec(), record.len() as u64))
        );
    }
    for n in [0, 1_048_577] {
        assert_eq!(model::write_record(n, &[]), Err(Why::Colors));
        assert_eq!(model::read_record(n, &[]), Err(Why::Colors));
    }
}

#[test]
fn prefixes() {
    use model::records::{prefix_of, read_prefix};
    assert_eq!(read_prefix(&[]), Err(Why::PrefixCut));
    assert_eq!(read_prefix(&[0x80; 4]), Err(Why::PrefixCut));
    assert_eq!(read_prefix(&[0x80; 5]), Err(Why::PrefixEndless));
    assert_eq!(read_prefix(&[0x80, 0x00]), Err(Why::PrefixNeedless));
    assert_eq!(
        read_prefix(&[0x80, 0x80, 0x80, 0x80, 0x00]),
        Err(Why::PrefixNeedless)
    );
    assert_eq!(
        read_prefix(&[0xFF, 0xFF, 0xFF, 0xFF, 0x0F]),
        Ok((u32::MAX, 5))
    );
    assert_eq!(
        read_prefix(&[0xFF, 0xFF, 0xFF, 0xFF, 0x10]),
        Err(Why::PrefixWide)
    );
    assert_eq!(read_prefix(&[0x00]), Ok((0, 1)));
    assert_eq!(prefix_of(u32::MAX), [0xFF, 0xFF, 0xFF, 0xFF, 0x0F]);
    assert_eq!(prefix_of(128), [0x80, 0x01]);
}

#[test]
fn index() {
    let file = [0x02, 0x62, 0x01, 0x02, 0x1A, 0x08];
    assert_eq!(model::make_index(&file, 2), Ok(vec![0, 3, 6]));
    assert_eq!(model::make_index(&file, 0), Ok(vec![0]));
    assert_eq!(model::make_index(&[0x01, 0xFF], 1), Ok(vec![0, 2]));
    assert_eq!(model::make_index(&file[..5], 2), Err(Why::PayloadCut));
    assert_eq!(model::index_fits(2, 3), Ok(()));
    assert_eq!(model::index_fits(2, 2), Err(Why::Space));
    assert_eq!(model::index_fits(u64::MAX, 2), Err(Why::Space));
}

#[test]
fn runs() {
    let list = [pack(0, A), pack(4, B)];
    let turned = vec![pack(0, B), pack(6, A)];
    assert_eq!(model::reverse_runs(&list, 10), Ok(turned.clone()));
    assert_eq!(model::rotate_runs(&list, 10, 4, false), Ok(turned.clone()));
    assert_eq!(model::rotate_runs(&list, 10, 14, false), Ok(turned));
    let by_two = vec![pack(0, A), pack(2, B), pack(8, A)];
    assert_eq!(model::rotate_runs(&list, 10, 2, false), Ok(by_two));
    assert_eq!(model::rotate_runs(&[], 10, 2, false), Ok(vec![]));
    assert_eq!(model::rotate_runs(&[pack(0, A)], 0, 2, false), Ok(vec![]));
    assert_eq!(
        model::rotate_runs(&[pack(1, A)], 0, 2, false),
        Err(Why::NotSteady)
    );

    let one = [pack(0, A)];
    let appended = |count, piece: &[u64], piece_count, reverse| {
        model::append_runs(&one, 1, count, piece, piece_count, reverse)
    };
    let piece = [pack(0, A), pack(2, B)];
    assert_eq!(appended(3, &piece, 5, false), Ok((vec![pack(4, B)], 7)));
    let piece = [pack(0, B), pack(2, A)];
    assert_eq!(appended(3, &piece, 5, true), Ok((vec![pack(5, B)], 7)));
    assert_eq!(
        appended(1, &[pack(0, B)], 2, false),
        Ok((vec![pack(0, B)], 2))
    );
    assert_eq!(
        appended(16_777_215, &[pack(0, B)], 1, false).map(|done| done.1),
        Ok(16_777_215)
    );
    assert_eq!(
        appended(16_777_215, &[pack(0, B)], 2, false),
        Err(Why::Vertices)
    );
    assert_eq!(
        model::append_runs(&[], 0, 0, &one, 1, false),
        Err(Why::Vertices)
    );
    assert_eq!(
        model::append_runs(&one, 2, 0, &one, 0, false),
        Err(Why::SaidRuns)
    );
}

/// A list in short: offsets and coordinates.
fn list(runs: &[(u32, u64)]) -> Vec<u64> {
    runs.iter().map(|&(at, named)| pack(at, named)).collect()
}

/// What is put behind the output, in short, and the new vertex count.
fn put_behind(
    output: (&[(u32, u64)], u32),
    piece: (&[(u32, u64)], u32),
    reverse: bool,
) -> (Vec<u64>, u64) {
    let (output, output_count) = (list(output.0), output.1);
    let (piece, piece_count) = (list(piece.0), piece.1);
    let used = output.len() as u64;
    model::append_runs(&output, used, output_count, &piece, piece_count, reverse).unwrap()
}

/// A piece in short, of so many vertices, and what is put behind the output of it.
type Appended<'a> = (&'a [(u32, u64)], u32, &'a [(u32, u64)]);

/// Of equal neighbours the first stays, of which the output's last run can be one.
#[test]
fn append_merges_equal_neighbours() {
    let one: (&[(u32, u64)], u32) = (&[(0, A)], 1);
    let forward: [Appended; 9] = [
        (&[(0, A), (1, A)], 2, &[]),
        (&[(0, B), (1, B)], 2, &[(0, B)]),
        (&[(0, A), (1, A), (2, B), (3, B)], 5, &[(2, B)]),
        (&[(0, B), (1, B), (2, A), (3, A)], 5, &[(0, B), (2, A)]),
        // Three and more in a row.
        (&[(0, A), (1, A), (2, A), (3, A)], 5, &[]),
        (
            &[(0, B), (1, B), (2, B), (4, A), (6, A), (7, A), (8, A)],
            9,
            &[(0, B), (4, A)],
        ),
        // Equal ones apart are no neighbours.
        (
            &[(0, A), (1, B), (2, A), (3, A), (4, B)],
            6,
            &[(1, B), (2, A), (4, B)],
        ),
        // Neither by the worker alone nor by the record's index alone: 2 and 258 have one worker, 2 and 3 one index.
        (&[(0, 258), (1, 2)], 2, &[(0, 258), (1, 2)]),
        (&[(0, 3), (1, 2)], 2, &[(0, 3), (1, 2)]),
    ];
    for (piece, n, new) in forward {
        let put = put_behind(one, (piece, n), false);
        assert_eq!(put, (list(new), u64::from(n)), "{piece:?}");
    }
    let reversed: [Appended; 4] = [
        (&[(0, A), (1, A)], 2, &[]),
        (&[(0, A), (1, A), (2, B), (3, B)], 5, &[(0, B), (3, A)]),
        (&[(0, B), (1, B), (2, A), (3, A)], 5, &[(3, B)]),
        (&[(0, B), (3, A), (5, A), (6, A)], 9, &[(6, B)]),
    ];
    for (piece, n, new) in reversed {
        let put = put_behind(one, (piece, n), true);
        assert_eq!(put, (list(new), u64::from(n)), "{piece:?}");
    }
    // Behind more vertices: equal at the junction, and inside.
    let piece: &[(u32, u64)] = &[(0, A), (1, A), (2, B), (3, B)];
    let put = put_behind((&[(0, B), (1, A)], 3), (piece, 5), false);
    assert_eq!(put, (list(&[(4, B)]), 7));
    let put = put_behind((&[(0, A), (1, B)], 3), (piece, 5), true);
    assert_eq!(put, (list(&[(5, A)]), 7));
}

/// Only the piece is merged.
#[test]
fn append_leaves_the_output_as_it_is() {
    // Equal to the run before the last one, whose vertex is the piece's first.
    let put = put_behind((&[(0, 1), (1, 2)], 2), (&[(0, 1)], 1), false);
    assert_eq!(put, (list(&[(1, 1)]), 2));
    // The run before the last one has no vertex.
    let put = put_behind((&[(0, 1), (0, 2)], 1), (&[(0, 2), (1, 1)], 2), false);
    assert_eq!(put, (list(&[(1, 1)]), 2));
    // Equal neighbours of its own.
    let equal: (&[(u32, u64)], u32) = (&[(0, A), (1, A)], 2);
    let put = put_behind(equal, (&[(0, A)], 3), false);
    assert_eq!(put, (list(&[]), 4));
    let put = put_behind(equal, (&[(0, B), (1, B), (2, A)], 3), false);
    assert_eq!(put, (list(&[(1, B), (3, A)]), 4));
}

/// What is refused doesn't depend on what would be merged.
#[test]
fn append_refuses_as_before() {
    let (one, sharp) = (list(&[(0, A)]), list(&[(0, A), (1, A)]));
    let twice = list(&[(0, A), (0, A)]);
    for (used, out_count, piece, n, why) in [
        (2, 0, &twice, 0, Why::SaidRuns),
        (1, 0, &twice, 0, Why::Vertices),
        (1, 16_777_215, &twice, 2, Why::Vertices),
        (0, 1, &twice, 2, Why::Output),
        (1, 1, &twice, 2, Why::Piece),
        (1, 1, &sharp, 1, Why::Piece),
    ] {
        for reverse in [false, true] {
            let put = model::append_runs(&one, used, out_count, piece, n, reverse);
            assert_eq!(put, Err(why.clone()));
        }
    }
    assert_eq!(
        model::append_runs(&one, 1, 16_777_214, &sharp, 2, false),
        Ok((vec![], 16_777_215))
    );
}

#[test]
fn run_bytes() {
    let bytes = [0x01, 0x04, 0x00, 0x00, 0x02, 0x01, 0x00, 0x00, 0x00];
    assert_eq!(model::write_runs(&[pack(4, 258)]), Ok(bytes.to_vec()));
    assert_eq!(model::read_runs(&bytes), Ok((vec![pack(4, 258)], 9)));
    assert_eq!(model::read_runs(&bytes[..8]), Err(Why::RunsCut));
}
