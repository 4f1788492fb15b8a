//! One file, one history (F-10), of all short lists of sets of few colours; and why the colour count has to be fixed.

use model::records::record_of;
use model::sets::encode_set;

type Set = Vec<u32>;

fn sets(n: u32) -> Vec<Set> {
    (0u32..1 << n)
        .map(|bits| (0..n).filter(|id| (bits >> id) & 1 == 1).collect())
        .collect()
}

/// Every list of at most `most` sets of `n` colours, with what `written` makes of each set, one after another.
fn written(n: u32, most: usize, written: fn(u32, &[u32]) -> Vec<u8>) -> Vec<(Vec<Set>, Vec<u8>)> {
    let sets = sets(n);
    let mut all = vec![(vec![], vec![])];
    let mut from = 0;
    for _ in 0..most {
        let to = all.len();
        for k in from..to {
            for set in &sets {
                let (list, bytes) = &all[k];
                all.push((
                    [&list[..], std::slice::from_ref(set)].concat(),
                    [&bytes[..], &written(n, set)].concat(),
                ));
            }
        }
        from = to;
    }
    all
}

/// Every list of at most `most` sets of `n` colours, with its record file.
fn files(n: u32, most: usize) -> Vec<(Vec<Set>, Vec<u8>)> {
    written(n, most, record_of)
}

/// The bytes of the one are the beginning of the other's exactly when its list is.
fn one_history(n: u32, files: &[(Vec<Set>, Vec<u8>)]) {
    for (list, bytes) in files {
        for (other, others) in files {
            assert_eq!(
                other.starts_with(list),
                others.starts_with(bytes),
                "of {n} colours: {list:?}, {other:?}"
            );
        }
    }
}

#[test]
fn a_file_begins_another_exactly_when_its_list_does() {
    for (n, most) in [(1, 5), (2, 4), (3, 3), (4, 2), (5, 2)] {
        one_history(n, &files(n, most));
    }
}

/// The prefix is not the only reason: a payload ends where its codes end.
#[test]
fn payloads_without_prefixes_tell_their_lists_too() {
    for (n, most) in [(1, 6), (2, 4), (3, 3), (4, 2), (5, 2), (6, 2)] {
        one_history(n, &written(n, most, encode_set));
    }
}

#[test]
fn one_colour_shares_only_the_record_of_the_empty_set() {
    for m in 2..=16 {
        for set in sets(m) {
            let shared = sets(1)
                .iter()
                .any(|one| record_of(1, one) == record_of(m, &set));
            assert_eq!(shared, set.is_empty(), "of {m} colours: {set:?}");
        }
    }
}

#[test]
fn the_smallest_pair_of_equal_bytes_and_other_sets() {
    let mut pairs = Vec::new();
    for (n, m) in [(1, 2), (1, 3), (1, 4), (1, 5), (2, 3)] {
        for (list, bytes) in files(n, 2) {
            for (other, others) in files(m, 2) {
                if bytes == others && list != other {
                    pairs.push((n + m, bytes.len(), bytes.clone(), list.clone(), other));
                }
            }
        }
    }
    let smallest = pairs.into_iter().min();
    assert_eq!(
        smallest,
        Some((5, 2, vec![0x01, 0x12], vec![vec![1]], vec![vec![0]]))
    );
}
