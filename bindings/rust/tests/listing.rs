//! The rules' listing and some exercises through the archive.
use jomankitu::*;

const TABLE: [u8; 13] = [2, 2, 0, 3, 0, 2, 0x0B, 2, 1, 1, 0x0D, 1, 0];

fn strings(set: &[u64]) -> Vec<Vec<u16>> {
    members(set).map(|t| t.unpack().unwrap()).collect()
}

#[test]
fn the_listing() {
    let (mut result, mut scratch) = (vec![7u64; 4096], vec![7u64; 4096]);
    let a = lookahead_sets(2, 8, &TABLE, &mut result, &mut scratch).unwrap();
    assert_eq!(a, Lookahead { n: 2, p: 3, q: 1, width: 4, rounds: [2, 2, 0, 0, 0, 0, 0, 0, 0, 0], follow: 2 });
    assert_eq!(strings(set_of(&result, Kind::First, 0, &a, 8)), [vec![5], vec![5, 6]]);
    assert_eq!(strings(set_of(&result, Kind::First, 1, &a, 8)), [vec![6], vec![65535]]);
    assert_eq!(strings(set_of(&result, Kind::Position, 0, &a, 8)), [vec![0]]);
    assert!(set_of(&result, Kind::Position, 1, &a, 8).is_empty());
    let numbers = |kind, i| (count(set_of(&result, kind, i, &a, 8)), unfinished(set_of(&result, kind, i, &a, 8)));
    assert_eq!((numbers(Kind::First, 0), numbers(Kind::First, 1), numbers(Kind::Follow, 0)), ((2, 1), (2, 2), (1, 0)));
    assert_eq!(result[8 * 17], 7, "words beyond the needed stay");
    assert_eq!(scratch[8 * 17 - 1..][..2], [0, 7], "the needed scratch ends zero");
}

#[test]
fn refusals_leave_the_words() {
    let (mut result, mut scratch) = (vec![7u64; 4096], vec![7u64; 4096]);
    assert_eq!(lookahead_sets(0, 8, &TABLE, &mut result, &mut scratch), Err(1));
    assert_eq!(lookahead_sets(2, 8, &TABLE[..12], &mut result, &mut scratch), Err(3));
    assert_eq!(lookahead_sets(2, 8, &[], &mut result, &mut scratch), Err(3));
    assert_eq!(lookahead_sets(2, 8, &TABLE, &mut result[..1], &mut scratch), Err(10));
    assert_eq!(lookahead_sets(2, 8, &TABLE, &mut [], &mut []), Err(10));
    assert!(result.iter().chain(&scratch).all(|&w| w == 7));
}

#[test]
fn which_k() {
    const TWO: [u8; 12] = [1, 2, 0, 2, 0, 2, 0x0B, 0x0B, 0, 2, 0x0B, 0x0D];
    let (mut result, mut scratch) = (vec![7u64; 4096], vec![7u64; 4096]);
    assert_eq!(needed_k(2, 8, &TWO, &mut result, &mut scratch), Ok(vec![Ok(2)]));
    assert_eq!(needed_k(1, 8, &TWO, &mut result, &mut scratch), Ok(vec![Err(22)]));
    assert_eq!(needed_k(3, 8, &TABLE, &mut result, &mut scratch), Ok(vec![Ok(0), Ok(1)]));
    assert_eq!(needed_k(11, 8, &TWO, &mut result, &mut scratch), Err(1));
}

#[test]
fn strings_and_sets() {
    assert_eq!(width(4094), Ok(12));
    assert_eq!(width(4095), Err(14));
    assert_eq!(Terminals::make(&[5, 6], 10, 7), Ok(Terminals(101, 0x4200000000000000)));
    let five = Terminals::make(&[5], 10, 7).unwrap();
    assert_eq!(five.k_concat(Terminals::make(&[6, 7, 8], 10, 8).unwrap(), 3).unwrap().unpack(), Ok(vec![5, 6, 7]));
    assert_eq!(Terminals::eps(7).unwrap().push(5), Err(17));
    assert_eq!(Terminals::end(7).unwrap().push(6), Err(21));
    assert_eq!(Terminals::make(&[5, 0, 6], 3, 7), Err(21));
    assert_eq!(Terminals::make(&[5, 0, 6], 2, 7).unwrap().unpack(), Ok(vec![5, 0]));
    assert_eq!(five.order(Terminals::eps(7).unwrap()), Ok(std::cmp::Ordering::Less));
    let (a, b) = ([1, five.0, five.1], [0u64; 3]);
    let mut out = [9u64; 3];
    assert_eq!(union(1, &a, &b, &mut out), Ok(false));
    assert_eq!(out, a);
    assert_eq!(is_disjoint(1, &a, &a), Ok(false));
    assert_eq!((is_k_complete(1, &a), is_k_complete(1, &b)), (Ok(true), Ok(false)), "a set without members is not complete");
    assert_eq!(union(0, &a, &b, &mut out), Err(1));
    assert_eq!(union(1, &[], &b, &mut out), Err(10));
    assert_eq!(Terminals::make(&[], 10, 7).unwrap().unpack(), Ok(vec![]));
}
