//! The count word of sets through the archive: the number of members, and how many of them are unfinished at k.
use jomankitu::*;

fn string(list: &[u16]) -> Terminals {
    Terminals::make(list, 10, 7).unwrap()
}

/// [5 6], [0] and epsilon: at k = 2 only the last is unfinished, at k = 3 the first is too.
fn strings() -> [Terminals; 3] {
    [string(&[5, 6]), string(&[0]), Terminals::eps(7).unwrap()]
}

#[test]
fn the_word_says_both_numbers() {
    for (k, open) in [(2, 1), (3, 2)] {
        let set = make_set(k, &strings()).unwrap();
        assert_eq!((count(&set), unfinished(&set), set[0]), (3, open, (open as u64) << 32 | 3));
        assert_eq!(members(&set).collect::<Vec<_>>(), [string(&[0]), Terminals::eps(7).unwrap(), string(&[5, 6])]);
    }
    assert_eq!((count(&[]), unfinished(&[]), members(&[]).count()), (0, 0, 0));
    assert_eq!(make_set(1, &[]), Ok(vec![0]));
}

#[test]
fn operations_keep_it() {
    let set = make_set(3, &strings()).unwrap();
    let more = make_set(3, &[string(&[5]), string(&[5]), string(&[6, 7, 5])]).unwrap();
    assert_eq!((count(&more), unfinished(&more)), (2, 1));
    let mut out = [7u64; 15];
    assert_eq!(union(3, &set, &more, &mut out), Ok(true));
    assert_eq!((count(&out), unfinished(&out)), (5, 3));
    assert_eq!(intersection(3, &set, &make_set(3, &[string(&[5, 6])]).unwrap(), &mut out), Ok(()));
    assert_eq!((count(&out), unfinished(&out)), (1, 1));
    assert_eq!(k_concat(3, &set, &make_set(3, &[string(&[0])]).unwrap(), &mut out), Ok(()));
    assert_eq!((count(&out), unfinished(&out)), (2, 0), "[5 6 0] and [0]");
    assert_eq!(is_k_complete(3, &out), Ok(true));
    let done = out;
    assert_eq!(k_concat(3, &done, &more, &mut out), Ok(()));
    assert_eq!(out, done, "nothing is unfinished, so the join is the first set");
}

#[test]
fn a_wrong_number_is_refused() {
    let right = make_set(2, &strings()).unwrap();
    let other = make_set(3, &strings()).unwrap();
    let mut without = right.clone();
    without[0] = 3;
    let mut out = [7u64; 9];
    for wrong in [other, without, vec![1 << 32]] {
        assert_eq!(union(2, &wrong, &right, &mut out), Err(13));
        assert_eq!(intersection(2, &right, &wrong, &mut out), Err(13));
        assert_eq!(k_concat(2, &right, &wrong, &mut out), Err(13));
        assert_eq!(is_disjoint(2, &wrong, &right), Err(13));
        assert_eq!(is_k_complete(2, &wrong), Err(13));
    }
    assert_eq!(out, [7; 9], "the output is as it came");
}

#[test]
fn no_set_of_these() {
    assert_eq!(make_set(0, &strings()), Err(1));
    assert_eq!(make_set(1, &strings()), Err(13), "[5 6] is longer than 1");
    assert_eq!(make_set(2, &[string(&[5]), Terminals::make(&[5], 10, 100).unwrap()]), Err(13), "two widths");
    assert_eq!(make_set(2, &[Terminals(1, 0)]), Err(13), "no string");
}
