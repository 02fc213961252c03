//! Automata through the archive: made, read back and walked.
use jomankitu::automaton::Automaton;
use jomankitu::*;

/// S -> 5 5 | 5 6, which needs two terminals.
const TWO: [u8; 12] = [1, 2, 0, 2, 0, 2, 0x0B, 0x0B, 0, 2, 0x0B, 0x0D];
/// A rating message: 5 id, 6 version, 7 number, 8 rating, 9 end; nonterminal 1 is the version clause, or nothing.
const RATING: [u8; 16] = [2, 5, 0, 3, 0, 4, 0x0B, 2, 0x11, 0x13, 1, 2, 0x0D, 0x0F, 1, 0];

fn made(table: &[u8]) -> Vec<Automaton> {
    let (mut result, mut scratch, mut out) = (vec![7u64; 4096], vec![7u64; 4096], [7u8; 100]);
    let used = automata(3, 8, table, &mut out, &mut result, &mut scratch).unwrap();
    assert!(out[used..].iter().all(|&b| b == 7), "bytes behind the automata stay");
    Automaton::read_all(&out[..used]).unwrap()
}

#[test]
fn a_reader_picks_its_rule() {
    let two = made(&TWO);
    assert_eq!(two.len(), 1);
    assert_eq!(two[0].states.len(), 4);
    assert_eq!(two[0].predict([5, 5]), Some(0));
    assert_eq!(two[0].predict([5, 6, 7]), Some(1));
    assert_eq!(two[0].predict([6]), None);
    assert_eq!(two[0].predict([5]), None);
}

#[test]
fn a_versioned_rating_is_told_from_an_unversioned_one() {
    let rating = made(&RATING);
    assert_eq!(rating[0].predict([]), Some(0), "a message has one rule");
    assert_eq!(rating[1].predict([6, 7]), Some(1));
    assert_eq!(rating[1].predict([8, 9]), Some(2));
    assert_eq!(rating[1].predict([9]), None);
}

#[test]
fn refusals_write_nothing() {
    let (mut result, mut scratch, mut out) = (vec![7u64; 4096], vec![7u64; 4096], [7u8; 14]);
    assert_eq!(automata(2, 8, &TWO, &mut out, &mut result, &mut scratch), Err(10));
    assert_eq!(automata(1, 8, &TWO, &mut out, &mut result, &mut scratch), Err(22));
    assert_eq!(automata(11, 8, &TWO, &mut out, &mut result, &mut scratch), Err(1));
    assert_eq!(out, [7; 14]);
}
