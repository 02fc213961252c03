//! A text of rules through the archive: its table, the names behind the numbers, and its sets.
use jomankitu::*;

const TEXT: &[u8] = b"S = \"id\" [v]\r\nV = \"version\" ; a clause\r\n";

#[test]
fn a_text_becomes_a_table() {
    let mut table = [7u8; 20];
    assert_eq!(read_abnf(TEXT, &mut table), Ok(16));
    assert_eq!(table[..16], [3, 2, 0, 4, 0, 2, 11, 4, 2, 1, 2, 2, 0, 1, 1, 13]);
    assert_eq!(table[16..], [7; 4], "bytes behind the table stay");
    let (mut result, mut scratch) = (vec![0u64; 4096], vec![0u64; 4096]);
    let a = lookahead_sets(1, 4, &table[..16], &mut result, &mut scratch).unwrap();
    assert_eq!((a.n, a.p, a.q), (3, 4, 2));
}

#[test]
fn numbers_lead_back() {
    let names: Vec<&[u8]> = (0..4).map(|i| nonterminal_part(TEXT, i)).collect();
    assert_eq!(names, [&b"S"[..], b"v", b"[", b""]);
    let literals: Vec<&[u8]> = (4..8).map(|x| terminal_part(TEXT, x)).collect();
    assert_eq!(literals, [&b""[..], b"id", b"version", b""]);
}

#[test]
fn refusals_have_places() {
    let mut table = [7u8; 20];
    assert_eq!(read_abnf(b"s = 1*v\r\n", &mut table), Err(Refused { number: 18, place: 4 }));
    assert_eq!(read_abnf(b"s = \"a\" v\r\n", &mut table), Err(Refused { number: 19, place: 8 }));
    assert_eq!(read_abnf(TEXT, &mut table[..15]), Err(Refused { number: 10, place: 0 }));
    assert_eq!(table, [7; 20]);
}
