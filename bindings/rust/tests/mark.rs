//! Prediction tables for a rating message, marked through the archive.
use jomankitu::*;

/// 5 id, 6 version, 7 number, 8 rating, 9 end; nonterminal 1 is the version clause (production 1), or nothing (production 2).
const RATING: [u8; 16] = [2, 5, 0, 3, 0, 4, 0x0B, 2, 0x11, 0x13, 1, 2, 0x0D, 0x0F, 1, 0];

fn row(nonterminal: u64, string: &[u16], production: u64) -> Row {
    Row { nonterminal, string: Terminals::make(string, 10, 10).unwrap(), production }
}
fn marked(rows: &[Row]) -> Result<Mark, Refusal> {
    let (mut result, mut scratch) = (vec![7u64; 4096], vec![7u64; 4096]);
    mark(2, 8, &RATING, rows, &mut result, &mut scratch)
}

#[test]
fn right_rows_in_any_order() {
    assert_eq!(marked(&[row(1, &[6], 1), row(1, &[8], 2)]), Ok(Mark::Accepted));
    assert_eq!(marked(&[row(1, &[8], 2), row(1, &[6], 1)]), Ok(Mark::Accepted));
}

#[test]
fn a_versioned_rating_filed_as_unversioned() {
    assert_eq!(marked(&[row(1, &[8], 2), row(1, &[6], 2)]), Ok(Mark::BadRow(1)));
    assert_eq!(marked(&[row(1, &[8], 2)]), Ok(Mark::Missing { nonterminal: 1, string: Terminals::make(&[6], 1, 10).unwrap() }));
}

#[test]
fn bad_rows() {
    assert_eq!(marked(&[row(1, &[6], 1), row(1, &[8], 2), row(1, &[6], 1)]), Ok(Mark::BadRow(2)), "a row twice");
    assert_eq!(marked(&[row(0, &[5], 0)]), Ok(Mark::BadRow(0)), "a message has one production");
    assert_eq!(marked(&[row(2, &[5], 0)]), Ok(Mark::BadRow(0)), "no such nonterminal");
    assert_eq!(marked(&[Row { nonterminal: 1, string: Terminals(1, 0), production: 1 }]), Ok(Mark::BadRow(0)), "no string");
}
