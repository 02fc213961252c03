//! Safe calls over the archive that `bindings/archive` makes, which is for x86-64 Linux. The archive tests everything that it is given and refuses by
//! number, so these wrappers only turn slices into pointers and lengths, and answers into `Result`s; a refusal's number is the error.
//!
//! A set is words: a count word, the members in order, two words each, then zeros. The lower half of the count word is the number of members, the upper
//! half how many of them are not complete at the call's k; where that number is wrong the set is refused 13. `make_set` makes such words, and `count`,
//! `unfinished` and `members` read them.

pub mod automaton;

mod raw {
    unsafe extern "C" {
        pub fn jomankitu_lookahead_sets(k: u64, c: u64, table: *const u8, table_len: usize, result: *mut u64, result_len: usize, scratch: *mut u64, scratch_len: usize, answer: *mut u64, answer_len: usize) -> u64;
        pub fn jomankitu_needed_k(limit: u64, c: u64, table: *const u8, table_len: usize, result: *mut u64, result_len: usize, scratch: *mut u64, scratch_len: usize, answer: *mut u64, answer_len: usize) -> u64;
        pub fn jomankitu_automata(limit: u64, c: u64, table: *const u8, table_len: usize, out: *mut u8, out_len: usize, result: *mut u64, result_len: usize, scratch: *mut u64, scratch_len: usize, answer: *mut u64, answer_len: usize) -> u64;
        pub fn jomankitu_mark(limit: u64, c: u64, table: *const u8, table_len: usize, rows: *const u64, rows_len: usize, result: *mut u64, result_len: usize, scratch: *mut u64, scratch_len: usize, answer: *mut u64, answer_len: usize) -> u64;
        pub fn jomankitu_set_of(len: usize, kind: usize, number: usize, n: usize, p: usize, q: usize, c: usize, out: *mut u64, out_len: usize) -> u64;
        pub fn jomankitu_read_abnf(text: *const u8, text_len: usize, table: *mut u8, table_len: usize, answer: *mut u64, answer_len: usize) -> u64;
        pub fn jomankitu_nonterminal_part(text: *const u8, text_len: usize, number: u64, out: *mut u64, out_len: usize) -> u64;
        pub fn jomankitu_terminal_part(text: *const u8, text_len: usize, number: u64, out: *mut u64, out_len: usize) -> u64;
        pub fn jomankitu_width(m: u64, out: *mut u64, out_len: usize) -> u64;
        pub fn jomankitu_eps(m: u64, out: *mut u64, out_len: usize) -> u64;
        pub fn jomankitu_end(m: u64, out: *mut u64, out_len: usize) -> u64;
        pub fn jomankitu_make(list: *const u16, list_len: usize, k: u64, m: u64, out: *mut u64, out_len: usize) -> u64;
        pub fn jomankitu_push(lo: u64, hi: u64, x: u64, out: *mut u64, out_len: usize) -> u64;
        pub fn jomankitu_cut(lo: u64, hi: u64, k: u64, out: *mut u64, out_len: usize) -> u64;
        pub fn jomankitu_join(x_lo: u64, x_hi: u64, y_lo: u64, y_hi: u64, k: u64, out: *mut u64, out_len: usize) -> u64;
        pub fn jomankitu_complete(lo: u64, hi: u64, k: u64, out: *mut u64, out_len: usize) -> u64;
        pub fn jomankitu_order(x_lo: u64, x_hi: u64, y_lo: u64, y_hi: u64, out: *mut u64, out_len: usize) -> u64;
        pub fn jomankitu_unpack(lo: u64, hi: u64, out: *mut u64, out_len: usize) -> u64;
        pub fn jomankitu_union(k: u64, a: *const u64, a_len: usize, b: *const u64, b_len: usize, out: *mut u64, out_len: usize, told: *mut u64, told_len: usize) -> u64;
        pub fn jomankitu_intersection(k: u64, a: *const u64, a_len: usize, b: *const u64, b_len: usize, out: *mut u64, out_len: usize) -> u64;
        pub fn jomankitu_disjoint(k: u64, a: *const u64, a_len: usize, b: *const u64, b_len: usize, out: *mut u64, out_len: usize) -> u64;
        pub fn jomankitu_all_complete(k: u64, a: *const u64, a_len: usize, out: *mut u64, out_len: usize) -> u64;
        pub fn jomankitu_join_sets(k: u64, a: *const u64, a_len: usize, b: *const u64, b_len: usize, out: *mut u64, out_len: usize) -> u64;
    }
}

/// The number of a refusal.
pub type Refusal = u64;

/// What `told` says, if the number is no refusal.
fn answer<T>(number: u64, told: T) -> Result<T, Refusal> {
    if number == 0 { Ok(told) } else { Err(number) }
}

/// What a call answers: the grammar's sizes, the width of its strings, the rounds of each level (0 for one that was not run) and those of FOLLOW.
#[derive(Clone, Copy, Debug, PartialEq, Eq)]
pub struct Lookahead {
    pub n: u64,
    pub p: u64,
    pub q: u64,
    pub width: u64,
    pub rounds: [u64; 10],
    pub follow: u64,
}

/// FIRST and FOLLOW of a table at k, with room for c members in each set. The sets go to `result`; `scratch` is worked in.
pub fn lookahead_sets(k: u64, c: u64, table: &[u8], result: &mut [u64], scratch: &mut [u64]) -> Result<Lookahead, Refusal> {
    let mut a = [0u64; 16];
    let number = unsafe { raw::jomankitu_lookahead_sets(k, c, table.as_ptr(), table.len(), result.as_mut_ptr(), result.len(), scratch.as_mut_ptr(), scratch.len(), a.as_mut_ptr(), a.len()) };
    let mut rounds = [0; 10];
    rounds.copy_from_slice(&a[5..15]);
    answer(number, Lookahead { n: a[1], p: a[2], q: a[3], width: a[4], rounds, follow: a[15] })
}

/// The smallest k from 1 to limit that each nonterminal needs (0 for one production), or its refusal (11 or 22), with room for c members in each set.
/// Both buffers are worked in.
pub fn needed_k(limit: u64, c: u64, table: &[u8], result: &mut [u64], scratch: &mut [u64]) -> Result<Vec<Result<u64, Refusal>>, Refusal> {
    let mut a = [0u64; 258];
    let number = unsafe { raw::jomankitu_needed_k(limit, c, table.as_ptr(), table.len(), result.as_mut_ptr(), result.len(), scratch.as_mut_ptr(), scratch.len(), a.as_mut_ptr(), a.len()) };
    answer(number, (0..a[1] as usize).map(|i| answer(a[2 + i], a[130 + i])).collect())
}

/// The automata of a table's nonterminals in turn, at the front of `out`; how many bytes they take. `automaton::Automaton` reads them.
/// Both buffers are worked in.
pub fn automata(limit: u64, c: u64, table: &[u8], out: &mut [u8], result: &mut [u64], scratch: &mut [u64]) -> Result<usize, Refusal> {
    words::<1>(|o, n| unsafe { raw::jomankitu_automata(limit, c, table.as_ptr(), table.len(), out.as_mut_ptr(), out.len(), result.as_mut_ptr(), result.len(), scratch.as_mut_ptr(), scratch.len(), o, n) }).map(|w| w[0] as usize)
}

/// A row of a prediction table: on this string ahead, this nonterminal takes this production. The string is made for the greatest terminal t + 5.
#[derive(Clone, Copy, Debug, PartialEq, Eq)]
pub struct Row {
    pub nonterminal: u64,
    pub string: Terminals,
    pub production: u64,
}

/// What a prediction table is marked with.
#[derive(Clone, Copy, Debug, PartialEq, Eq)]
pub enum Mark {
    Accepted,
    /// The first bad row, from 0.
    BadRow(usize),
    /// The first missing string, by nonterminal and then string order.
    Missing { nonterminal: u64, string: Terminals },
}

/// Marks a hand-written prediction table, its rows in any order. Both buffers are worked in.
pub fn mark(limit: u64, c: u64, table: &[u8], rows: &[Row], result: &mut [u64], scratch: &mut [u64]) -> Result<Mark, Refusal> {
    let rows: Vec<u64> = rows.iter().flat_map(|r| [r.nonterminal, r.string.0, r.string.1, r.production]).collect();
    let mut a = [0u64; 4];
    let number = unsafe { raw::jomankitu_mark(limit, c, table.as_ptr(), table.len(), rows.as_ptr(), rows.len(), result.as_mut_ptr(), result.len(), scratch.as_mut_ptr(), scratch.len(), a.as_mut_ptr(), a.len()) };
    match number {
        24 => Ok(Mark::BadRow(a[0] as usize)),
        25 => Ok(Mark::Missing { nonterminal: a[1], string: Terminals(a[2], a[3]) }),
        _ => answer(number, Mark::Accepted),
    }
}

/// The kinds of sets, in the result's order.
#[derive(Clone, Copy, Debug, PartialEq, Eq)]
pub enum Kind {
    First = 0,
    Production = 1,
    Follow = 2,
    Position = 3,
}

/// The part of a result that holds one set; empty where there is no such set.
pub fn set_of<'a>(words: &'a [u64], kind: Kind, number: usize, a: &Lookahead, c: usize) -> &'a [u64] {
    let mut part = [0u64; 2];
    unsafe { raw::jomankitu_set_of(words.len(), kind as usize, number, a.n as usize, a.p as usize, a.q as usize, c, part.as_mut_ptr(), part.len()) };
    words.get(part[0] as usize..(part[0] + part[1]) as usize).unwrap_or(&[])
}

/// Why a text of rules has no table: the number of the refusal, and its place in the text (0 for 10).
#[derive(Clone, Copy, Debug, PartialEq, Eq)]
pub struct Refused {
    pub number: Refusal,
    pub place: usize,
}

/// The table of a text of rules in ABNF, in the first bytes of `table`; how many they are.
pub fn read_abnf(text: &[u8], table: &mut [u8]) -> Result<usize, Refused> {
    let mut a = [0u64; 2];
    let number = unsafe { raw::jomankitu_read_abnf(text.as_ptr(), text.len(), table.as_mut_ptr(), table.len(), a.as_mut_ptr(), a.len()) };
    if number == 0 { Ok(a[0] as usize) } else { Err(Refused { number, place: a[1] as usize }) }
}

/// The bytes of a text at a place and so many; none where they are not all there.
fn part(text: &[u8], call: impl FnOnce(*mut u64, usize) -> u64) -> &[u8] {
    let mut p = [0u64; 2];
    call(p.as_mut_ptr(), p.len());
    text.get(p[0] as usize..(p[0] + p[1]) as usize).unwrap_or(&[])
}

/// The part of a text of rules that names a nonterminal: its name, or "[" of its group; empty where there is no such number.
pub fn nonterminal_part(text: &[u8], number: u64) -> &[u8] {
    part(text, |o, n| unsafe { raw::jomankitu_nonterminal_part(text.as_ptr(), text.len(), number, o, n) })
}

/// The part of a text of rules that names a terminal: its literal without quotes; empty where there is no such number.
pub fn terminal_part(text: &[u8], number: u64) -> &[u8] {
    part(text, |o, n| unsafe { raw::jomankitu_terminal_part(text.as_ptr(), text.len(), number, o, n) })
}

/// A packed string: two words, the low one first.
#[derive(Clone, Copy, Debug, PartialEq, Eq)]
pub struct Terminals(pub u64, pub u64);

/// Calls a function that leaves N words.
fn words<const N: usize>(call: impl FnOnce(*mut u64, usize) -> u64) -> Result<[u64; N], Refusal> {
    let mut out = [0u64; N];
    let number = call(out.as_mut_ptr(), N);
    answer(number, out)
}

fn string(call: impl FnOnce(*mut u64, usize) -> u64) -> Result<Terminals, Refusal> {
    words::<2>(call).map(|w| Terminals(w[0], w[1]))
}

/// The width of strings whose greatest terminal is m.
pub fn width(m: u64) -> Result<u64, Refusal> {
    words::<1>(|o, n| unsafe { raw::jomankitu_width(m, o, n) }).map(|w| w[0])
}

impl Terminals {
    pub fn eps(m: u64) -> Result<Self, Refusal> {
        string(|o, n| unsafe { raw::jomankitu_eps(m, o, n) })
    }
    pub fn end(m: u64) -> Result<Self, Refusal> {
        string(|o, n| unsafe { raw::jomankitu_end(m, o, n) })
    }
    /// The first k of a list; refused 21 where 0 stands before the last of them.
    pub fn make(list: &[u16], k: u64, m: u64) -> Result<Self, Refusal> {
        string(|o, n| unsafe { raw::jomankitu_make(list.as_ptr(), list.len(), k, m, o, n) })
    }
    /// One slot more; refused 21 once the string has ended.
    pub fn push(self, x: u64) -> Result<Self, Refusal> {
        string(|o, n| unsafe { raw::jomankitu_push(self.0, self.1, x, o, n) })
    }
    pub fn cut(self, k: u64) -> Result<Self, Refusal> {
        string(|o, n| unsafe { raw::jomankitu_cut(self.0, self.1, k, o, n) })
    }
    pub fn k_concat(self, other: Self, k: u64) -> Result<Self, Refusal> {
        string(|o, n| unsafe { raw::jomankitu_join(self.0, self.1, other.0, other.1, k, o, n) })
    }
    pub fn is_k_complete(self, k: u64) -> Result<bool, Refusal> {
        words::<1>(|o, n| unsafe { raw::jomankitu_complete(self.0, self.1, k, o, n) }).map(|w| w[0] == 1)
    }
    pub fn order(self, other: Self) -> Result<std::cmp::Ordering, Refusal> {
        words::<1>(|o, n| unsafe { raw::jomankitu_order(self.0, self.1, other.0, other.1, o, n) }).map(|w| w[0].cmp(&1))
    }
    /// The slots, ε as 65,535.
    pub fn unpack(self) -> Result<Vec<u16>, Refusal> {
        words::<11>(|o, n| unsafe { raw::jomankitu_unpack(self.0, self.1, o, n) }).map(|w| w[1..1 + w[0] as usize].iter().map(|&s| s as u16).collect())
    }
}

/// The number of members of a set, from its count word; 0 for no words.
pub fn count(set: &[u64]) -> usize {
    set.first().map_or(0, |&word| (word & 0xffff_ffff) as usize)
}

/// How many members of a set are not complete at the k that it was made for, from its count word; 0 for no words.
pub fn unfinished(set: &[u64]) -> usize {
    set.first().map_or(0, |&word| (word >> 32) as usize)
}

/// The members of a set, in order, as far as there are words for them.
pub fn members(set: &[u64]) -> impl Iterator<Item = Terminals> + '_ {
    set.get(1..).unwrap_or(&[]).chunks_exact(2).take(count(set)).map(|m| Terminals(m[0], m[1]))
}

/// The words of the set of these strings at k, with none to spare; the strings may come in any order and more than once. Refused as sets are: 1 for k, 13
/// where one is no member of a set at k or they are not of one width.
pub fn make_set(k: u64, strings: &[Terminals]) -> Result<Vec<u64>, Refusal> {
    let mut strings = strings.to_vec();
    strings.sort_by_key(|t| (t.1, t.0));
    strings.dedup();
    let mut open = 0;
    for t in &strings {
        open += u64::from(!t.is_k_complete(k)?);
    }
    let mut set = vec![open << 32 | strings.len() as u64];
    set.extend(strings.iter().flat_map(|t| [t.0, t.1]));
    is_k_complete(k, &set)?;
    Ok(set)
}

/// The union of two sets at k, in `out`; whether it has more members than the first.
pub fn union(k: u64, a: &[u64], b: &[u64], out: &mut [u64]) -> Result<bool, Refusal> {
    words::<1>(|o, n| unsafe { raw::jomankitu_union(k, a.as_ptr(), a.len(), b.as_ptr(), b.len(), out.as_mut_ptr(), out.len(), o, n) }).map(|w| w[0] == 1)
}

/// The members that two sets have in common, in `out`.
pub fn intersection(k: u64, a: &[u64], b: &[u64], out: &mut [u64]) -> Result<(), Refusal> {
    answer(unsafe { raw::jomankitu_intersection(k, a.as_ptr(), a.len(), b.as_ptr(), b.len(), out.as_mut_ptr(), out.len()) }, ())
}

/// The join of two sets at k, in `out`: the first set where nothing of it is unfinished.
pub fn k_concat(k: u64, a: &[u64], b: &[u64], out: &mut [u64]) -> Result<(), Refusal> {
    answer(unsafe { raw::jomankitu_join_sets(k, a.as_ptr(), a.len(), b.as_ptr(), b.len(), out.as_mut_ptr(), out.len()) }, ())
}

pub fn is_disjoint(k: u64, a: &[u64], b: &[u64]) -> Result<bool, Refusal> {
    words::<1>(|o, n| unsafe { raw::jomankitu_disjoint(k, a.as_ptr(), a.len(), b.as_ptr(), b.len(), o, n) }).map(|w| w[0] == 1)
}

/// Whether a set has a member and every member is complete at k, which its count word says.
pub fn is_k_complete(k: u64, a: &[u64]) -> Result<bool, Refusal> {
    words::<1>(|o, n| unsafe { raw::jomankitu_all_complete(k, a.as_ptr(), a.len(), o, n) }).map(|w| w[0] == 1)
}
