//! Reads the listing's bytes and prints the listing's lines N, P, F and Q from the given Rust's own sets.
//! The Rust refuses nothing: refusals 1 to 10 are this program's own. 11 is not judged, since the Rust's sets have no room to pass.
//!
//!   --batch            many inputs, each behind its length as four bytes, low byte first; each answer ends in a line "="
//!   --counts           a first line as the listing's, but with the Rust's own iteration counts, and how many of its sets hold a string twice
//!   --no10             sets may need more than the listing's words
//!   --decide LIMIT     instead: the Rust's k of each nonterminal, up to LIMIT
//!   --automata LIMIT   instead: the Rust's lookahead automata as rows: nonterminal, string, production
use parol::analysis::{FirstCache, FollowCache, calculate_lookahead_dfas, decidable};
use parol::table::*;
use std::io::{Read, Write};

/// The rows of one automaton: every path to an accepting state, in the rules' order.
fn rows(dfa: &parol::LookaheadDFA, map: &[(usize, usize)]) -> String {
    let mut found: Vec<(Vec<usize>, i32)> = Vec::new();
    let mut todo = vec![(0usize, Vec::new())];
    while let Some((state, path)) = todo.pop() {
        if dfa.states[state].prod_num >= 0 {
            found.push((path.clone(), dfa.states[state].prod_num));
        }
        for (t, to) in dfa.transitions.get(&state).into_iter().flatten() {
            let x = match *t as usize {
                0 => 0,
                t => map.iter().find(|(r, _)| *r == t).unwrap().1,
            };
            let mut next = path.clone();
            next.push(x);
            todo.push((*to, next));
        }
    }
    found.sort_by(|(a, _), (b, _)| a.len().cmp(&b.len()).then_with(|| a.iter().rev().cmp(b.iter().rev())));
    found.iter().map(|(path, p)| format!("{} {p}", show(&[path.clone()]))).collect()
}

struct Options {
    batch: bool,
    counts: bool,
    no10: bool,
    decide: Option<usize>,
    automata: Option<usize>,
}

/// Where the words of a caller who lends as many as the listing do not serve.
fn too_few(table: &Table, room: usize) -> bool {
    let (n, p) = (table.n, table.prods.len());
    let q: usize = table.prods.iter().map(|(_, r)| r.iter().filter(|s| *s % 2 == 0).count()).sum();
    (2 * n + p + q).max(2 * n + 4) * (2 * room + 1) > 4096
}

fn decide(table: &Table, limit: usize) -> String {
    let (g, fi, fo) = (table.config(), FirstCache::new(), FollowCache::new());
    (0..table.n)
        .map(|i| match decidable(&g, &format!("N{i:03}"), limit, &fi, &fo) {
            Ok(v) => format!("K {i}: {v}\n"),
            Err(_) => format!("K {i}: refused 22\n"),
        })
        .collect()
}

fn automata(table: &Table, limit: usize) -> String {
    let g = table.config();
    let map = table.terminal_map(&g);
    match calculate_lookahead_dfas(&g, limit) {
        Err(e) => format!("error {e}\n"),
        Ok(all) => all.values().enumerate().map(|(i, d)| format!("D {i}:{}\n", rows(d, &map))).collect(),
    }
}

/// The first line. The Rust tells its iterations only in its trace. A string is held twice where its two tuples differ in their stored k.
fn first_line(table: &Table, k: usize, trace: &[String], twice: usize) -> String {
    let (first, follow) = rounds(trace, k);
    let r: Vec<String> = first[1..].iter().map(|x| x.to_string()).collect();
    let width = (table.t + 6).ilog2() + 1;
    format!("k {k} width {width} rounds {} follow {follow} twice {twice}\n", r.join(" "))
}

fn sets(table: &Table, k: usize, counts: bool) -> String {
    let g = table.config();
    let map = table.terminal_map(&g);
    parol_runtime::log::LINES.with(|l| *l.borrow_mut() = counts.then(Vec::new));
    let s = analyse(&g, k);
    let trace = parol_runtime::log::LINES.with(|l| l.borrow_mut().take());
    let (mut out, mut twice) = (String::new(), 0);
    let mut line = |head: String, set: &parol::KTuples| {
        let once = strings(set, &map);
        twice += (once.len() < set.len()) as usize;
        out += &format!("{head}:{}\n", show(&once));
    };
    for (letter, all) in [("N", &s.first_nt), ("P", &s.first_pr), ("F", &s.follow_nt)] {
        for (i, x) in all.iter().enumerate() {
            line(format!("{letter} {i}"), x);
        }
    }
    for (pos, x) in &s.follow_pos {
        line(format!("Q {} {}", pos.pr, pos.sy), x);
    }
    trace.map_or(String::new(), |lines| first_line(table, k, &lines, twice)) + &out
}

fn listing(input: &[u8], o: &Options) -> Result<String, u32> {
    let input = &input[..input.len().min(16384)];
    let mut c = Cursor { bytes: input, at: 0 };
    let k = c.number()?;
    let room = c.number()?;
    if !(1..=10).contains(&k) {
        return Err(1);
    }
    if !(1..=1024).contains(&room) {
        return Err(2);
    }
    let table = Table::read(&input[c.at..])?;
    let a = table.accept();
    if a != 0 {
        return Err(a);
    }
    if !o.no10 && too_few(&table, room) {
        return Err(10);
    }
    Ok(match (o.decide, o.automata) {
        (Some(limit), _) => decide(&table, limit),
        (_, Some(limit)) => automata(&table, limit),
        _ => sets(&table, k, o.counts),
    })
}

fn options() -> Options {
    let args: Vec<String> = std::env::args().skip(1).collect();
    let has = |name: &str| args.iter().any(|a| a == name);
    let limit = |name: &str| args.iter().position(|a| a == name).map(|i| args[i + 1].parse().expect("a limit"));
    Options {
        batch: has("--batch"),
        counts: has("--counts"),
        no10: has("--no10"),
        decide: limit("--decide"),
        automata: limit("--automata"),
    }
}

fn main() {
    let o = options();
    let mut input = Vec::new();
    std::io::stdin().read_to_end(&mut input).unwrap();
    let mut stdout = std::io::stdout().lock();
    let text = |b: &[u8]| listing(b, &o).unwrap_or_else(|r| format!("refused {r}\n"));
    if !o.batch {
        write!(stdout, "{}", text(&input)).unwrap();
        return;
    }
    let mut at = 0;
    while at < input.len() {
        let len = u32::from_le_bytes(input[at..at + 4].try_into().unwrap()) as usize;
        at += 4;
        writeln!(stdout, "{}=", text(&input[at..at + len])).unwrap();
        at += len;
    }
}
