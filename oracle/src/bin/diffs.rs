//! The single differences between the given Rust and the rules that its public calls can show, each as a line: what is done, what the Rust says.
use parol::analysis::k_tuple::{KTupleBuilder, Terminals};
use parol::table::{Table, analyse, show, strings};
use parol::{CompiledTerminal, KTuple, KTuples, KTuplesBuilder};

const M: usize = 6;

fn set(k: usize, strings: Option<&[&[u16]]>) -> KTuples {
    let mut builder = KTuplesBuilder::new();
    builder.k(k).max_terminal_index(M);
    match strings {
        Some(s) => builder.terminal_indices(s).build().unwrap(),
        None => builder.build().unwrap(),
    }
}

fn tuple(k: usize) -> KTuple {
    KTupleBuilder::new().k(k).max_terminal_index(M).terminal_string(&[5]).build().unwrap()
}

fn string(m: usize, slots: &[u16]) -> Terminals {
    let mut s = Terminals::new(m);
    s.extend(slots.iter().map(|x| CompiledTerminal(*x)));
    s
}

/// {[0]} at a greatest terminal m
fn end_at(m: usize) -> KTuples {
    KTuplesBuilder::new().k(1).max_terminal_index(m).terminal_indices(&[&[0]]).build().unwrap()
}

/// FIRST and FOLLOW of S at k, for S -> nothing or 5
fn engine(k: usize) -> String {
    let table = Table::read(&[1, 1, 0, 2, 0, 0, 0, 1, 11]).unwrap();
    let g = table.config();
    let map = table.terminal_map(&g);
    let sets = analyse(&g, k);
    format!("FIRST{} FOLLOW{}", show(&strings(&sets.first_nt[0], &map)), show(&strings(&sets.follow_nt[0], &map)))
}

fn slots(s: &Terminals) -> Vec<u16> {
    s.iter().collect()
}

fn main() {
    let mut epsilon = Terminals::eps(M);
    epsilon.push(CompiledTerminal(5)).unwrap();
    println!("push 5 onto epsilon: {} slots {:?}", epsilon.len(), slots(&epsilon));
    println!("push all ones onto [5]: {:?}", slots(&string(M, &[5, 7])));
    println!("make [9] at m 6: {:?}", slots(&string(M, &[9])));
    println!("join [1] at width 3 with [8] at width 4, k 2: {:?}", slots(&string(M, &[1]).k_concat(&string(14, &[8]), 2)));
    println!("push eleven: length {}", string(M, &[1; 11]).len());

    let new = set(1, None);
    let mut end = set(1, Some(&[&[0]]));
    println!("a new set is complete: {}", new.is_k_complete());
    println!("a set made of no strings is complete: {}", set(1, Some(&[])).is_k_complete());
    println!("{{[0]}} is complete: {}", end.is_k_complete());
    let (union, changed) = new.union(&end);
    println!("a new set united with {{[0]}} is complete: {}, changed: {changed}", union.is_k_complete());
    end.clear();
    println!("a cleared set is complete: {}", end.is_k_complete());

    let mut twice = set(2, None);
    twice.insert(tuple(1));
    twice.insert(tuple(2));
    println!("[5] made at k 1 and at k 2 in one set: {} members", twice.len());
    let raised = set(1, Some(&[&[5]])).set_k(2).k_concat(&set(2, Some(&[&[6]])), 2);
    let members: Vec<Vec<u16>> = raised.sorted().iter().map(|t| slots(t.terminals())).collect();
    println!("{{[5]}} raised from 1 to 2 and joined with {{[6]}}: {members:?}");

    let (narrow, wide) = (string(0, &[0]), string(1, &[0]));
    println!("[0] at width 1 and at width 2: order {:?}, equal {}", narrow.cmp(&wide), narrow == wide);
    let (a, b) = (end_at(0), end_at(1));
    println!("{{[0]}} at width 1 and at width 2: union of {} members, intersection of {}, disjoint {}", a.union(&b).0.len(), a.intersection(&b).len(), a.is_disjoint(&b));

    println!("S -> nothing | 5 at k 0: {}", engine(0));
    std::panic::set_hook(Box::new(|_| ()));
    println!("S -> nothing | 5 at k 11: {}", std::panic::catch_unwind(|| engine(11)).unwrap_or("panics".to_owned()));
}
