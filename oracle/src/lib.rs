//! The given Rust files, unchanged, under the module paths they expect, and shims for the rest.
//! They stand in given/, where build.sh copies them; nothing of theirs is kept here.
#![allow(unreachable_patterns, dead_code, private_interfaces, clippy::all)]

pub mod shim;
pub use shim::{
    GrammarAnalysisError, GrammarConfig, Pos, Pr, ProductionAttribute, Rhs, Symbol,
    SymbolAttribute, Terminal, TerminalKind, UserDefinedTypeName,
};

pub const MAX_K: usize = 10;

#[path = "../given/grammar"]
pub mod grammar {
    pub mod cfg;
    pub(crate) mod symbol_string;
    pub use cfg::Cfg;
}
pub use grammar::Cfg;

pub mod parser {
    pub mod parol_grammar {
        pub use crate::shim::LookaheadExpression;
    }
}

#[path = "../given/analysis"]
pub mod analysis {
    pub mod compiled_terminal;
    pub mod first;
    pub mod follow;
    pub mod k_decision;
    pub mod k_tuple;
    pub mod k_tuples;
    pub mod lookahead_dfa;
    pub(crate) mod terminals_trie;

    pub use compiled_terminal::CompiledTerminal;
    pub use first::{FirstSet, first_k};
    pub use follow::{FollowSet, follow_k};
    pub use k_decision::{FirstCache, FollowCache, calculate_lookahead_dfas, decidable};
    pub use k_tuple::{KTuple, KTupleBuilder};
    pub use k_tuples::{KTuples, KTuplesBuilder};
    pub use lookahead_dfa::LookaheadDFA;

    impl k_decision::CacheEntry {
        /// An entry that counts as present, for timing FOLLOW at one k alone.
        pub fn dummy() -> Self {
            let mut r = follow::ResultMap::default();
            r.insert((0, 0).into(), KTuplesBuilder::new().k(1).max_terminal_index(1).build().unwrap());
            Self { last_result: r, follow_set: FollowSet::default() }
        }
    }

    /// Reaches the crate-private ResultMap for the programs beside this library.
    pub fn follow_with_positions(
        g: &crate::GrammarConfig,
        k: usize,
        fi: &FirstCache,
        fo: &FollowCache,
    ) -> (Vec<(crate::Pos, KTuples)>, FollowSet) {
        let (r, f) = follow_k(g, k, fi, fo);
        let mut v: Vec<(crate::Pos, KTuples)> = r.into_iter().collect();
        v.sort_by_key(|(p, _)| *p);
        (v, f)
    }
}
pub use analysis::{
    CompiledTerminal, KTuple, KTupleBuilder, KTuples, KTuplesBuilder, LookaheadDFA,
};

pub mod table;
