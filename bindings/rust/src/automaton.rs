//! A reader's automaton, read from the bytes that `automata` leaves, and walked one terminal at a time.

/// A state: the production of a string that ends here, and where each terminal leads.
#[derive(Clone, Debug, PartialEq, Eq)]
pub struct State {
    pub production: Option<u64>,
    /// By rising terminal; a target is a later state.
    pub transitions: Vec<(u16, usize)>,
}

/// The states of one nonterminal; a reader starts in the first.
#[derive(Clone, Debug, PartialEq, Eq)]
pub struct Automaton {
    pub states: Vec<State>,
}

/// A number of one or two seven-bit groups, and the bytes behind it.
fn number(bytes: &[u8]) -> Option<(u64, &[u8])> {
    match *bytes {
        [low, ref rest @ ..] if low < 128 => Some((low.into(), rest)),
        [low, high, ref rest @ ..] if high < 128 => Some((u64::from(low) - 128 + 128 * u64::from(high), rest)),
        _ => None,
    }
}

fn state(bytes: &[u8]) -> Option<(State, &[u8])> {
    let (accepting, rest) = number(bytes)?;
    let (count, mut rest) = number(rest)?;
    let mut transitions = Vec::new();
    for _ in 0..count {
        let (terminal, behind) = number(rest)?;
        let (target, behind) = number(behind)?;
        transitions.push((terminal as u16, target as usize));
        rest = behind;
    }
    Some((State { production: accepting.checked_sub(1), transitions }, rest))
}

impl Automaton {
    /// The first automaton of some bytes, and the bytes behind it, where the next one begins; none where they end too early.
    pub fn read(bytes: &[u8]) -> Option<(Automaton, &[u8])> {
        let (count, mut rest) = number(bytes)?;
        let mut states = Vec::new();
        for _ in 0..count {
            let (s, behind) = state(rest)?;
            states.push(s);
            rest = behind;
        }
        Some((Automaton { states }, rest))
    }

    /// The automata of some bytes, one for each nonterminal; none where they end within one.
    pub fn read_all(mut bytes: &[u8]) -> Option<Vec<Automaton>> {
        let mut all = Vec::new();
        while !bytes.is_empty() {
            let (one, rest) = Automaton::read(bytes)?;
            all.push(one);
            bytes = rest;
        }
        Some(all)
    }

    /// Walks as far as the terminals lead, 0 being the end of a message: the production to take, as soon as there is one.
    pub fn predict(&self, ahead: impl IntoIterator<Item = u16>) -> Option<u64> {
        let mut at = self.states.first()?;
        let mut ahead = ahead.into_iter();
        while at.production.is_none() {
            let terminal = ahead.next()?;
            let place = at.transitions.binary_search_by_key(&terminal, |t| t.0).ok()?;
            at = self.states.get(at.transitions[place].1)?;
        }
        at.production
    }
}
