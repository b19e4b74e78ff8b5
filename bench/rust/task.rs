//! Tasks and states.

/// Which of 256 facts stand: fact f is bit f % 64 of word f / 64.
#[derive(Clone, Copy, PartialEq, Eq, Hash, Debug, Default)]
pub struct State(pub [u64; 4]);

impl State {
    pub fn of(facts: &[u8]) -> State {
        let mut state = State::default();
        for &f in facts {
            state.insert(f);
        }
        state
    }

    #[inline]
    pub fn stands(&self, fact: u8) -> bool {
        self.0[(fact / 64) as usize] >> (fact % 64) & 1 == 1
    }

    /// Makes the fact stand; tells whether it had not stood.
    #[inline]
    pub fn insert(&mut self, fact: u8) -> bool {
        let stood = self.stands(fact);
        self.0[(fact / 64) as usize] |= 1 << (fact % 64);
        !stood
    }

    /// Makes the fact fall; tells whether it had stood.
    #[inline]
    pub fn remove(&mut self, fact: u8) -> bool {
        let stood = self.stands(fact);
        self.0[(fact / 64) as usize] &= !(1 << (fact % 64));
        stood
    }

    #[inline]
    pub fn covers(&self, other: &State) -> bool {
        self.0.iter().zip(&other.0).all(|(a, b)| a & b == *b)
    }

    /// Without the facts of the first, then with those of the second.
    #[inline]
    pub fn changed(&self, deletes: &State, adds: &State) -> State {
        let mut next = *self;
        for i in 0..4 {
            next.0[i] = next.0[i] & !deletes.0[i] | adds.0[i];
        }
        next
    }

    /// The smallest fact that stands in one of the two only.
    pub fn first_difference(&self, other: &State) -> Option<u8> {
        (0..4).find(|&i| self.0[i] != other.0[i]).map(|i| (i * 64) as u8 + (self.0[i] ^ other.0[i]).trailing_zeros() as u8)
    }

    /// The first fact at or beyond the number that stands.
    pub fn first_from(&self, number: u8) -> Option<u8> {
        (number..=255).find(|&f| self.stands(f))
    }
}

/// At most N facts, strictly rising.
#[derive(Clone, Copy)]
pub struct List<const N: usize> {
    facts: [u8; N],
    count: usize,
}

impl<const N: usize> List<N> {
    pub fn of(facts: &[u8]) -> List<N> {
        let mut list = List { facts: [0; N], count: facts.len() };
        list.facts[..facts.len()].copy_from_slice(facts);
        list
    }

    #[inline]
    pub fn as_slice(&self) -> &[u8] {
        &self.facts[..self.count]
    }
}

/// What an action needs, adds and deletes: as lists, and as states for quick steps.
#[derive(Clone, Copy)]
pub struct Action {
    pub pre: List<16>,
    pub add: List<16>,
    pub del: List<16>,
    pub needs: State,
    pub adds: State,
    pub deletes: State,
}

impl Action {
    pub fn of(pre: &[u8], add: &[u8], del: &[u8]) -> Action {
        Action {
            pre: List::of(pre),
            add: List::of(add),
            del: List::of(del),
            needs: State::of(pre),
            adds: State::of(add),
            deletes: State::of(del),
        }
    }
}

#[derive(Clone)]
pub struct Task {
    pub facts: u8,
    pub actions: Vec<Action>,
    pub goal: List<255>,
    pub start: List<255>,
    pub wanted: State,
}

impl Task {
    pub fn of(facts: u8, actions: Vec<Action>, goal: &[u8], start: &[u8]) -> Task {
        Task { facts, actions, goal: List::of(goal), start: List::of(start), wanted: State::of(goal) }
    }

    pub fn items(&self) -> usize {
        self.facts as usize + self.actions.len()
    }

    pub fn start_state(&self) -> State {
        State::of(self.start.as_slice())
    }
}
