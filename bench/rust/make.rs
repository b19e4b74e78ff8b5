//! Tasks to measure and to compare on.
use super::task::{Action, State, Task};

/// A fixed pseudo-random sequence.
pub struct Random(u64);

impl Random {
    pub fn new(seed: u64) -> Random {
        Random(seed.wrapping_mul(0x9e37_79b9_7f4a_7c15) | 1)
    }

    pub fn next(&mut self) -> u64 {
        self.0 ^= self.0 << 13;
        self.0 ^= self.0 >> 7;
        self.0 ^= self.0 << 17;
        self.0
    }

    /// Below the bound, which is not 0.
    pub fn below(&mut self, bound: usize) -> usize {
        ((self.next() >> 32) as usize * bound) >> 32
    }

    /// So many different facts below `facts`, rising.
    pub fn list(&mut self, facts: u8, count: usize) -> Vec<u8> {
        let mut state = State::default();
        let mut left = count.min(facts as usize);
        while left > 0 {
            left -= state.insert(self.below(facts as usize) as u8) as usize;
        }
        (0..facts).filter(|&f| state.stands(f)).collect()
    }
}

/// How large a random task is: facts, actions, the longest lists, and the facts of start and goal.
#[derive(Clone, Copy, Debug)]
pub struct Limits {
    pub facts: u8,
    pub actions: usize,
    pub pre: usize,
    pub add: usize,
    pub del: usize,
    pub start: usize,
    pub goal: usize,
}

impl Limits {
    /// The largest task with the longest lists.
    pub const FULL: Limits = Limits { facts: 255, actions: 512, pre: 16, add: 16, del: 16, start: 96, goal: 16 };
}

/// Every action's lists are random, each of 0 to its longest length.
pub fn random_task(seed: u64, limits: Limits) -> Task {
    let mut random = Random::new(seed);
    let facts = limits.facts;
    let mut actions = Vec::new();
    for _ in 0..limits.actions {
        let [pre, add, del] = [limits.pre, limits.add, limits.del].map(|most| {
            let count = random.below(most + 1);
            random.list(facts, count)
        });
        actions.push(Action::of(&pre, &add, &del));
    }
    let goal = random.list(facts, limits.goal);
    let start = random.list(facts, limits.start);
    Task::of(facts, actions, &goal, &start)
}

fn sorted(mut facts: Vec<u8>) -> Vec<u8> {
    facts.sort_unstable();
    facts
}

/// Trucks on a ring road carry packages between places; start and goal places are random.
/// None where the task would be too large.
pub fn logistics(seed: u64, packages: usize, trucks: usize, places: usize) -> Option<Task> {
    let facts = packages * places + packages * trucks + trucks * places;
    let roads = if places > 2 { 2 } else { places - 1 };
    let count = 2 * packages * trucks * places + trucks * places * roads;
    if facts == 0 || facts > 255 || count > 512 {
        return None;
    }
    let at = |p: usize, l: usize| (p * places + l) as u8;
    let inside = |p: usize, t: usize| (packages * places + p * trucks + t) as u8;
    let parked = |t: usize, l: usize| (packages * (places + trucks) + t * places + l) as u8;
    let mut actions = Vec::new();
    for t in 0..trucks {
        for l in 0..places {
            for step in [1, places - 1].into_iter().take(roads) {
                let to = (l + step) % places;
                actions.push(Action::of(&[parked(t, l)], &[parked(t, to)], &[parked(t, l)]));
            }
            for p in 0..packages {
                actions.push(Action::of(&[at(p, l), parked(t, l)], &[inside(p, t)], &[at(p, l)]));
                actions.push(Action::of(&[inside(p, t), parked(t, l)], &[at(p, l)], &[inside(p, t)]));
            }
        }
    }
    let mut random = Random::new(seed);
    let goal = sorted((0..packages).map(|p| at(p, random.below(places))).collect());
    let mut start: Vec<u8> = (0..packages).map(|p| at(p, random.below(places))).collect();
    start.extend((0..trucks).map(|t| parked(t, random.below(places))));
    Some(Task::of(facts as u8, actions, &goal, &sorted(start)))
}

/// The Towers of Hanoi, 3 facts and 6 actions a disc: disc d moves from one peg to another when all smaller ones are on the third.
/// With a goal that no state has, if it is to be unsolvable. At most 16 discs.
pub fn hanoi(discs: usize, solvable: bool) -> Task {
    let on = |d: usize, peg: usize| (3 * d + peg) as u8;
    let mut actions = Vec::new();
    for d in 0..discs.min(16) {
        for from in 0..3 {
            for to in (0..3).filter(|&to| to != from) {
                let smaller = (0..d).map(|e| on(e, 3 - from - to));
                let pre: Vec<u8> = smaller.chain([on(d, from)]).collect();
                actions.push(Action::of(&pre, &[on(d, to)], &[on(d, from)]));
            }
        }
    }
    let start: Vec<u8> = (0..discs).map(|d| on(d, 0)).collect();
    let mut goal: Vec<u8> = (0..discs).map(|d| on(d, 2)).collect();
    if !solvable {
        goal.insert(0, on(0, 1));
    }
    Task::of(3 * discs as u8, actions, &goal, &start)
}

/// The task of the largest legal text: every list is as long as it can be.
pub fn largest() -> Task {
    let list = |k: usize, l: usize| -> Vec<u8> { (0..16).map(|f| (f * (1 + (k + l) % 15) + k % 30) as u8).collect() };
    let actions = (0..512).map(|k| Action::of(&list(k, 0), &list(k, 1), &list(k, 2))).collect();
    let all: Vec<u8> = (0..255).collect();
    Task::of(255, actions, &all, &all)
}
