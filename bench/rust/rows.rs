//! The rows of a search, and two ways to look a state up among them.
use super::task::State;
use std::collections::HashMap;

/// A state that was met, with the way to it.
#[derive(Clone, Copy, Debug)]
pub struct Row {
    pub state: State,
    pub steps: u32,
    pub estimate: u32,
    pub from: u16,
    pub action: u16,
    pub opened: bool,
}

pub trait Lookup: Default {
    /// The row of the state, or the row under which a new row of it belongs.
    fn find(&self, rows: &[Row], state: &State) -> Result<usize, usize>;
    /// Makes the newest row known.
    fn add(&mut self, rows: &[Row], under: usize);
    fn clear(&mut self);
}

/// The library's hash table, from states to rows.
#[derive(Default)]
pub struct ByHash(HashMap<State, u32>);

impl Lookup for ByHash {
    fn find(&self, _rows: &[Row], state: &State) -> Result<usize, usize> {
        self.0.get(state).map(|&row| row as usize).ok_or(0)
    }

    fn add(&mut self, rows: &[Row], _under: usize) {
        self.0.insert(rows[rows.len() - 1].state, rows.len() as u32 - 1);
    }

    fn clear(&mut self) {
        self.0.clear();
    }
}

// Look-ups of states in which the fact stands go on at the row `on`, others at `off`; 0 is nowhere.
#[derive(Clone, Copy, Default)]
struct Links {
    fact: u8,
    off: u16,
    on: u16,
}

/// A tree threaded through the rows, branching by single facts.
#[derive(Default)]
pub struct ByTree(Vec<Links>);

impl Lookup for ByTree {
    fn find(&self, rows: &[Row], state: &State) -> Result<usize, usize> {
        let mut i = 0;
        loop {
            if rows[i].state == *state {
                return Ok(i);
            }
            let links = self.0[i];
            let next = if state.stands(links.fact) { links.on } else { links.off };
            if next == 0 {
                return Err(i);
            }
            i = next as usize;
        }
    }

    fn add(&mut self, rows: &[Row], under: usize) {
        self.0.push(Links::default());
        let number = rows.len() - 1;
        if number == 0 {
            return;
        }
        let (upper, lower) = (rows[under].state, rows[number].state);
        let links = &mut self.0[under];
        if links.off == 0 && links.on == 0 {
            links.fact = upper.first_difference(&lower).unwrap_or(0);
        }
        if lower.stands(links.fact) {
            links.on = number as u16;
        } else {
            links.off = number as u16;
        }
    }

    fn clear(&mut self) {
        self.0.clear();
    }
}
