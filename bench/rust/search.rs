//! Best-first search for a shortest plan.
use super::estimate::Estimator;
use super::heap::IndexedHeap;
use super::rows::{ByHash, Lookup, Row};
use super::session::NONE;
use super::task::{State, Task};

#[derive(Clone, Debug, PartialEq, Eq)]
pub enum Outcome {
    Plan { steps: Vec<u16>, used: usize },
    NoPlan { used: usize },
    RowsFull { used: usize },
}

#[derive(Clone, Copy, Debug, PartialEq, Eq)]
pub enum SearchRefusal {
    /// The first fact of the start that the task lacks.
    StateBeyond(u8),
    /// Rows not 1 to 65,535.
    RowsUnfit,
}

impl SearchRefusal {
    pub fn number(self) -> u8 {
        match self {
            SearchRefusal::StateBeyond(_) => 8,
            SearchRefusal::RowsUnfit => 15,
        }
    }
}

/// What a search works on: at most so many rows, their look-up, and the queue.
pub struct Board<L> {
    pub rows: Vec<Row>,
    capacity: usize,
    lookup: L,
    queue: IndexedHeap<(u32, u32)>,
}

impl<L: Lookup> Board<L> {
    pub fn new(capacity: usize) -> Board<L> {
        Board { rows: Vec::with_capacity(capacity), capacity, lookup: L::default(), queue: IndexedHeap::new(capacity) }
    }

    fn add(&mut self, under: usize, row: Row) {
        self.rows.push(row);
        self.lookup.add(&self.rows, under);
        self.enqueue(self.rows.len() - 1);
    }

    fn enqueue(&mut self, at: usize) {
        let row = &self.rows[at];
        if row.estimate != NONE {
            self.queue.put(at, (row.steps + row.estimate, row.estimate));
        }
    }

    fn open<E: Estimator>(&mut self, task: &Task, est: &mut E, i: usize) -> bool {
        self.rows[i].opened = true;
        let Row { state, steps, .. } = self.rows[i];
        for (k, action) in task.actions.iter().enumerate() {
            if !state.covers(&action.needs) {
                continue;
            }
            let next = state.changed(&action.deletes, &action.adds);
            match self.lookup.find(&self.rows, &next) {
                Ok(at) => {
                    if steps + 1 < self.rows[at].steps {
                        let row = &mut self.rows[at];
                        (row.steps, row.from, row.action) = (steps + 1, i as u16, k as u16);
                        self.enqueue(at);
                    }
                }
                Err(_) if self.rows.len() == self.capacity => return false,
                Err(under) => {
                    let estimate = est.estimate(&next);
                    self.add(under, Row { state: next, steps: steps + 1, estimate, from: i as u16, action: k as u16, opened: false });
                }
            }
        }
        true
    }

    fn plan_to(&self, mut i: usize) -> Vec<u16> {
        let mut steps = Vec::new();
        while i != 0 {
            steps.push(self.rows[i].action);
            i = self.rows[i].from as usize;
        }
        steps.reverse();
        steps
    }

    fn run<E: Estimator>(&mut self, task: &Task, est: &mut E) -> Outcome {
        while let Some((i, _)) = self.queue.take() {
            if self.rows[i].state.covers(&task.wanted) {
                return Outcome::Plan { steps: self.plan_to(i), used: self.rows.len() };
            }
            if !self.open(task, est, i) {
                return Outcome::RowsFull { used: self.rows.len() };
            }
        }
        Outcome::NoPlan { used: self.rows.len() }
    }
}

/// Searches on a board, whose old rows are cleared away first; afterwards its rows are those of this search.
pub fn search_on<E: Estimator, L: Lookup>(task: &Task, start: &State, est: &mut E, board: &mut Board<L>) -> Result<Outcome, SearchRefusal> {
    if let Some(fact) = start.first_from(task.facts) {
        return Err(SearchRefusal::StateBeyond(fact));
    }
    if board.capacity == 0 || board.capacity > 65535 {
        return Err(SearchRefusal::RowsUnfit);
    }
    board.rows.clear();
    board.lookup.clear();
    let estimate = est.estimate(start);
    board.add(0, Row { state: *start, steps: 0, estimate, from: 0, action: 0, opened: false });
    let outcome = board.run(task, est);
    board.queue.clear();
    Ok(outcome)
}

/// Searches with so many rows, looked up by hash.
pub fn search<E: Estimator>(task: &Task, start: &State, est: &mut E, rows: usize) -> Result<Outcome, SearchRefusal> {
    search_on(task, start, est, &mut Board::<ByHash>::new(rows))
}
