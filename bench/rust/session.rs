//! Figures: sessions that keep them from state to state, and the table from nothing.
use super::heap::IndexedHeap;
use super::task::{State, Task};

pub const CEILING: u32 = 2_000_000;
/// Out of reach: above every number.
pub const NONE: u32 = CEILING + 1;

/// Makes one figure from the figures of listed facts.
pub trait CostRule: Copy {
    fn over(&self, figures: &[u32], facts: &[u8]) -> u32;
}

#[derive(Clone, Copy)]
pub struct Additive;

impl CostRule for Additive {
    #[inline]
    fn over(&self, figures: &[u32], facts: &[u8]) -> u32 {
        // 255 times 2,000,001 is far below the largest u32.
        facts.iter().map(|&f| figures[f as usize]).sum::<u32>().min(NONE)
    }
}

#[derive(Clone, Copy)]
pub struct Max;

impl CostRule for Max {
    #[inline]
    fn over(&self, figures: &[u32], facts: &[u8]) -> u32 {
        facts.iter().map(|&f| figures[f as usize]).max().unwrap_or(0)
    }
}

/// Half the rule's result over the goal; half of none is none.
pub fn goal_figure<R: CostRule>(rule: R, task: &Task, figures: &[u32]) -> u32 {
    match rule.over(figures, task.goal.as_slice()) {
        NONE => NONE,
        figure => figure / 2,
    }
}

/// A change of one item's figure.
#[derive(Clone, Copy, Debug, Default, PartialEq, Eq)]
pub struct DocketRow {
    pub item: u16,
    pub before: u32,
    pub after: u32,
}

#[derive(Clone, Copy, Debug, PartialEq, Eq)]
pub enum SessionFault {
    Unknown,
    Unsettled,
    DocketShort,
}

impl SessionFault {
    pub fn number(self) -> u8 {
        match self {
            SessionFault::Unknown => 8,
            SessionFault::Unsettled => 9,
            SessionFault::DocketShort => 10,
        }
    }
}

pub struct Session<R> {
    task: Task,
    rule: R,
    state: State,
    settled: bool,
    /// By fact, the items of the actions that add it.
    adders: Vec<Vec<u16>>,
    /// By item, the items whose equations read it.
    readers: Vec<Vec<u16>>,
    figures: Vec<u32>,
    sides: Vec<u32>,
    queue: IndexedHeap<u32>,
    /// How many right-hand sides were worked out so far.
    pub touched: u64,
}

fn one_more(figure: u32) -> u32 {
    (figure + 1).min(NONE)
}

impl<R: CostRule> Session<R> {
    /// Unsettled, with these facts standing and every figure none.
    pub fn open(task: Task, rule: R, state: State) -> Session<R> {
        let (facts, items) = (task.facts as usize, task.items());
        let mut adders = vec![Vec::new(); facts];
        let mut readers = vec![Vec::new(); items];
        for (k, action) in task.actions.iter().enumerate() {
            let item = (facts + k) as u16;
            for &f in action.add.as_slice() {
                adders[f as usize].push(item);
                readers[item as usize].push(f as u16);
            }
            for &f in action.pre.as_slice() {
                readers[f as usize].push(item);
            }
        }
        let queue = IndexedHeap::new(items);
        let (figures, sides) = (vec![NONE; items], vec![NONE; items]);
        let mut session = Session { task, rule, state, settled: false, adders, readers, figures, sides, queue, touched: 0 };
        for item in 0..items {
            session.refresh(item);
        }
        session
    }

    pub fn close(self) -> Task {
        self.task
    }

    pub fn task(&self) -> &Task {
        &self.task
    }

    pub fn state(&self) -> State {
        self.state
    }

    pub fn is_settled(&self) -> bool {
        self.settled
    }

    /// Makes a fact stand; tells whether it had not stood.
    pub fn enter(&mut self, fact: u8) -> Result<bool, SessionFault> {
        if fact >= self.task.facts {
            return Err(SessionFault::Unknown);
        }
        let changed = self.state.insert(fact);
        if changed {
            self.settled = false;
            self.refresh(fact as usize);
        }
        Ok(changed)
    }

    /// Makes a fact fall; tells whether it had stood.
    pub fn strike(&mut self, fact: u8) -> Result<bool, SessionFault> {
        if fact >= self.task.facts {
            return Err(SessionFault::Unknown);
        }
        let changed = self.state.remove(fact);
        if changed {
            self.settled = false;
            self.refresh(fact as usize);
        }
        Ok(changed)
    }

    /// Moves the figures to those of the facts that stand, with a row for each change; answers how many rows.
    pub fn settle(&mut self, docket: &mut [DocketRow]) -> Result<usize, SessionFault> {
        if docket.len() < 2 * self.figures.len() {
            return Err(SessionFault::DocketShort);
        }
        let mut rows = 0;
        while let Some((item, _)) = self.queue.take() {
            let (before, side) = (self.figures[item], self.sides[item]);
            let after = if before <= side { NONE } else { side };
            self.figures[item] = after;
            self.adjust(item);
            for r in 0..self.readers[item].len() {
                self.refresh(self.readers[item][r] as usize);
            }
            docket[rows] = DocketRow { item: item as u16, before, after };
            rows += 1;
        }
        self.settled = true;
        Ok(rows)
    }

    pub fn figure(&self, item: usize) -> Result<u32, SessionFault> {
        if item >= self.figures.len() {
            return Err(SessionFault::Unknown);
        }
        if !self.settled {
            return Err(SessionFault::Unsettled);
        }
        Ok(self.figures[item])
    }

    pub fn goal_figure(&self) -> Result<u32, SessionFault> {
        if !self.settled {
            return Err(SessionFault::Unsettled);
        }
        Ok(goal_figure(self.rule, &self.task, &self.figures))
    }

    // Works out the right-hand side of an item, and puts the item where it belongs.
    fn refresh(&mut self, item: usize) {
        self.touched += 1;
        let facts = self.task.facts as usize;
        self.sides[item] = if item >= facts {
            one_more(self.rule.over(&self.figures, self.task.actions[item - facts].pre.as_slice()))
        } else if self.state.stands(item as u8) {
            0
        } else {
            one_more(self.adders[item].iter().map(|&a| self.figures[a as usize]).min().unwrap_or(NONE))
        };
        self.adjust(item);
    }

    // In the queue are the items whose figure differs from its right-hand side, under the smaller of the two.
    fn adjust(&mut self, item: usize) {
        let (figure, side) = (self.figures[item], self.sides[item]);
        if figure == side {
            self.queue.remove(item);
        } else {
            self.queue.put(item, figure.min(side));
        }
    }
}

/// The figures of all items from nothing, by sweeps until nothing changes.
pub fn solve<R: CostRule>(task: &Task, state: &State, rule: R) -> Vec<u32> {
    let facts = task.facts as usize;
    let mut figures = vec![NONE; task.items()];
    loop {
        let mut changed = false;
        for item in 0..figures.len() {
            let side = if item >= facts {
                one_more(rule.over(&figures, task.actions[item - facts].pre.as_slice()))
            } else if state.stands(item as u8) {
                0
            } else {
                one_more(least_adder(task, &figures, item as u8))
            };
            changed |= side != figures[item];
            figures[item] = side;
        }
        if !changed {
            return figures;
        }
    }
}

fn least_adder(task: &Task, figures: &[u32], fact: u8) -> u32 {
    let actions = task.actions.iter().zip(&figures[task.facts as usize..]);
    actions.filter(|(action, _)| action.add.as_slice().contains(&fact)).map(|(_, &figure)| figure).min().unwrap_or(NONE)
}
