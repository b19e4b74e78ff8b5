//! Estimators: how many steps a plan takes at least.
use super::session::{DocketRow, Max, Session, NONE};
use super::task::{State, Task};

pub trait Estimator {
    fn estimate(&mut self, state: &State) -> u32;
}

pub struct Blind;

impl Estimator for Blind {
    fn estimate(&mut self, _state: &State) -> u32 {
        0
    }
}

/// A session under the max rule, moved from state to state.
pub struct SessionEstimator {
    pub session: Session<Max>,
    docket: Vec<DocketRow>,
}

impl SessionEstimator {
    pub fn new(task: Task) -> SessionEstimator {
        let docket = vec![DocketRow::default(); 2 * task.items()];
        let start = task.start_state();
        SessionEstimator { session: Session::open(task, Max, start), docket }
    }
}

impl Estimator for SessionEstimator {
    fn estimate(&mut self, state: &State) -> u32 {
        let held = self.session.state();
        for word in 0..4 {
            let mut differ = held.0[word] ^ state.0[word];
            while differ != 0 {
                let fact = (word * 64) as u8 + differ.trailing_zeros() as u8;
                differ &= differ - 1;
                // A fact beyond the task is refused, and so passed over.
                let _ = if state.stands(fact) { self.session.enter(fact) } else { self.session.strike(fact) };
            }
        }
        self.session.settle(&mut self.docket).expect("two rows for each item");
        self.session.goal_figure().unwrap_or(NONE)
    }
}

/// The larger figure of two.
pub struct Larger<P, Q>(pub P, pub Q);

impl<P: Estimator, Q: Estimator> Estimator for Larger<P, Q> {
    fn estimate(&mut self, state: &State) -> u32 {
        self.0.estimate(state).max(self.1.estimate(state))
    }
}

/// Holds the last 16 different states asked, the latest first.
pub struct Keeping<E> {
    pub inner: E,
    kept: Vec<(State, u32)>,
}

impl<E> Keeping<E> {
    pub fn new(inner: E) -> Keeping<E> {
        Keeping { inner, kept: Vec::with_capacity(16) }
    }
}

impl<E: Estimator> Estimator for Keeping<E> {
    fn estimate(&mut self, state: &State) -> u32 {
        if let Some(at) = self.kept.iter().position(|(kept, _)| kept == state) {
            self.kept[..=at].rotate_right(1);
            return self.kept[0].1;
        }
        let figure = self.inner.estimate(state);
        self.kept.truncate(15);
        self.kept.insert(0, (*state, figure));
        figure
    }
}
