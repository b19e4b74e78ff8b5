//! The engine in plain Rust, with no proofs: the same formats, refusals and algorithms, to compare with.
//!
//! Use it as a crate root, or by `#[path = ".../engine.rs"] mod engine;`. The parts stand beside this file.
#![allow(dead_code, unused_imports)]

pub mod estimate;
pub mod heap;
pub mod make;
pub mod rows;
pub mod search;
pub mod session;
pub mod task;
pub mod text;

pub use estimate::{Blind, Estimator, Keeping, Larger, SessionEstimator};
pub use heap::{IndexedHeap, LazyHeap};
pub use make::{hanoi, largest, logistics, random_task, Limits, Random};
pub use rows::{ByHash, ByTree, Lookup, Row};
pub use search::{search, search_on, Board, Outcome, SearchRefusal};
pub use session::{goal_figure, solve, Additive, CostRule, DocketRow, Max, Session, SessionFault, CEILING, NONE};
pub use task::{Action, List, State, Task};
pub use text::{read, write, Fault};
