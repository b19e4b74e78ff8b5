// The measured work in plain Rust: what it prints is what our programs print, nanoseconds first.
//   bench text TIMES < TEXT                        items of all readings
//   bench queue indexed|lazy N                     n puts, n re-keys, n takes; a sum over the keys taken
//   bench session WAY RULE CHANGES SEED < TEXT     docket rows in all, a sum over the goal figures, and right-hand sides worked out
//   bench search ROWS ESTIMATOR LOOKUP < TEXT      how it ended, the plan's length, the rows used
//   bench plan < TEXT                              the program plan
#[path = "engine.rs"]
mod engine;
use engine::*;
use std::hint::black_box;
use std::io::Read;
use std::time::Instant;

fn input() -> Vec<u8> {
    let mut text = Vec::new();
    std::io::stdin().read_to_end(&mut text).unwrap();
    text
}

fn text(times: u32) {
    let text = input();
    let start = Instant::now();
    let mut items = 0;
    for _ in 0..times {
        items += black_box(read(black_box(&text)).expect("refused")).items();
    }
    println!("{} {items}", start.elapsed().as_nanos());
}

trait Queue {
    fn put(&mut self, item: usize, key: (u32, u32)) -> bool;
    fn take(&mut self) -> Option<(usize, (u32, u32))>;
}

macro_rules! queue {
    ($($name:ident)*) => { $(impl Queue for $name<(u32, u32)> {
        fn put(&mut self, item: usize, key: (u32, u32)) -> bool { self.put(item, key) }
        fn take(&mut self) -> Option<(usize, (u32, u32))> { self.take() }
    })* };
}

queue!(IndexedHeap LazyHeap);

// A fixed scattered key for an item.
fn key(item: u32, round: u32) -> (u32, u32) {
    let x = (item.wrapping_mul(2_654_435_761) ^ round).wrapping_mul(2_246_822_519);
    (x >> 12, x & 0xfff)
}

fn put_all(queue: &mut impl Queue, items: u32, round: u32) -> u128 {
    let start = Instant::now();
    for item in 0..items {
        black_box(queue.put(item as usize, key(item, round)));
    }
    start.elapsed().as_nanos()
}

fn queue(mut queue: impl Queue, items: u32) {
    let puts = put_all(&mut queue, items, 0);
    let rekeys = put_all(&mut queue, items, 0x5bd1_e995);
    let start = Instant::now();
    let mut sum = 0u32;
    for _ in 0..items {
        if let Some((_, (first, second))) = queue.take() {
            sum = sum.wrapping_mul(31).wrapping_add(first).wrapping_add(second);
        }
    }
    println!("{puts} {rekeys} {} {sum}", start.elapsed().as_nanos());
}

fn mixed(sum: u32, goal: u32) -> u32 {
    sum.wrapping_mul(31).wrapping_add(if goal == NONE { u32::MAX } else { goal })
}

fn flip(state: &mut State, fact: u8) {
    if !state.insert(fact) {
        state.remove(fact);
    }
}

// By turns any fact, and one that stands at the start; each is flipped back before the next.
struct Flips {
    random: Random,
    turn: u32,
    last: u8,
}

impl Flips {
    fn next(&mut self, task: &Task) -> u8 {
        let start = task.start.as_slice();
        match self.turn % 4 {
            0 => self.last = self.random.below(task.facts as usize) as u8,
            2 => self.last = start.get(self.random.below(start.len())).copied().unwrap_or(0),
            _ => {}
        }
        self.turn += 1;
        self.last
    }
}

fn flip_in<R: CostRule>(session: &mut Session<R>, fact: u8) {
    let _ = if session.state().stands(fact) { session.strike(fact) } else { session.enter(fact) };
}

fn session<R: CostRule>(task: Task, rule: R, way: &str, changes: u32, seed: u64) {
    let mut flips = Flips { random: Random::new(seed), turn: 0, last: 0 };
    let mut state = task.start_state();
    let mut docket = vec![DocketRow::default(); 2 * task.items()];
    let mut kept = Session::open(task.clone(), rule, state);
    kept.settle(&mut docket).unwrap();
    kept.touched = 0;
    let (mut rows, mut sum) = (0, 0);
    let start = Instant::now();
    for _ in 0..changes {
        let fact = flips.next(&task);
        if way == "kept" {
            flip_in(&mut kept, fact);
            rows += kept.settle(&mut docket).unwrap();
            sum = mixed(sum, kept.goal_figure().unwrap());
            continue;
        }
        flip(&mut state, fact);
        if way == "fresh" {
            let mut fresh = Session::open(task.clone(), rule, state);
            rows += fresh.settle(&mut docket).unwrap();
            sum = mixed(sum, fresh.goal_figure().unwrap());
        } else {
            sum = mixed(sum, goal_figure(rule, &task, &solve(&task, &state, rule)));
        }
    }
    println!("{} {rows} {sum} {}", start.elapsed().as_nanos(), kept.touched);
}

fn timed<L: Lookup>(task: &Task, est: &mut impl Estimator, rows: usize) {
    let mut board = Board::<L>::new(rows);
    let start = Instant::now();
    let outcome = search_on(task, &task.start_state(), est, &mut board).expect("refused");
    let took = start.elapsed().as_nanos();
    match outcome {
        Outcome::Plan { steps, used } => println!("{took} plan {} {used}", steps.len()),
        Outcome::NoPlan { used } => println!("{took} none 0 {used}"),
        Outcome::RowsFull { used } => println!("{took} full 0 {used}"),
    }
}

fn looked_up<L: Lookup>(task: &Task, rows: usize, estimator: &str) {
    match estimator {
        "blind" => timed::<L>(task, &mut Blind, rows),
        "session" => timed::<L>(task, &mut SessionEstimator::new(task.clone()), rows),
        _ => timed::<L>(task, &mut Keeping::new(Larger(SessionEstimator::new(task.clone()), Blind)), rows),
    }
}

// Both goal figures by sessions, then the search, as the program does it.
fn plan(task: &Task) {
    let mut docket = vec![DocketRow::default(); 2 * task.items()];
    let start = task.start_state();
    let hex = |figure: u32| if figure == NONE { u32::MAX } else { figure };
    let mut additive = Session::open(task.clone(), Additive, start);
    additive.settle(&mut docket).unwrap();
    let mut est = SessionEstimator::new(task.clone());
    est.session.settle(&mut docket).unwrap();
    println!("11{:08x}{:08x}", hex(additive.goal_figure().unwrap()), hex(est.session.goal_figure().unwrap()));
    match search(task, &start, &mut Keeping::new(Larger(est, Blind)), 1024).unwrap() {
        Outcome::Plan { steps, .. } => {
            let steps: String = std::iter::once(steps.len() as u16).chain(steps).map(|s| format!("{s:04x}")).collect();
            println!("12{steps}");
        }
        Outcome::NoPlan { .. } => println!("13"),
        Outcome::RowsFull { .. } => println!("14"),
    }
}

fn main() {
    let args: Vec<String> = std::env::args().skip(1).collect();
    let word = |k: usize| args[k].as_str();
    let number = |k: usize| args[k].parse::<u64>().unwrap();
    let task = || read(&input()).expect("refused");
    match word(0) {
        "text" => text(number(1) as u32),
        "queue" if word(1) == "lazy" => queue(LazyHeap::new(number(2) as usize), number(2) as u32),
        "queue" => queue(IndexedHeap::new(number(2) as usize), number(2) as u32),
        "session" if word(2) == "max" => session(task(), Max, word(1), number(3) as u32, number(4)),
        "session" => session(task(), Additive, word(1), number(3) as u32, number(4)),
        "search" if word(3) == "tree" => looked_up::<ByTree>(&task(), number(1) as usize, word(2)),
        "search" => looked_up::<ByHash>(&task(), number(1) as usize, word(2)),
        _ => plan(&task()),
    }
}
