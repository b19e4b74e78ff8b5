// The programs `table`, `figures` and `plan` in plain Rust, so that what they print can be compared, and a writer of tasks.
//   same write random SEED | logistics SEED PACKAGES TRUCKS PLACES | hanoi DISCS [unsolvable] | small SEED | broken SEED | largest
//   same table < TEXT · same figures CALL.. < TEXT · same plan < TEXT
#[path = "engine.rs"]
mod engine;
use engine::*;
use std::io::{Read, Write};

fn words(figure: u32) -> String {
    if figure == NONE { "none".into() } else { figure.to_string() }
}

fn item_words(task: &Task, item: usize) -> String {
    let facts = task.facts as usize;
    if item < facts { format!("fact {item}") } else { format!("action {}", item - facts) }
}

fn table(task: &Task) {
    println!("figures of {} facts and {} actions", task.facts, task.actions.len());
    let start = task.start_state();
    let (sums, largest) = (solve(task, &start, Additive), solve(task, &start, Max));
    for item in 0..task.items() {
        println!("{}: additive {}, max {}", item_words(task, item), words(sums[item]), words(largest[item]));
    }
    let goals = (goal_figure(Additive, task, &sums), goal_figure(Max, task, &largest));
    println!("goal figure: additive {}, max {}", words(goals.0), words(goals.1));
}

fn figures(task: Task, calls: &[String]) {
    let mut docket = vec![DocketRow::default(); 1534];
    let start = task.start_state();
    let mut session = Session::open(task, Additive, start);
    let mut calls = calls.iter();
    while let Some(call) = calls.next() {
        let mut number = || calls.next().unwrap().parse::<usize>().unwrap();
        let (said, answer) = match call.as_str() {
            "enter" | "strike" => {
                let fact = number();
                let told = if call == "enter" { session.enter(fact as u8) } else { session.strike(fact as u8) };
                (format!("{call} {fact}"), told.map(|changed| if changed { "changed".to_string() } else { "as it was".to_string() }))
            }
            "settle" => {
                let wrote = session.settle(&mut docket).map(|n| {
                    let rows = docket[..n].iter();
                    let rows = rows.map(|r| format!("\n  {}: {} to {}", item_words(session.task(), r.item as usize), words(r.before), words(r.after)));
                    format!("{n} rows{}", rows.collect::<String>())
                });
                ("settle".to_string(), wrote)
            }
            "figure" => {
                let item = number();
                (format!("figure {item}"), session.figure(item).map(words))
            }
            _ => ("goal figure".to_string(), session.goal_figure().map(words)),
        };
        match answer {
            Ok(answer) => println!("{said}: {answer}"),
            Err(fault) => println!("{said}: refused {}", fault.number()),
        }
    }
}

fn plan(task: &Task) {
    let start = task.start_state();
    let figures = (solve(task, &start, Additive), solve(task, &start, Max));
    let hex = |figure: u32| if figure == NONE { u32::MAX } else { figure };
    let goals = (goal_figure(Additive, task, &figures.0), goal_figure(Max, task, &figures.1));
    println!("11{:08x}{:08x}", hex(goals.0), hex(goals.1));
    let mut est = Keeping::new(Larger(SessionEstimator::new(task.clone()), Blind));
    let outcome = search(task, &start, &mut est, 1024).unwrap();
    let by_tree = search_on(task, &start, &mut Blind, &mut Board::<ByTree>::new(1024)).unwrap();
    let by_hash = search(task, &start, &mut Blind, 1024).unwrap();
    assert_eq!(by_tree, by_hash);
    match outcome {
        Outcome::Plan { steps, .. } => {
            let steps: String = std::iter::once(steps.len() as u16).chain(steps).map(|s| format!("{s:04x}")).collect();
            println!("12{steps}");
        }
        Outcome::NoPlan { .. } => println!("13"),
        Outcome::RowsFull { .. } => println!("14"),
    }
}

// One byte of a small task's text is changed, taken out or put in.
fn broken(seed: u64) -> Vec<u8> {
    let mut random = Random::new(seed);
    let mut text = write(&small(seed));
    let at = random.below(text.len());
    let byte = b"0123456789abcdef\ngA5"[random.below(20)];
    match random.below(4) {
        0 => text.insert(at, byte),
        1 => drop(text.remove(at)),
        2 => text.truncate(at),
        _ => text[at] = byte,
    }
    text
}

fn small(seed: u64) -> Task {
    let mut random = Random::new(seed ^ 0x5555);
    let facts = 1 + random.below(12) as u8;
    let limits = Limits { facts, actions: random.below(24), pre: 3, add: 3, del: 2, start: 3, goal: 1 + random.below(3) };
    random_task(seed, Limits { pre: limits.pre.min(facts as usize), add: limits.add.min(facts as usize), del: limits.del.min(facts as usize), ..limits })
}

fn main() {
    let args: Vec<String> = std::env::args().skip(1).collect();
    let number = |k: usize| args[k].parse::<u64>().unwrap();
    if args[0] == "write" {
        let text = match args[1].as_str() {
            "random" => write(&random_task(number(2), Limits::FULL)),
            "logistics" => write(&logistics(number(2), number(3) as usize, number(4) as usize, number(5) as usize).expect("too large")),
            "hanoi" => write(&hanoi(number(2) as usize, args.len() < 4)),
            "small" => write(&small(number(2))),
            "broken" => broken(number(2)),
            _ => write(&largest()),
        };
        std::io::stdout().write_all(&text).unwrap();
        return;
    }
    let mut text = Vec::new();
    std::io::stdin().read_to_end(&mut text).unwrap();
    match read(&text) {
        Ok(task) => match args[0].as_str() {
            "table" => table(&task),
            "figures" => figures(task, &args[1..]),
            _ => plan(&task),
        },
        Err(fault) => println!("15{:02x}{:04x}{:04x}", fault.number, fault.line, fault.place),
    }
}
