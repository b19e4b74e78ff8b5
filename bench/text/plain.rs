// A plain reader of task texts, to compare with: the same format, the same limits, the same refusals, no proofs.
//   plain write          writes the largest legal text
//   plain TIMES < TEXT   reads the text so often, and prints nanoseconds and the items of all readings
use std::io::{Read, Write};
use std::time::Instant;

#[derive(Clone, Copy)]
struct List<const N: usize> {
    facts: [u8; N],
    count: usize,
}

impl<const N: usize> List<N> {
    fn of(bytes: &[u8]) -> List<N> {
        let mut facts = [0; N];
        facts[..bytes.len()].copy_from_slice(bytes);
        List { facts, count: bytes.len() }
    }

    fn words(&self) -> [u64; 4] {
        let mut words = [0; 4];
        for &f in &self.facts[..self.count] {
            words[(f / 64) as usize] |= 1 << (f % 64);
        }
        words
    }
}

#[allow(dead_code)]
struct Action {
    lists: [List<16>; 3],
    words: [[u64; 4]; 3],
}

#[allow(dead_code)]
struct Task {
    facts: u8,
    actions: Vec<Action>,
    goal: List<255>,
    start: List<255>,
}

#[derive(Debug)]
#[allow(dead_code)]
struct Fault {
    number: u8,
    line: usize,
    place: usize,
}

fn digit(c: u8) -> Option<u8> {
    match c {
        b'0'..=b'9' => Some(c - b'0'),
        b'a'..=b'f' => Some(c - b'a' + 10),
        _ => None,
    }
}

// The bytes of the line at the text's beginning, into `bytes`, and the rest of the text; or number and place of its fault.
fn line<'a>(text: &'a [u8], bytes: &mut Vec<u8>) -> Result<&'a [u8], (u8, usize)> {
    bytes.clear();
    let mut high = None;
    for (k, &c) in text.iter().enumerate() {
        if c == b'\n' {
            return if k == 0 || high.is_some() { Err((1, k + 1)) } else { Ok(&text[k + 1..]) };
        }
        let Some(v) = digit(c) else { return Err((1, k + 1)) };
        if k == 514 {
            return Err((2, 515));
        }
        match high.take() {
            None => high = Some(v),
            Some(h) => bytes.push(h * 16 + v),
        }
    }
    Err((7, text.len() + 1))
}

fn falls(list: &[u8]) -> Option<usize> {
    list.windows(2).position(|w| w[1] <= w[0]).map(|k| k + 1)
}

fn rises(bytes: &[u8], ends: &[usize]) -> Result<(), (u8, usize)> {
    let mut from = ends[0];
    for &to in &ends[1..] {
        if let Some(k) = falls(&bytes[from..to]) {
            return Err((6, from + k));
        }
        from = to;
    }
    Ok(())
}

fn known(bytes: &[u8], from: usize, facts: u8) -> Result<(), (u8, usize)> {
    match bytes[from..].iter().position(|&f| f >= facts) {
        Some(k) => Err((5, from + k)),
        None => Ok(()),
    }
}

fn kind(bytes: &[u8], due: u8, whole: impl Fn(&[u8]) -> bool) -> Result<(), (u8, usize)> {
    if bytes[0] != due {
        return Err((3, 0));
    }
    if !whole(bytes) {
        return Err((4, bytes.len()));
    }
    Ok(())
}

fn action(bytes: &[u8], facts: u8) -> Result<Action, (u8, usize)> {
    kind(bytes, 2, |b| b.len() >= 4 && b.len() == 4 + b[1] as usize + b[2] as usize + b[3] as usize)?;
    if let Some(k) = bytes[1..4].iter().position(|&n| n > 16) {
        return Err((5, k + 1));
    }
    known(bytes, 4, facts)?;
    let a = 4 + bytes[1] as usize;
    let d = a + bytes[2] as usize;
    rises(bytes, &[4, a, d, bytes.len()])?;
    let lists = [List::of(&bytes[4..a]), List::of(&bytes[a..d]), List::of(&bytes[d..])];
    let words = [lists[0].words(), lists[1].words(), lists[2].words()];
    Ok(Action { lists, words })
}

fn listing(bytes: &[u8], due: u8, facts: u8) -> Result<List<255>, (u8, usize)> {
    kind(bytes, due, |b| b.len() >= 2 && b.len() == 2 + b[1] as usize)?;
    known(bytes, 2, facts)?;
    rises(bytes, &[2, bytes.len()])?;
    Ok(List::of(&bytes[2..]))
}

fn read(text: &[u8]) -> Result<Task, Fault> {
    let mut at = 1;
    read_lines(text, &mut at).map_err(|(number, place)| Fault { number, line: at, place })
}

fn read_lines(mut text: &[u8], at: &mut usize) -> Result<Task, (u8, usize)> {
    let mut bytes = Vec::with_capacity(257);
    text = line(text, &mut bytes)?;
    kind(&bytes, 1, |b| b.len() == 4)?;
    let facts = bytes[1];
    let wanted = bytes[2] as usize * 256 + bytes[3] as usize;
    if facts == 0 {
        return Err((5, 1));
    }
    if wanted > 512 {
        return Err((5, 2));
    }
    let mut actions = Vec::with_capacity(wanted);
    *at += 1;
    for _ in 0..wanted {
        text = line(text, &mut bytes)?;
        actions.push(action(&bytes, facts)?);
        *at += 1;
    }
    text = line(text, &mut bytes)?;
    let goal = listing(&bytes, 3, facts)?;
    *at += 1;
    text = line(text, &mut bytes)?;
    let start = listing(&bytes, 4, facts)?;
    *at += 1;
    text = line(text, &mut bytes)?;
    kind(&bytes, 5, |b| b.len() == 1)?;
    *at += 1;
    if !text.is_empty() {
        line(text, &mut bytes)?;
        return Err((3, 0));
    }
    Ok(Task { facts, actions, goal, start })
}

fn largest() -> String {
    let mut text = String::from("01ff0200\n");
    for k in 0..512usize {
        text.push_str("02101010");
        for l in 0..3 {
            let step = 1 + (k + l) % 15;
            for f in 0..16 {
                text.push_str(&format!("{:02x}", f * step + (k % 30)));
            }
        }
        text.push('\n');
    }
    for kind in ["03ff", "04ff"] {
        text.push_str(kind);
        for f in 0..255 {
            text.push_str(&format!("{f:02x}"));
        }
        text.push('\n');
    }
    text.push_str("05\n");
    text
}

fn main() {
    let word = std::env::args().nth(1).expect("plain write | plain TIMES");
    if word == "write" {
        std::io::stdout().write_all(largest().as_bytes()).unwrap();
        return;
    }
    let times: u32 = word.parse().unwrap();
    let mut text = Vec::new();
    std::io::stdin().read_to_end(&mut text).unwrap();
    let start = Instant::now();
    let mut items = 0usize;
    for _ in 0..times {
        match read(std::hint::black_box(&text)) {
            Ok(task) => items = items.wrapping_add(task.facts as usize + std::hint::black_box(&task).actions.len()),
            Err(fault) => panic!("refused: {fault:?}"),
        }
    }
    println!("{} {}", start.elapsed().as_nanos(), items);
}
