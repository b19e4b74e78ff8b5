//! Task texts: lines of hexadecimal, one frame a line.
use super::task::{Action, List, Task};

/// Why a text is refused: the refusal's number, the line from 1, the place in it.
#[derive(Clone, Copy, Debug, PartialEq, Eq)]
pub struct Fault {
    pub number: u8,
    pub line: usize,
    pub place: usize,
}

type Flaw = (u8, usize);

fn digit(c: u8) -> Option<u8> {
    match c {
        b'0'..=b'9' => Some(c - b'0'),
        b'a'..=b'f' => Some(c - b'a' + 10),
        _ => None,
    }
}

// The bytes of the line at the text's beginning, into `bytes`, and the rest of the text; or number and place of its flaw.
fn line<'a>(text: &'a [u8], bytes: &mut Vec<u8>) -> Result<&'a [u8], Flaw> {
    bytes.clear();
    let mut high = None;
    for (k, &c) in text.iter().enumerate() {
        if c == b'\n' {
            return if k == 0 || high.is_some() { Err((1, k + 1)) } else { Ok(&text[k + 1..]) };
        }
        let Some(v) = digit(c) else { return Err((1, k + 1)) };
        if k == 514 {
            return Err((2, 515));
        }
        match high.take() {
            None => high = Some(v),
            Some(h) => bytes.push(h * 16 + v),
        }
    }
    Err((7, text.len() + 1))
}

fn falls(list: &[u8]) -> Option<usize> {
    list.windows(2).position(|w| w[1] <= w[0]).map(|k| k + 1)
}

fn rises(bytes: &[u8], ends: &[usize]) -> Result<(), Flaw> {
    let mut from = ends[0];
    for &to in &ends[1..] {
        if let Some(k) = falls(&bytes[from..to]) {
            return Err((6, from + k));
        }
        from = to;
    }
    Ok(())
}

fn known(bytes: &[u8], from: usize, facts: u8) -> Result<(), Flaw> {
    match bytes[from..].iter().position(|&f| f >= facts) {
        Some(k) => Err((5, from + k)),
        None => Ok(()),
    }
}

fn kind(bytes: &[u8], due: u8, whole: impl Fn(&[u8]) -> bool) -> Result<(), Flaw> {
    if bytes[0] != due {
        return Err((3, 0));
    }
    if !whole(bytes) {
        return Err((4, bytes.len()));
    }
    Ok(())
}

fn action(bytes: &[u8], facts: u8) -> Result<Action, Flaw> {
    kind(bytes, 2, |b| b.len() >= 4 && b.len() == 4 + b[1] as usize + b[2] as usize + b[3] as usize)?;
    if let Some(k) = bytes[1..4].iter().position(|&n| n > 16) {
        return Err((5, k + 1));
    }
    known(bytes, 4, facts)?;
    let a = 4 + bytes[1] as usize;
    let d = a + bytes[2] as usize;
    rises(bytes, &[4, a, d, bytes.len()])?;
    Ok(Action::of(&bytes[4..a], &bytes[a..d], &bytes[d..]))
}

fn listing(bytes: &[u8], due: u8, facts: u8) -> Result<List<255>, Flaw> {
    kind(bytes, due, |b| b.len() >= 2 && b.len() == 2 + b[1] as usize)?;
    known(bytes, 2, facts)?;
    rises(bytes, &[2, bytes.len()])?;
    Ok(List::of(&bytes[2..]))
}

/// The task of a text, or its first fault.
pub fn read(text: &[u8]) -> Result<Task, Fault> {
    let mut at = 1;
    read_lines(text, &mut at).map_err(|(number, place)| Fault { number, line: at, place })
}

fn read_lines(mut text: &[u8], at: &mut usize) -> Result<Task, Flaw> {
    let mut bytes = Vec::with_capacity(257);
    text = line(text, &mut bytes)?;
    kind(&bytes, 1, |b| b.len() == 4)?;
    let facts = bytes[1];
    let wanted = bytes[2] as usize * 256 + bytes[3] as usize;
    if facts == 0 {
        return Err((5, 1));
    }
    if wanted > 512 {
        return Err((5, 2));
    }
    let mut actions = Vec::with_capacity(wanted);
    *at += 1;
    for _ in 0..wanted {
        text = line(text, &mut bytes)?;
        actions.push(action(&bytes, facts)?);
        *at += 1;
    }
    text = line(text, &mut bytes)?;
    let goal = listing(&bytes, 3, facts)?;
    *at += 1;
    text = line(text, &mut bytes)?;
    let start = listing(&bytes, 4, facts)?;
    *at += 1;
    text = line(text, &mut bytes)?;
    kind(&bytes, 5, |b| b.len() == 1)?;
    *at += 1;
    if !text.is_empty() {
        line(text, &mut bytes)?;
        return Err((3, 0));
    }
    Ok(Task::of(facts, actions, goal.as_slice(), start.as_slice()))
}

fn frame(out: &mut Vec<u8>, bytes: &[u8]) {
    const DIGITS: &[u8; 16] = b"0123456789abcdef";
    for b in bytes {
        out.push(DIGITS[(b >> 4) as usize]);
        out.push(DIGITS[(b & 15) as usize]);
    }
    out.push(b'\n');
}

/// The text of a task.
pub fn write(task: &Task) -> Vec<u8> {
    let mut out = Vec::new();
    let count = task.actions.len() as u16;
    frame(&mut out, &[1, task.facts, (count >> 8) as u8, count as u8]);
    for a in &task.actions {
        let lists = [a.pre.as_slice(), a.add.as_slice(), a.del.as_slice()];
        let mut bytes = vec![2, lists[0].len() as u8, lists[1].len() as u8, lists[2].len() as u8];
        bytes.extend(lists.concat());
        frame(&mut out, &bytes);
    }
    for (kind, list) in [(3, task.goal.as_slice()), (4, task.start.as_slice())] {
        let mut bytes = vec![kind, list.len() as u8];
        bytes.extend(list);
        frame(&mut out, &bytes);
    }
    frame(&mut out, &[5]);
    out
}
