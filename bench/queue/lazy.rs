// The same calls on Rust's BinaryHeap with lazy deletion: lazy N.
use std::cmp::Reverse;
use std::collections::BinaryHeap;
use std::time::Instant;

type Key = (u32, u32);

fn key(item: u32, round: u32) -> Key {
    let x = (item.wrapping_mul(2_654_435_761) ^ round).wrapping_mul(2_246_822_519);
    (x >> 12, x & 0xfff)
}

struct Lazy {
    keys: Vec<Option<Key>>,
    heap: BinaryHeap<Reverse<(Key, usize)>>,
}

impl Lazy {
    fn put(&mut self, item: usize, key: Key) -> bool {
        if item >= self.keys.len() {
            return false;
        }
        self.keys[item] = Some(key);
        self.heap.push(Reverse((key, item)));
        true
    }

    // Entries that an item was re-keyed away from, or was taken under, are passed over.
    fn take(&mut self) -> Option<(usize, Key)> {
        while let Some(Reverse((key, item))) = self.heap.pop() {
            if self.keys[item] == Some(key) {
                self.keys[item] = None;
                return Some((item, key));
            }
        }
        None
    }
}

fn put_all(queue: &mut Lazy, items: u32, round: u32) -> u128 {
    let start = Instant::now();
    for item in 0..items {
        std::hint::black_box(queue.put(item as usize, key(item, round)));
    }
    start.elapsed().as_nanos()
}

fn main() {
    let items: u32 = std::env::args().nth(1).and_then(|n| n.parse().ok()).unwrap_or(1000);
    let mut queue = Lazy {
        keys: vec![None; items as usize],
        heap: BinaryHeap::with_capacity(2 * items as usize),
    };
    let puts = put_all(&mut queue, items, 0);
    let rekeys = put_all(&mut queue, items, 0x5bd1_e995);
    let start = Instant::now();
    let mut sum = 0u32;
    for _ in 0..items {
        if let Some((_, (first, second))) = queue.take() {
            sum = sum.wrapping_mul(31).wrapping_add(first).wrapping_add(second);
        }
    }
    println!("{puts} {rekeys} {} {sum}", start.elapsed().as_nanos());
}
