//! Queues of items under keys: a binary heap that knows where each item is, and Rust's heap with lazy deletion.
use std::cmp::Reverse;
use std::collections::BinaryHeap;

const NOWHERE: u32 = u32::MAX;

/// Items below the capacity, each under at most one key.
pub struct IndexedHeap<K> {
    slots: Vec<(K, u32)>,
    places: Vec<u32>,
}

impl<K: Ord + Copy> IndexedHeap<K> {
    pub fn new(capacity: usize) -> IndexedHeap<K> {
        IndexedHeap { slots: Vec::with_capacity(capacity), places: vec![NOWHERE; capacity] }
    }

    pub fn capacity(&self) -> usize {
        self.places.len()
    }

    pub fn is_empty(&self) -> bool {
        self.slots.is_empty()
    }

    pub fn holds(&self, item: usize) -> bool {
        item < self.places.len() && self.places[item] != NOWHERE
    }

    /// Adds an item or gives it another key; false where the item is at or above the capacity.
    pub fn put(&mut self, item: usize, key: K) -> bool {
        if item >= self.places.len() {
            return false;
        }
        let p = self.places[item];
        if p == NOWHERE {
            self.slots.push((key, item as u32));
            self.rise(self.slots.len() - 1);
        } else {
            self.slots[p as usize].0 = key;
            self.move_from(p as usize);
        }
        true
    }

    /// Removes an item; tells whether it was held.
    pub fn remove(&mut self, item: usize) -> bool {
        if !self.holds(item) {
            return false;
        }
        let p = self.places[item] as usize;
        self.places[item] = NOWHERE;
        let last = self.slots.pop().unwrap();
        if p < self.slots.len() {
            self.slots[p] = last;
            self.move_from(p);
        }
        true
    }

    pub fn take(&mut self) -> Option<(usize, K)> {
        let &(key, item) = self.slots.first()?;
        self.remove(item as usize);
        Some((item as usize, key))
    }

    pub fn clear(&mut self) {
        for (_, item) in self.slots.drain(..) {
            self.places[item as usize] = NOWHERE;
        }
    }

    fn move_from(&mut self, p: usize) {
        if p > 0 && self.slots[p].0 < self.slots[(p - 1) / 2].0 {
            self.rise(p);
        } else {
            self.sink(p);
        }
    }

    fn set(&mut self, p: usize, entry: (K, u32)) {
        self.slots[p] = entry;
        self.places[entry.1 as usize] = p as u32;
    }

    fn rise(&mut self, mut p: usize) {
        let entry = self.slots[p];
        while p > 0 {
            let parent = (p - 1) / 2;
            if self.slots[parent].0 <= entry.0 {
                break;
            }
            self.set(p, self.slots[parent]);
            p = parent;
        }
        self.set(p, entry);
    }

    fn sink(&mut self, mut p: usize) {
        let entry = self.slots[p];
        let size = self.slots.len();
        while 2 * p + 1 < size {
            let mut child = 2 * p + 1;
            if child + 1 < size && self.slots[child + 1].0 < self.slots[child].0 {
                child += 1;
            }
            if entry.0 <= self.slots[child].0 {
                break;
            }
            self.set(p, self.slots[child]);
            p = child;
        }
        self.set(p, entry);
    }
}

/// The same by Rust's heap: entries that an item was re-keyed or taken away from stay, and are passed over.
pub struct LazyHeap<K> {
    keys: Vec<Option<K>>,
    heap: BinaryHeap<Reverse<(K, usize)>>,
}

impl<K: Ord + Copy> LazyHeap<K> {
    pub fn new(capacity: usize) -> LazyHeap<K> {
        LazyHeap { keys: vec![None; capacity], heap: BinaryHeap::with_capacity(2 * capacity) }
    }

    pub fn put(&mut self, item: usize, key: K) -> bool {
        if item >= self.keys.len() {
            return false;
        }
        self.keys[item] = Some(key);
        self.heap.push(Reverse((key, item)));
        true
    }

    pub fn take(&mut self) -> Option<(usize, K)> {
        while let Some(Reverse((key, item))) = self.heap.pop() {
            if self.keys[item] == Some(key) {
                self.keys[item] = None;
                return Some((item, key));
            }
        }
        None
    }
}
