//! A set of keys in the order found, cheap to empty.

use super::Key;

/// Keys stand in `keys` in the order found; `slots` holds their indices plus
/// one, by hash, together with the round in which they were put in.
pub struct KeySet {
    keys: Vec<Key>,
    slots: Vec<(u32, u32)>,
    round: u32,
}

impl Default for KeySet {
    fn default() -> KeySet {
        KeySet::new()
    }
}

impl KeySet {
    pub fn new() -> KeySet {
        KeySet {
            keys: Vec::new(),
            slots: vec![(0, 0); 1 << 10],
            round: 0,
        }
    }

    pub fn clear(&mut self) {
        self.keys.clear();
        self.round += 1;
    }

    pub fn len(&self) -> usize {
        self.keys.len()
    }

    pub fn is_empty(&self) -> bool {
        self.keys.is_empty()
    }

    pub fn key(&self, at: usize) -> Key {
        self.keys[at]
    }

    /// Puts a key in; whether it is new.
    pub fn insert(&mut self, key: Key) -> bool {
        if 2 * self.keys.len() >= self.slots.len() {
            self.grow();
        }
        let slot = self.find(key);
        let (index, round) = self.slots[slot];
        if round == self.round && index != 0 {
            return false;
        }
        self.keys.push(key);
        self.slots[slot] = (self.keys.len() as u32, self.round);
        true
    }

    /// The slot of this key, or the empty one where it belongs.
    fn find(&self, key: Key) -> usize {
        let mask = self.slots.len() - 1;
        let both = (key as u64) ^ ((key >> 64) as u64).rotate_left(29);
        let mut slot = (both.wrapping_mul(0x9E37_79B9_7F4A_7C15) >> 32) as usize & mask;
        loop {
            let (index, round) = self.slots[slot];
            let empty = round != self.round || index == 0;
            if empty || self.keys[index as usize - 1] == key {
                return slot;
            }
            slot = (slot + 1) & mask;
        }
    }

    fn grow(&mut self) {
        self.slots = vec![(0, 0); 2 * self.slots.len()];
        for at in 0..self.keys.len() {
            let slot = self.find(self.keys[at]);
            self.slots[slot] = (at as u32 + 1, self.round);
        }
    }
}
