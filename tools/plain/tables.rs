//! A table of entries under keys that stand in the entries themselves, so that a slot is a hash and a number.

use std::collections::hash_map::RandomState;
use std::hash::{BuildHasher, Hasher};

/// What keys are hashed under: drawn anew in each run, so that nobody can choose keys that fall together.
#[derive(Clone, Copy)]
pub struct Seeds(u64, u64);

#[inline]
fn folded(x: u64, y: u64) -> u64 {
    let product = u128::from(x) * u128::from(y);
    product as u64 ^ (product >> 64) as u64
}

#[inline]
fn word(bytes: &[u8]) -> u64 {
    u64::from_le_bytes([bytes[0], bytes[1], bytes[2], bytes[3], bytes[4], bytes[5], bytes[6], bytes[7]])
}

impl Seeds {
    pub fn new() -> Seeds {
        let drawn = || RandomState::new().build_hasher().finish();
        Seeds(drawn(), drawn())
    }

    /// The hash of two words.
    #[inline]
    pub fn of(self, high: u64, low: u64) -> u32 {
        (folded(folded(high ^ self.0, low ^ self.1), self.0) >> 32) as u32
    }

    /// The hash of sixteen bytes or more.
    #[inline]
    pub fn of_bytes(self, bytes: &[u8]) -> u32 {
        let mut hash = self.0 ^ bytes.len() as u64;
        for part in bytes.chunks_exact(16) {
            hash = folded(word(part) ^ self.1, word(&part[8..]) ^ hash);
        }
        let last = &bytes[bytes.len() - 16..];
        hash = folded(word(last) ^ self.1, word(&last[8..]) ^ hash);
        (folded(hash, self.0) >> 32) as u32
    }

    /// The hash of what stands behind the header of a datagram, sixteen bytes or more, on the way to those below.
    #[inline]
    pub fn of_body(self, body: &[u8]) -> u64 {
        let mut hash = self.0 ^ body.len() as u64;
        let parts = body.chunks_exact(16);
        let is_whole = parts.remainder().is_empty();
        for part in parts {
            hash = folded(word(part) ^ self.1, word(&part[8..]) ^ hash);
        }
        if !is_whole {
            let last = &body[body.len() - 16..];
            hash = folded(word(last) ^ self.1, word(&last[8..]) ^ hash);
        }
        hash
    }

    /// The hash of a datagram with this header, of which the rest is hashed.
    #[inline]
    pub fn behind_header(self, header: &[u8], body: u64) -> u32 {
        let hash = folded(word(header) ^ self.1, word(&header[4..]) ^ body);
        (folded(hash, self.0) >> 32) as u32
    }
}

/// Slots with the hash of a key above the number of its entry and one; 0 where nothing is.
pub struct Table {
    slots: Vec<u64>,
    count: usize,
}

impl Table {
    /// A table with room for so many entries.
    pub fn new(room: usize) -> Table {
        Table { slots: vec![0; (room * 4 / 3 + 1).next_power_of_two().max(1 << 10)], count: 0 }
    }

    #[inline]
    fn slot_of(&self, hash: u32, is_it: impl Fn(u32) -> bool) -> usize {
        let mask = self.slots.len() - 1;
        let mut at = hash as usize & mask;
        loop {
            let slot = self.slots[at];
            if slot == 0 || ((slot >> 32) as u32 == hash && is_it(slot as u32 - 1)) {
                return at;
            }
            at = (at + 1) & mask;
        }
    }

    /// The entry under a hash that is the one.
    #[inline]
    pub fn find(&self, hash: u32, is_it: impl Fn(u32) -> bool) -> Option<u32> {
        (self.slots[self.slot_of(hash, is_it)] as u32).checked_sub(1)
    }

    /// The entry under a hash that is the one; where there is none, this one from now on.
    #[inline]
    pub fn find_or_put(&mut self, hash: u32, number: u32, is_it: impl Fn(u32) -> bool) -> Option<u32> {
        let at = self.slot_of(hash, is_it);
        if self.slots[at] != 0 {
            return Some(self.slots[at] as u32 - 1);
        }
        self.slots[at] = u64::from(hash) << 32 | u64::from(number + 1);
        self.count += 1;
        if self.count * 4 > self.slots.len() * 3 {
            self.grow();
        }
        None
    }

    fn grow(&mut self) {
        let old = std::mem::take(&mut self.slots);
        self.slots = vec![0; 2 * old.len()];
        let mask = self.slots.len() - 1;
        for slot in old.into_iter().filter(|slot| *slot != 0) {
            let mut at = (slot >> 32) as usize & mask;
            while self.slots[at] != 0 {
                at = (at + 1) & mask;
            }
            self.slots[at] = slot;
        }
    }
}
