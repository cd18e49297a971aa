//! The lists of a replica: their elements in slots, each linked to its neighbours in the order of its list, and found by its id.
//! What of them is shown is told with the log, in `replica.rs`.

use super::text::*;
use std::collections::HashMap;
use std::hash::{BuildHasherDefault, Hash, Hasher};

/// An element: its id, the sum of the timestamp that it came with, its value and list, the chain of the log's deletes of it, how
/// deep it stands below the head, and its neighbours. It is gone where a stable message took it out.
#[derive(Clone)]
pub struct Element {
    pub id: Place, sum: u32, pub value: u32, pub list: u32, pub deletes: u32, depth: u32, prev: u32, next: u32, pub is_gone: bool,
}
impl Element {
    #[inline]
    fn rank(&self) -> u64 { (self.id.epoch as u64) << 40 | (self.sum as u64) << 8 | self.id.origin() as u64 }
}
/// The first element of a list, and the chain of the log's clears of it.
#[derive(Clone, Copy)]
pub struct Row { first: u32, pub clears: u32 }

/// Ids are hashed by one multiplication.
#[derive(Default)]
pub struct ByProduct(u64);
impl Hasher for ByProduct {
    fn write(&mut self, _: &[u8]) { unreachable!() }
    #[inline]
    fn write_u64(&mut self, v: u64) { self.0 = v.wrapping_mul(0x9e37_79b9_7f4a_7c15) }
    #[inline]
    fn finish(&self) -> u64 { self.0 ^ self.0 >> 32 }
}
impl Hash for Place {
    #[inline]
    fn hash<H: Hasher>(&self, state: &mut H) { state.write_u64((self.epoch as u64) << 32 | self.at as u64) }
}

#[derive(Clone, Default)]
pub struct Lists { slots: Vec<Element>, free: Vec<u32>, by_id: HashMap<Place, u32, BuildHasherDefault<ByProduct>>, rows: Vec<Row> }
impl Lists {
    #[inline]
    pub fn fit(&mut self, list: u32) {
        if list as usize >= self.rows.len() { self.rows.resize(list as usize + 1, Row { first: NONE, clears: 0 }); }
    }
    /// The slot of an element, whatever list it is of.
    #[inline]
    pub fn find(&self, id: Place) -> Option<u32> { self.by_id.get(&id).copied() }
    #[inline]
    pub fn get(&self, e: u32) -> &Element { &self.slots[e as usize] }
    #[inline]
    pub fn get_mut(&mut self, e: u32) -> &mut Element { &mut self.slots[e as usize] }
    #[inline]
    pub fn row_mut(&mut self, list: u32) -> &mut Row { &mut self.rows[list as usize] }
    /// The chain of the log's clears of a list.
    #[inline]
    pub fn clears(&self, list: u32) -> u32 { self.rows.get(list as usize).map_or(0, |row| row.clears) }
    #[inline]
    fn behind(&self, list: u32, e: u32) -> u32 { if e == NONE { self.rows[list as usize].first } else { self.get(e).next } }
    /// The slots of a list, in its order.
    pub fn slots_of(&self, list: u32) -> impl Iterator<Item = u32> + '_ {
        let mut e = self.rows.get(list as usize).map_or(NONE, |row| row.first);
        std::iter::from_fn(move || {
            let at = e;
            e = self.slots.get(at as usize)?.next;
            Some(at)
        })
    }

    /// Puts an element in behind another, or at the head: past those of higher rank, each of which came concurrently to that
    /// place, or stands below such a one.
    pub fn put(&mut self, list: u32, behind: Option<u32>, id: Place, sum: u32, value: u32) {
        let depth = behind.map_or(1, |e| self.get(e).depth + 1);
        let mut x = Element { id, sum, value, list, deletes: 0, depth, prev: behind.unwrap_or(NONE), next: NONE, is_gone: false };
        x.next = self.behind(list, x.prev);
        while x.next != NONE && self.get(x.next).rank() > x.rank() {
            x.prev = x.next;
            x.next = self.get(x.prev).next;
        }
        let (prev, next) = (x.prev, x.next);
        let e = match self.free.pop() {
            Some(e) => { self.slots[e as usize] = x; e }
            None => { self.slots.push(x); self.slots.len() as u32 - 1 }
        };
        self.link(list, prev, e);
        self.link(list, e, next);
        self.by_id.insert(id, e);
    }
    /// Makes two slots neighbours. `NONE` is what stands ahead of a list's first, and behind its last.
    #[inline]
    fn link(&mut self, list: u32, prev: u32, next: u32) {
        if prev == NONE { self.rows[list as usize].first = next } else { self.slots[prev as usize].next = next }
        if next != NONE { self.slots[next as usize].prev = prev }
    }
    /// Lets an element leave that is gone, unless something is kept below it. What stood ahead of it, where it left.
    pub fn leave(&mut self, e: u32) -> Option<u32> {
        let x = self.get(e);
        let (id, list, prev, next) = (x.id, x.list, x.prev, x.next);
        if !x.is_gone || next != NONE && self.get(next).depth > x.depth { return None; }
        self.link(list, prev, next);
        self.by_id.remove(&id);
        self.free.push(e);
        Some(prev)
    }
}
