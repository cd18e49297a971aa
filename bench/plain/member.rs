//! A member with duties: its replica has names of its own, its messages carry whole names, and it keeps an outbox and a journal.
//! `../duties.rs` runs scripts with it, and `../mutex_live.rs` live inputs.

use crate::plain::{replica::*, text::*};
use std::collections::VecDeque;

// ---------------------------------------------------------------- messages
/// The bytes of a value that stands in the message itself.
const SHORT: usize = 22;
#[derive(Clone)]
pub enum Value { Short(u8, [u8; SHORT]), Long(Box<[u8]>) }
impl Value {
    #[inline(always)]
    pub fn of(bytes: &[u8]) -> Value {
        if bytes.len() > SHORT { return Value::Long(bytes.into()); }
        let mut short = [0; SHORT];
        short[..bytes.len()].copy_from_slice(bytes);
        Value::Short(bytes.len() as u8, short)
    }
    #[inline(always)]
    pub fn bytes(&self) -> &[u8] {
        match self { Value::Short(len, short) => &short[..*len as usize], Value::Long(bytes) => bytes }
    }
}
#[derive(Clone)]
pub struct Message<N> {
    pub tag: Tag<N>, key: [u8; 32], key_len: u8, pub origin: u8, pub code: u8, amount: u32, key_hash: u32, value_hash: u32, value: Value,
    element: Option<ElementId>,
}
impl<N: Num> Message<N> {
    #[inline(always)]
    pub fn of(origin: u8, tag: Tag<N>, op: &RawOp) -> Self {
        let mut key = [0; 32];
        key[..op.key.len()].copy_from_slice(op.key);
        let key_hash = if op.code == 0 { 0 } else { Names::hash(CODES[op.code as usize - 1].0 as u32, op.key) };
        let value_hash = if op.value.is_empty() { 0 } else { Names::hash(7, op.value) };
        let (value, element) = (Value::of(op.value), op.element);
        Message { tag, key, key_len: op.key.len() as u8, origin, code: op.code, amount: op.amount, key_hash, value_hash, value, element }
    }
    #[inline(always)]
    pub fn seq(&self) -> u32 { self.tag.at(self.origin as usize & 15) }
    #[inline(always)]
    fn key(&self) -> &[u8] { &self.key[..self.key_len as usize] }
    #[inline(always)]
    fn argument(&self) -> Arg { CODES[self.code as usize - 1].2 }
    /// The names of its object and value, and the object's number.
    #[inline(always)]
    fn intern(&self, names: &mut Names) -> (u32, u32) {
        if self.code == 0 { return (NONE, NONE); }
        let (kind, _, arg) = CODES[self.code as usize - 1];
        let o = names.object(kind as u32, self.key(), self.key_hash);
        let obj = names.object_of(o);
        if !arg.has_value() { return (o, obj); }
        (names.value(o, self.value.bytes(), self.value_hash ^ o.wrapping_mul(0x9e37_79b1)), obj)
    }
    #[inline(always)]
    pub fn frame(&self, n: usize, epoch: u32) -> Vec<u8> {
        let named = match self.code {
            0 => 0,
            _ => 2 + self.key_len as usize + match self.argument() {
                Arg::Nil => 0, Arg::Amt => 4, Arg::Val => 2 + self.value.bytes().len(), Arg::Id => 9,
                Arg::Put => 2 + self.value.bytes().len() + if self.element.is_some() { 10 } else { 1 },
            },
        };
        let mut frame = Vec::with_capacity(8 + 4 * n + named);
        self.encode(&mut frame, n, epoch);
        frame
    }
    #[inline(always)]
    fn encode(&self, out: &mut Vec<u8>, n: usize, epoch: u32) {
        let [a, b, c, d] = epoch.to_be_bytes();
        out.extend_from_slice(&[2, self.origin, n as u8, self.code, a, b, c, d]);
        for i in 0..n { out.extend_from_slice(&self.tag.at(i).to_be_bytes()); }
        if self.code == 0 { return; }
        out.extend_from_slice(&(self.key_len as u16).to_be_bytes());
        out.extend_from_slice(self.key());
        let arg = self.argument();
        if arg.has_value() {
            let value = self.value.bytes();
            out.extend_from_slice(&(value.len() as u16).to_be_bytes());
            out.extend_from_slice(value);
        }
        match arg {
            Arg::Nil | Arg::Val => return,
            Arg::Amt => return out.extend_from_slice(&self.amount.to_be_bytes()),
            Arg::Put => out.push(self.element.is_some() as u8),
            Arg::Id => {}
        }
        if let Some(ElementId { epoch, origin, seq }) = self.element {
            out.extend_from_slice(&epoch.to_be_bytes());
            out.push(origin);
            out.extend_from_slice(&seq.get().to_be_bytes());
        }
    }
}

// ---------------------------------------------------------------- one replica
/// A note of a journal, which a script's run only writes and copies: a message that was sent, one that was accepted, a step that took one,
/// or found that it can't be true, and an epoch that began, with its members and which of them this is.
#[allow(dead_code)]
#[derive(Clone)]
pub enum Note<N> { Sent(Message<N>), Kept(Message<N>), Took(u8, u32), Crook(u8, u32), Regroup(u32, u8, u8) }
pub struct Member<N> {
    pub state: Replica<N>, pub names: Names, pub early: Vec<Option<Message<N>>>, pub outbox: VecDeque<Message<N>>, pub journal: Vec<Note<N>>,
}
impl<N: Num> Member<N> {
    pub fn new(me: usize, n: usize, w: u32, limit: u32) -> Self {
        let state = Replica::new(me, n, w, limit);
        Member { state, names: Names::new(), early: Vec::new(), outbox: VecDeque::new(), journal: Vec::new() }
    }
    /// A member that begins with what this has, and with its journal.
    pub fn newcomer(&self, me: usize) -> Self {
        let (state, names, journal) = (self.state.newcomer(me), self.names.clone(), self.journal.clone());
        Member { state, names, early: Vec::new(), outbox: VecDeque::new(), journal }
    }
    fn deliver(&mut self, m: &Message<N>) {
        let names = m.intern(&mut self.names);
        self.state.deliver(&Msg::new(m.origin, m.tag, names, m.code, m.amount, m.element), &self.names);
        let stable = self.state.stable.at(self.state.me);
        while self.outbox.front().is_some_and(|m| m.seq() <= stable) { self.outbox.pop_front(); }
    }
    /// Sends an operation, or a no-op.
    #[inline(always)]
    pub fn send(&mut self, op: &RawOp) -> Message<N> {
        let m = Message::of(self.state.me as u8, self.state.next_tag(), op);
        self.journal.push(Note::Sent(m.clone()));
        self.outbox.push_back(m.clone());
        self.deliver(&m);
        m
    }
    pub fn note_epoch(&mut self) {
        let state = &self.state;
        self.journal.push(Note::Regroup(state.epoch, state.n as u8, state.me as u8));
    }
    fn take(&mut self, m: &Message<N>, steps: &mut Steps) {
        let ok = self.state.sound(m.origin, &m.tag, m.code);
        steps.push((m.origin, m.seq(), ok));
        self.journal.push(if ok { Note::Took(m.origin, m.seq()) } else { Note::Crook(m.origin, m.seq()) });
        if ok { self.deliver(m); }
        self.state.note_head(m.origin as usize);
    }
    pub fn receive(&mut self, m: &Message<N>, steps: &mut Steps) -> Got {
        if let Some(g) = self.state.refuse(m.origin, &m.tag) { return g; }
        self.journal.push(Note::Kept(m.clone()));
        if !self.state.deliverable(m.origin, &m.tag) {
            let place = self.state.keep(m.origin, &m.tag);
            if place == self.early.len() { self.early.push(Some(m.clone())) } else { self.early[place] = Some(m.clone()) }
            return Got::Kept;
        }
        self.take(m, steps);
        while let Some(place) = self.state.next_early(|at| &self.early[at].as_ref().unwrap().tag) {
            let m = self.early[place].take().unwrap();
            self.take(&m, steps);
        }
        Got::Took
    }
}
/// Offers to member `r` the outbox of `k`. What `r` has counted already would be refused as old, so it is passed over. Whether a
/// message was kept.
pub fn offer<N: Num>(members: &mut [Member<N>], r: usize, k: usize, steps: &mut Steps) -> bool {
    if r == k { return false; }
    let (low, high) = members.split_at_mut(r.max(k));
    let (to, from) = if r < k { (&mut low[r], &high[0]) } else { (&mut high[0], &low[k]) };
    // the number before the outbox's first
    let first = from.state.stable.at(k);
    let have = to.state.counts.at(k);
    let mut kept = false;
    for m in from.outbox.iter().skip(have.saturating_sub(first) as usize) { kept |= matches!(to.receive(m, steps), Got::Kept); }
    kept
}
