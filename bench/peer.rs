// A replicated store of operations of the same behaviour as the proved program's scripts, as a plain engineer would write it
// for speed, without proofs: it measures speed, not right. A `give` offers the message itself, names are interned once for all
// replicas, and sums have 64 bits. `bench/scripts` builds it and runs it beside the proved program.
// Build: rustc --edition 2021 -C opt-level=3 peer.rs; it takes the word `script`.
mod plain;
use plain::{replica::*, script, text::*};

struct Member<N> { state: Replica<N>, early: Vec<Msg<N>> }
impl<N: Num> Member<N> {
    fn take(&mut self, m: &Msg<N>, names: &Names, steps: &mut Steps) {
        let ok = self.state.sound(m.origin, &m.tag, m.code);
        steps.push((m.origin, m.seq(), ok));
        if ok { self.state.deliver(m, names); }
        self.state.note_head(m.origin as usize);
    }
    fn receive(&mut self, m: &Msg<N>, names: &Names, steps: &mut Steps) -> Got {
        if let Some(g) = self.state.refuse(m.origin, &m.tag) { return g; }
        if !self.state.deliverable(m.origin, &m.tag) {
            let place = self.state.keep(m.origin, &m.tag);
            if place == self.early.len() { self.early.push(*m) } else { self.early[place] = *m }
            return Got::Kept;
        }
        self.take(m, names, steps);
        while let Some(place) = self.state.next_early(|at| &self.early[at].tag) {
            let m = self.early[place];
            self.take(&m, names, steps);
        }
        Got::Took
    }
}

struct World<N> { members: Vec<Member<N>>, sent: Vec<Vec<Msg<N>>>, names: Names, steps: Steps }
impl<N> World<N> {
    /// The names of an operation: that of its object and value, and the object's number.
    fn intern(&mut self, op: &RawOp) -> (u32, u32) {
        if op.code == 0 { return (NONE, NONE); }
        let (kind, _, arg) = CODES[op.code as usize - 1];
        let o = self.names.object(kind as u32, op.key, Names::hash(kind as u32, op.key));
        let obj = self.names.object_of(o);
        (if arg.has_value() { self.names.value(o, op.value, Names::hash(8 + o, op.value)) } else { o }, obj)
    }
}
impl<N: Num> script::World for World<N> {
    type N = N;
    fn open(n: usize, w: u32, limit: u32) -> Self {
        let member = |me| Member { state: Replica::new(me, n, w, limit), early: Vec::new() };
        World { members: (0..n).map(member).collect(), sent: (0..n).map(|_| Vec::new()).collect(), names: Names::new(), steps: Vec::new() }
    }
    fn replica(&self, r: usize) -> &Replica<N> { &self.members[r].state }
    fn steps(&mut self) -> &mut Steps { &mut self.steps }
    fn send(&mut self, r: usize, op: &RawOp) -> u32 {
        let names = self.intern(op);
        let state = &mut self.members[r].state;
        let m = Msg::new(r as u8, state.next_tag(), names, op.code, op.amount, op.element);
        state.deliver(&m, &self.names);
        self.sent[r].push(m);
        m.seq()
    }
    fn give(&mut self, r: usize, k: usize, number: usize) -> Option<Got> {
        let m = self.sent[k].get(number.wrapping_sub(1))?;
        Some(self.members[r].receive(m, &self.names, &mut self.steps))
    }
    /// What `r` has counted already would be refused as old, so it is passed over.
    fn offer(&mut self, r: usize, k: usize) -> bool {
        if r == k { return false; }
        let low = self.members[k].state.stable.at(k).max(self.members[r].state.counts.at(k)) as usize;
        let mut kept = false;
        for m in self.sent[k].iter().skip(low) { kept |= matches!(self.members[r].receive(m, &self.names, &mut self.steps), Got::Kept); }
        kept
    }
    fn receive(&mut self, r: usize, origin: u8, tag: Tag<N>, op: &RawOp) -> Got {
        let m = Msg::new(origin, tag, self.intern(op), op.code, op.amount, op.element);
        self.members[r].receive(&m, &self.names, &mut self.steps)
    }
    fn answer(&mut self, r: usize, kind: Kind, key: &[u8], out: &mut Vec<u8>) {
        let o = self.names.find(kind as u32, key, Names::hash(kind as u32, key)).ok();
        self.members[r].state.answer(o, kind, &self.names, out);
    }
    fn list(&mut self, r: usize, key: &[u8], asked: Asked, out: &mut Vec<u8>) {
        let o = self.names.find(List as u32, key, Names::hash(List as u32, key)).ok();
        self.members[r].state.put_list(o.map(|o| self.names.object_of(o)), asked, out);
    }
    fn regroup(&mut self, n: usize) {
        self.members.truncate(n);
        for member in &mut self.members {
            member.state.regroup(n);
            member.early.clear();
        }
        for me in self.members.len()..n {
            let state = self.members[0].state.newcomer(me);
            self.members.push(Member { state, early: Vec::new() });
        }
        self.sent = (0..n).map(|_| Vec::new()).collect();
    }
}

fn main() { script::main::<World<u16>, World<u32>>() }
