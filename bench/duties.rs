// A plain program, without proofs, with the duties of the proved one: each replica has names and tables of its own, a message
// carries whole names, each that is sent is encoded as a frame, `give` decodes it, and each replica keeps a journal. What it
// takes more than `peer.rs` is the price of these; what the proved program takes more is the price of proofs.
// `bench/scripts` builds it and runs it beside the proved program.
// Build: rustc --edition 2021 -C opt-level=3 duties.rs; it takes the word `script`.
#[path = "plain/member.rs"]
mod member;
mod plain;
use member::{Member, Message};
use plain::{replica::*, script, text::*};

// ---------------------------------------------------------------- the world of a script
struct World<N> { members: Vec<Member<N>>, sent: Vec<Vec<Vec<u8>>>, limit: u32, steps: Steps }
impl<N: Num> script::World for World<N> {
    type N = N;
    fn open(n: usize, w: u32, limit: u32) -> Self {
        World { members: (0..n).map(|me| Member::new(me, n, w, limit)).collect(), sent: (0..n).map(|_| Vec::new()).collect(), limit, steps: Vec::new() }
    }
    fn replica(&self, r: usize) -> &Replica<N> { &self.members[r].state }
    fn steps(&mut self) -> &mut Steps { &mut self.steps }
    fn send(&mut self, r: usize, op: &RawOp) -> u32 {
        let member = &mut self.members[r];
        let message = member.send(op);
        self.sent[r].push(message.frame(member.state.n, member.state.epoch));
        message.seq()
    }
    /// What is refused by its number alone isn't decoded.
    fn give(&mut self, r: usize, k: usize, number: usize) -> Option<Got> {
        let frame = self.sent[k].get(number.wrapping_sub(1))?;
        if r == k || number <= self.members[r].state.counts.at(k) as usize { return Some(Got::Old); }
        let (origin, tag, op) = decode::<N>(frame, self.members.len(), self.limit, self.members[r].state.epoch).ok().unwrap();
        Some(self.members[r].receive(&Message::of(origin, tag, &op), &mut self.steps))
    }
    fn offer(&mut self, r: usize, k: usize) -> bool { member::offer(&mut self.members, r, k, &mut self.steps) }
    fn receive(&mut self, r: usize, origin: u8, tag: Tag<N>, op: &RawOp) -> Got {
        self.members[r].receive(&Message::of(origin, tag, op), &mut self.steps)
    }
    fn answer(&mut self, r: usize, kind: Kind, key: &[u8], out: &mut Vec<u8>) {
        let member = &mut self.members[r];
        let o = member.names.find(kind as u32, key, Names::hash(kind as u32, key)).ok();
        member.state.answer(o, kind, &member.names, out);
    }
    fn list(&mut self, r: usize, key: &[u8], asked: Asked, out: &mut Vec<u8>) {
        let Member { state, names, .. } = &self.members[r];
        let o = names.find(List as u32, key, Names::hash(List as u32, key)).ok();
        state.put_list(o.map(|o| names.object_of(o)), asked, out);
    }
    /// The journal of who is new is a copy of member 0's, and its own note.
    fn regroup(&mut self, n: usize) {
        self.members.truncate(n);
        for member in &mut self.members {
            member.state.regroup(n);
            member.early.clear();
            member.outbox.clear();
        }
        for me in self.members.len()..n {
            let newcomer = self.members[0].newcomer(me);
            self.members.push(newcomer);
        }
        for member in &mut self.members { member.note_epoch(); }
        self.sent = (0..n).map(|_| Vec::new()).collect();
    }
}

fn main() { script::main::<World<u16>, World<u32>>() }
