//! What a replica of both plain programs keeps beside its messages: what was delivered, the log, the settled items, lists, and
//! the places of early messages.

use super::lists::*;
use super::text::*;

// ---------------------------------------------------------------- timestamps
/// The numbers of a timestamp: half-words where the store's limit allows it, else words.
pub trait Num: Copy + Ord + Default {
    fn of(v: u32) -> Self;
    fn wide(self) -> u32;
    fn at_most(a: &[Self; 16], b: &[Self; 16]) -> bool;
    /// Whether a column that `old` held at `stable` stands elsewhere in `new`.
    fn leaves(old: &[Self; 16], stable: &[Self; 16], new: &[Self; 16]) -> bool;
}
impl Num for u16 {
    #[inline(always)]
    fn of(v: u32) -> u16 { v as u16 }
    #[inline(always)]
    fn wide(self) -> u32 { self as u32 }
    #[inline(always)]
    fn at_most(a: &[u16; 16], b: &[u16; 16]) -> bool {
        let mut over = 0u16;
        for i in 0..16 { over |= a[i].saturating_sub(b[i]); }
        over == 0
    }
    #[inline(always)]
    fn leaves(old: &[u16; 16], stable: &[u16; 16], new: &[u16; 16]) -> bool {
        let mut rises = 0u16;
        for x in 0..16 { rises |= (old[x] == stable[x]) as u16 & (new[x] != stable[x]) as u16; }
        rises != 0
    }
}
impl Num for u32 {
    #[inline(always)]
    fn of(v: u32) -> u32 { v }
    #[inline(always)]
    fn wide(self) -> u32 { self }
    /// Numbers end far below 2^31, so the sign of a difference tells which is greater.
    #[inline(always)]
    fn at_most(a: &[u32; 16], b: &[u32; 16]) -> bool {
        let mut over = 0u32;
        for i in 0..16 { over |= b[i].wrapping_sub(a[i]); }
        over >> 31 == 0
    }
    #[inline(always)]
    fn leaves(old: &[u32; 16], stable: &[u32; 16], new: &[u32; 16]) -> bool {
        let mut rises = 0u32;
        for x in 0..16 { rises |= (old[x] == stable[x]) as u32 & (new[x] != stable[x]) as u32; }
        rises != 0
    }
}
#[derive(Clone, Copy)]
#[repr(align(16))]
pub struct Tag<N>(pub [N; 16]);
impl<N: Num> Tag<N> {
    pub fn zero() -> Self { Tag([N::default(); 16]) }
    #[inline(always)]
    pub fn at(&self, x: usize) -> u32 { self.0[x].wide() }
    #[inline(always)]
    pub fn raise(&mut self, x: usize) { self.0[x] = N::of(self.0[x].wide() + 1); }
    #[inline(always)]
    pub fn at_most(&self, o: &Self) -> bool { N::at_most(&self.0, &o.0) }
    #[inline(always)]
    pub fn min_with(&mut self, o: &Self) { for i in 0..16 { self.0[i] = self.0[i].min(o.0[i]); } }
    #[inline(always)]
    pub fn max_with(&mut self, o: &Self) { for i in 0..16 { self.0[i] = self.0[i].max(o.0[i]); } }
    fn sum(&self) -> u32 { self.0.iter().map(|v| v.wide()).sum() }
}

// ---------------------------------------------------------------- messages
/// A message to be delivered. `item` names the object with its value, or the object where the operation has no value. Where it
/// is of a list, `epoch` and `amount` are the place that it names.
#[derive(Clone, Copy)]
pub struct Msg<N> { pub tag: Tag<N>, pub item: u32, pub obj: u32, amount: u32, epoch: u16, pub origin: u8, pub code: u8 }
impl<N: Num> Msg<N> {
    #[inline(always)]
    pub fn new(origin: u8, tag: Tag<N>, (item, obj): (u32, u32), code: u8, amount: u32, element: Option<ElementId>) -> Self {
        let place = Place::of(element);
        Msg { tag, item, obj, amount: if code < INS { amount } else { place.at }, epoch: place.epoch, origin, code }
    }
    #[inline(always)]
    pub fn seq(&self) -> u32 { self.tag.at(self.origin as usize & 15) }
    #[inline(always)]
    fn place(&self) -> Place { Place { epoch: self.epoch, at: self.amount } }
}

// ---------------------------------------------------------------- one replica
#[derive(Clone, Copy, Default)]
struct Slot { head: u32, ups: u16, downs: u16, on: bool, off: bool, listed: bool } // head is index + 1 of the log's chain
impl Slot { #[inline(always)] fn idle(&self) -> bool { !self.on && !self.off && self.ups == 0 && self.downs == 0 } }
#[derive(Clone, Default)]
struct Object { sum: i64, logged: i64, live: Vec<u32>, sorted: usize, dead: usize }
#[derive(Clone, Copy)]
struct Entry<N> { prev: u32, next: u32, up: u32, down: u32, item: u32, obj: u32, amount: u32, seq: N, origin: u8, code: u8 }
struct Unstable<N> { tag: Tag<N>, entry: u32, noop: bool }
#[derive(Default)]
struct Early { ring: Vec<u32>, held: u32 }

/// What is asked of a list beside its answer: the ids of its elements, or how many are kept that aren't shown.
#[derive(Clone, Copy, PartialEq, Eq)]
pub enum Asked { Ids, Tombs }
/// What became of a message that was received.
pub enum Got { Old, Again, Far, Kept, Took }
/// The messages that were delivered (or found unsound): origin, number, whether it is sound.
pub type Steps = Vec<(u8, u32, bool)>;

/// The state of a replica. The messages themselves stay with each program: an early one stands in its pool, at a place that
/// is known here.
pub struct Replica<N> {
    pub me: usize, pub n: usize, pub epoch: u32, w: u32, z: u32, limit: u32,
    pub counts: Tag<N>, rows: [Tag<N>; 16], pub stable: Tag<N>, due: bool,
    window: Vec<std::collections::VecDeque<Unstable<N>>>, ops: [u32; 16], noops: [u32; 16],
    early: Vec<Early>, places: u32, free_places: Vec<u32>, heads: u16,
    log: Vec<Entry<N>>, free_log: Vec<u32>, first: u32, last: u32, logged: usize,
    slots: Vec<Slot>, objects: Vec<Object>, items: usize, touched: Vec<u32>, lists: Lists,
}
impl<N: Num> Replica<N> {
    pub fn new(me: usize, n: usize, w: u32, limit: u32) -> Self {
        Replica {
            me, n, epoch: 0, w, z: 2 * (n as u32 - 1) * w + 1, limit, counts: Tag::zero(), rows: [Tag::zero(); 16], stable: Tag::zero(), due: false,
            window: (0..n).map(|_| Default::default()).collect(), ops: [0; 16], noops: [0; 16],
            early: (0..n).map(|_| Default::default()).collect(), places: 0, free_places: Vec::new(), heads: 0,
            log: Vec::new(), free_log: Vec::new(), first: NONE, last: NONE, logged: 0,
            slots: Vec::new(), objects: Vec::new(), items: 0, touched: Vec::new(), lists: Lists::default(),
        }
    }

    // --- epochs
    /// Whether each operation is stable: then nothing is logged.
    pub fn is_at_rest(&self) -> bool { self.ops.iter().all(|unstable| *unstable == 0) }
    /// Begins the next epoch, of `n` members, with the items, the lists and nothing else of what it has.
    pub fn regroup(&mut self, n: usize) {
        let (slots, objects, lists) = (std::mem::take(&mut self.slots), std::mem::take(&mut self.objects), std::mem::take(&mut self.lists));
        *self = Replica { epoch: self.epoch + 1, slots, objects, items: self.items, lists, ..Replica::new(self.me, n, self.w, self.limit) };
    }
    /// A replica that begins as another member, with a copy of the items and the lists.
    pub fn newcomer(&self, me: usize) -> Self {
        let (slots, objects, lists) = (self.slots.clone(), self.objects.clone(), self.lists.clone());
        Replica { epoch: self.epoch, slots, objects, items: self.items, lists, ..Replica::new(me, self.n, self.w, self.limit) }
    }

    // --- the log and the settled items
    #[inline]
    fn fit(&mut self, item: u32, obj: u32) {
        if item as usize >= self.slots.len() { self.slots.resize(item as usize + 1, Slot::default()); }
        if obj as usize >= self.objects.len() { self.objects.resize_with(obj as usize + 1, Object::default); }
    }
    /// Takes an entry out of the log, not out of its chain.
    #[inline(always)]
    fn take_entry(&mut self, e: u32) -> Entry<N> {
        let x = self.log[e as usize];
        if x.prev == NONE { self.first = x.next } else { self.log[x.prev as usize].next = x.next }
        if x.next == NONE { self.last = x.prev } else { self.log[x.next as usize].prev = x.prev }
        self.free_log.push(e);
        self.logged -= 1;
        x
    }
    fn unlink(&mut self, e: u32) -> Entry<N> {
        let x = self.take_entry(e);
        if x.up == NONE { self.slots[x.item as usize].head = x.down.wrapping_add(1) } else { self.log[x.up as usize].down = x.down }
        if x.down != NONE { self.log[x.down as usize].up = x.up }
        let s = &mut self.slots[x.item as usize];
        match x.code {
            5 | 11 => s.downs -= 1,
            17 => { s.ups -= 1; self.objects[x.obj as usize].logged -= x.amount as i64 }
            18 => { s.ups -= 1; self.objects[x.obj as usize].logged += x.amount as i64 }
            _ => s.ups -= 1,
        }
        x
    }
    /// Puts an entry into the log, of an item or a slot of a list, ahead of the others in a chain.
    #[inline(always)]
    fn put_entry(&mut self, m: &Msg<N>, item: u32, head: u32) -> u32 {
        let x = Entry { prev: self.last, next: NONE, up: NONE, down: head.wrapping_sub(1), item, obj: m.obj, amount: m.amount,
            seq: N::of(m.seq()), origin: m.origin, code: m.code };
        let e = match self.free_log.pop() {
            Some(e) => { self.log[e as usize] = x; e }
            None => { self.log.push(x); self.log.len() as u32 - 1 }
        };
        if self.last == NONE { self.first = e } else { self.log[self.last as usize].next = e }
        self.last = e;
        if x.down != NONE { self.log[x.down as usize].up = e }
        self.logged += 1;
        e
    }
    fn push_log(&mut self, m: &Msg<N>) -> u32 {
        let e = self.put_entry(m, m.item, self.slots[m.item as usize].head);
        let valued = CODES[m.code as usize - 1].2 == Arg::Val;
        let s = &mut self.slots[m.item as usize];
        let idle = s.idle();
        s.head = e + 1;
        if m.code == 5 || m.code == 11 { s.downs += 1 } else { s.ups += 1 }
        if valued {
            let o = &mut self.objects[m.obj as usize];
            if !s.listed { s.listed = true; o.live.push(m.item) } else if idle { o.dead -= 1 }
        }
        if m.code == 17 { self.objects[m.obj as usize].logged += m.amount as i64 }
        if m.code == 18 { self.objects[m.obj as usize].logged -= m.amount as i64 }
        e
    }
    /// The marks of the slot go, and its entries that happened before the message.
    fn prune_slot(&mut self, item: u32, tag: &Tag<N>) {
        let s = &mut self.slots[item as usize];
        if s.on || s.off { s.on = false; s.off = false; self.items -= 1; }
        let mut e = s.head.wrapping_sub(1);
        while e != NONE {
            let x = &self.log[e as usize];
            let (down, k, seq) = (x.down, x.origin as usize & 15, x.seq.wide());
            if tag.at(k) >= seq {
                self.unlink(e);
                let at = (seq - self.stable.at(k) - 1) as usize;
                self.window[k][at].entry = NONE;
            }
            e = down;
        }
    }
    #[inline]
    fn prune_value(&mut self, item: u32, obj: u32, tag: &Tag<N>) {
        let s = self.slots[item as usize];
        if s.idle() { return; }
        self.prune_slot(item, tag);
        if self.slots[item as usize].idle() { self.died(obj); }
    }
    fn died(&mut self, obj: u32) {
        let o = &mut self.objects[obj as usize];
        o.dead += 1;
        if o.dead * 2 > o.live.len() + 32 { self.compact(obj); }
    }
    fn compact(&mut self, obj: u32) {
        let (o, slots) = (&mut self.objects[obj as usize], &mut self.slots);
        let (mut at, mut kept_sorted) = (0, 0);
        let sorted = o.sorted;
        o.live.retain(|i| {
            let s = &mut slots[*i as usize];
            let keep = !s.idle();
            if keep { kept_sorted += (at < sorted) as usize } else { s.listed = false }
            at += 1;
            keep
        });
        o.sorted = kept_sorted;
        o.dead = 0;
    }
    fn prune_all(&mut self, obj: u32, tag: &Tag<N>) {
        let live = std::mem::take(&mut self.objects[obj as usize].live);
        for i in &live { if !self.slots[*i as usize].idle() { self.prune_slot(*i, tag); } }
        self.objects[obj as usize].live = live;
        self.compact(obj);
    }
    fn add_sum(&mut self, obj: u32, by: i64) {
        let o = &mut self.objects[obj as usize];
        let was = o.sum != 0;
        o.sum += by;
        self.items = self.items + (o.sum != 0) as usize - was as usize;
    }
    fn settle_entry(&mut self, e: u32, tag: &Tag<N>) {
        match self.log[e as usize].code {
            DEL => return self.settle_delete(e),
            CLEAR => return self.settle_clear(e, tag),
            _ => {}
        }
        let x = self.unlink(e);
        match x.code {
            17 => self.add_sum(x.obj, x.amount as i64),
            18 => self.add_sum(x.obj, -(x.amount as i64)),
            c => {
                let s = &mut self.slots[x.item as usize];
                if !s.on && !s.off { self.items += 1 }
                if c == 5 || c == 11 { s.off = true } else { s.on = true }
                if s.off { self.touched.push(x.item) }
            }
        }
    }

    // --- lists
    /// The entries of a chain, the latest first.
    #[inline]
    fn chain(&self, head: u32) -> impl Iterator<Item = &Entry<N>> {
        let mut e = head.wrapping_sub(1);
        std::iter::from_fn(move || {
            let x = self.log.get(e as usize)?;
            e = x.down;
            Some(x)
        })
    }
    /// The timestamp of an entry of the log.
    #[inline]
    fn tag_of(&self, x: &Entry<N>) -> &Tag<N> {
        let k = x.origin as usize & 15;
        &self.window[k][(x.seq.wide() - self.stable.at(k) - 1) as usize].tag
    }
    /// Whether a message of this epoch with this timestamp happened after the one that put an element in.
    #[inline]
    fn has_seen(&self, tag: &Tag<N>, x: &Element) -> bool { (x.id.epoch as u32) < self.epoch || tag.at(x.id.origin()) >= x.id.seq() }
    /// The slot of the element that a message names, where it has seen it, and nothing stable took it out.
    #[inline]
    fn named(&self, m: &Msg<N>) -> Option<u32> {
        let e = self.lists.find(m.place())?;
        let x = self.lists.get(e);
        if x.list == m.obj && !x.is_gone && self.has_seen(&m.tag, x) { Some(e) } else { None }
    }
    /// Puts an element in, unless its message names one that it hasn't seen, or has seen taken out.
    fn insert(&mut self, m: &Msg<N>) {
        let mut behind = None;
        if m.place() != Place::HEAD {
            let Some(e) = self.named(m) else { return };
            let x = self.lists.get(e);
            let before = |y: &Entry<N>| m.tag.at(y.origin as usize & 15) >= y.seq.wide();
            if self.chain(x.deletes).any(before) { return; }
            if self.chain(self.lists.clears(m.obj)).any(|y| before(y) && self.has_seen(self.tag_of(y), x)) { return; }
            behind = Some(e);
        }
        let id = Place { epoch: self.epoch as u16, at: (m.origin as u32) << 24 | m.seq() };
        self.lists.put(m.obj, behind, id, m.tag.sum(), m.item);
    }
    fn log_delete(&mut self, m: &Msg<N>) -> u32 {
        let Some(at) = self.named(m) else { return self.put_entry(m, NONE, 0) };
        let e = self.put_entry(m, at, self.lists.get(at).deletes);
        self.lists.get_mut(at).deletes = e + 1;
        e
    }
    fn log_clear(&mut self, m: &Msg<N>) -> u32 {
        let e = self.put_entry(m, m.item, self.lists.clears(m.obj));
        self.lists.row_mut(m.obj).clears = e + 1;
        e
    }
    /// Something stable took an element out, and the log's other deletes of it do nothing more.
    fn mark_gone(&mut self, at: u32) {
        let x = self.lists.get_mut(at);
        x.is_gone = true;
        let mut e = std::mem::take(&mut x.deletes).wrapping_sub(1);
        while e != NONE {
            let y = &mut self.log[e as usize];
            y.item = NONE;
            e = y.down;
        }
    }
    fn settle_delete(&mut self, e: u32) {
        let x = self.take_entry(e);
        if x.item == NONE { return; }
        self.mark_gone(x.item);
        // What stands ahead may be gone already, and have waited for what leaves.
        let mut at = x.item;
        while let Some(ahead) = self.lists.leave(at).filter(|ahead| *ahead != NONE) { at = ahead; }
    }
    /// What stands above an element that a clear has seen, it has seen too: so none waits but these.
    fn settle_clear(&mut self, e: u32, tag: &Tag<N>) {
        let x = self.take_entry(e);
        if x.up == NONE { self.lists.row_mut(x.obj).clears = x.down.wrapping_add(1) } else { self.log[x.up as usize].down = x.down }
        if x.down != NONE { self.log[x.down as usize].up = x.up }
        let seen: Vec<u32> = self.lists.slots_of(x.obj).filter(|at| self.has_seen(tag, self.lists.get(*at))).collect();
        for at in &seen { self.mark_gone(*at); }
        for at in seen.iter().rev() { self.lists.leave(*at); }
    }

    // --- one message of the history
    pub fn deliver(&mut self, m: &Msg<N>, names: &Names) {
        let k = m.origin as usize & 15;
        let mut entry = NONE;
        if m.code != 0 {
            if m.code < INS { self.fit(m.item, m.obj) } else { self.lists.fit(m.obj) }
            match m.code {
                1 | 4 | 5 => { self.prune_value(m.item, m.obj, &m.tag); entry = self.push_log(m) }
                2 => self.prune_value(m.item, m.obj, &m.tag),
                3 | 6 | 14 => self.prune_all(m.obj, &m.tag),
                7 | 10 | 11 => { self.prune_slot(m.item, &m.tag); entry = self.push_log(m) }
                8 | 9 | 12 => self.prune_slot(m.item, &m.tag),
                13 => { self.prune_all(m.obj, &m.tag); entry = self.push_log(m) }
                15 => self.add_sum(m.obj, m.amount as i64),
                16 => self.add_sum(m.obj, -(m.amount as i64)),
                17 | 18 => entry = self.push_log(m),
                INS => self.insert(m),
                DEL => entry = self.log_delete(m),
                CLEAR => entry = self.log_clear(m),
                _ => { let s = self.objects[m.obj as usize].sum; self.add_sum(m.obj, -s); self.prune_slot(m.item, &m.tag) }
            }
            self.ops[k] += 1;
        } else { self.noops[k] += 1; }
        // A column's least can rise only where the sender's old row held it down.
        let rises = N::leaves(&self.rows[k].0, &self.stable.0, &m.tag.0);
        self.counts.0[k] = m.tag.0[k];
        self.rows[k] = m.tag;
        self.rows[self.me & 15] = self.counts;
        self.due = if k == self.me { false } else { self.due | (m.code != 0) };
        self.window[k].push_back(Unstable { tag: m.tag, entry, noop: m.code == 0 });

        if !rises { return; }
        let mut st = self.rows[0];
        for r in &self.rows[1..self.n] { st.min_with(r); }
        if !st.at_most(&self.stable) { self.advance(&st, names); }
    }
    fn advance(&mut self, st: &Tag<N>, names: &Names) {
        for x in 0..self.n {
            while self.stable.0[x] < st.0[x] {
                let u = self.window[x].pop_front().unwrap();
                self.stable.raise(x);
                if u.noop { self.noops[x] -= 1 } else { self.ops[x] -= 1 }
                if u.entry != NONE { self.settle_entry(u.entry, &u.tag); }
            }
        }
        while let Some(i) = self.touched.pop() {
            let s = &mut self.slots[i as usize];
            if s.off && s.ups == 0 {
                s.on = false; s.off = false;
                self.items -= 1;
                if s.idle() && s.listed { self.died(names.object_of(i)); }
            }
        }
    }
    /// The four checks. A timestamp that the sender had seen before is closed by its last one.
    pub fn sound(&self, origin: u8, tag: &Tag<N>, code: u8) -> bool {
        let k = origin as usize & 15;
        let last = &self.rows[k];
        if !last.at_most(tag) { return false; }
        for x in 0..self.n {
            if x != k && tag.0[x] > last.0[x] {
                let d = &self.window[x][(tag.at(x) - self.stable.at(x) - 1) as usize];
                if !d.tag.at_most(tag) { return false; }
            }
        }
        // With three members or more the sender's column doesn't move by its own message.
        self.n == 2 || if code != 0 { self.ops[k] < self.w } else { self.noops[k] < self.z }
    }

    // --- sending
    /// Why no operation may be sent.
    pub fn may_local(&self) -> Option<&'static [u8]> {
        if self.ops[self.me] == self.w { Some(b"busy\n") } else if self.counts.at(self.me) == self.limit { Some(b"end\n") } else { None }
    }
    /// Why no beat may be sent.
    pub fn may_beat(&self) -> Option<&'static [u8]> {
        if !self.due { Some(b"quiet\n") } else if self.noops[self.me] == self.z { Some(b"held\n") }
        else if self.counts.at(self.me) == self.limit { Some(b"end\n") } else { None }
    }
    /// The timestamp of the next own message.
    #[inline(always)]
    pub fn next_tag(&self) -> Tag<N> {
        let mut tag = self.counts;
        tag.raise(self.me);
        tag
    }

    // --- receiving
    /// What becomes of a message that is refused, or already kept.
    #[inline]
    pub fn refuse(&self, origin: u8, tag: &Tag<N>) -> Option<Got> {
        let k = origin as usize & 15;
        let (seq, have) = (tag.at(k), self.counts.at(k));
        if k == self.me || seq <= have { return Some(Got::Old); }
        let far = seq > have + self.w + self.z;
        let ring = &self.early[k].ring;
        if !far && !ring.is_empty() && ring[seq as usize & (ring.len() - 1)] != NONE { return Some(Got::Again); }
        if far || tag.0[self.me] > self.counts.0[self.me] { return Some(Got::Far); }
        None
    }
    #[inline(always)]
    pub fn deliverable(&self, origin: u8, tag: &Tag<N>) -> bool {
        let mut v = self.counts;
        let k = origin as usize & 15;
        if tag.at(k) != v.at(k) + 1 { return false; }
        v.0[k] = tag.0[k];
        tag.at_most(&v)
    }
    #[inline]
    fn head(&self, k: usize) -> u32 {
        let e = &self.early[k];
        if e.held == 0 { return NONE; }
        e.ring[(self.counts.at(k) as usize + 1) & (e.ring.len() - 1)]
    }
    /// Notes whether a member's next message is there, after a step of its.
    #[inline(always)]
    pub fn note_head(&mut self, k: usize) {
        if self.head(k) != NONE { self.heads |= 1 << k } else { self.heads &= !(1 << k) }
    }
    /// The place of the pool for a message that comes early: a free one, or the next behind all.
    #[inline]
    pub fn keep(&mut self, origin: u8, tag: &Tag<N>) -> usize {
        let k = origin as usize & 15;
        let seq = tag.at(k);
        let e = &mut self.early[k];
        if e.ring.is_empty() { e.ring = vec![NONE; (self.w + self.z).next_power_of_two() as usize]; }
        let at = seq as usize & (e.ring.len() - 1);
        e.ring[at] = self.free_places.pop().unwrap_or_else(|| { self.places += 1; self.places - 1 });
        e.held += 1;
        if seq == self.counts.at(k) + 1 { self.heads |= 1 << k; }
        e.ring[at] as usize
    }
    /// The place of an early message that can be delivered, of the least member. It is free from now on. `tag` has the
    /// timestamp that stands at a place.
    #[inline(always)]
    pub fn next_early<'a>(&mut self, tag: impl Fn(usize) -> &'a Tag<N>) -> Option<usize>
    where
        N: 'a,
    {
        let mut h = self.heads;
        while h != 0 {
            let k = h.trailing_zeros() as usize;
            let i = self.head(k);
            let tag = tag(i as usize);
            if self.deliverable(k as u8, tag) {
                let e = &mut self.early[k];
                let at = tag.at(k) as usize & (e.ring.len() - 1);
                e.ring[at] = NONE;
                e.held -= 1;
                self.free_places.push(i);
                return Some(i as usize);
            }
            h &= h - 1;
        }
        None
    }

    // --- answers
    pub fn answer(&mut self, object: Option<u32>, kind: Kind, names: &Names, out: &mut Vec<u8>) {
        out.push(b'=');
        let slot = object.and_then(|o| self.slots.get(o as usize).copied()).unwrap_or_default();
        let obj = object.map_or(NONE, |o| names.object_of(o));
        match kind {
            AwSet | RwSet | MvReg => {
                if let Some(o) = self.objects.get_mut(obj as usize) {
                    if o.sorted < o.live.len() { o.live.sort_by(|a, b| names.cmp(*a, *b)); o.sorted = o.live.len(); }
                    for i in &o.live {
                        let s = &self.slots[*i as usize];
                        if (s.on || s.ups > 0) && !s.off && s.downs == 0 { out.push(b' '); out.extend_from_slice(names.text(*i)); }
                    }
                }
            }
            EwFlag | DwFlag => out.extend_from_slice(if (slot.on || slot.ups > 0) && !slot.off && slot.downs == 0 { b" on" } else { b" off" }),
            Counter | RCounter => {
                let v = self.objects.get(obj as usize).map_or(0, |o| o.sum + o.logged);
                out.extend_from_slice(if v < 0 { b" -" } else { b" " });
                put(out, v.unsigned_abs());
            }
            List => for x in self.shown(obj) { out.push(b' '); out.extend_from_slice(names.text(x.value)); },
        }
        out.push(b'\n');
    }
    /// The elements of a list, each with whether it is shown: neither a message that is stable took it out, nor one of the log.
    fn elements(&self, list: u32) -> impl Iterator<Item = (&Element, bool)> {
        // What the log's clears have seen together.
        let clears = self.chain(self.lists.clears(list)).map(|y| *self.tag_of(y));
        let cleared = clears.reduce(|mut all, tag| { all.max_with(&tag); all });
        self.lists.slots_of(list).map(move |at| {
            let x = self.lists.get(at);
            (x, !x.is_gone && x.deletes == 0 && !cleared.as_ref().is_some_and(|tag| self.has_seen(tag, x)))
        })
    }
    fn shown(&self, list: u32) -> impl Iterator<Item = &Element> { self.elements(list).filter(|(_, is_shown)| *is_shown).map(|(x, _)| x) }
    /// What else is asked of a list, if there is one.
    pub fn put_list(&self, list: Option<u32>, asked: Asked, out: &mut Vec<u8>) {
        let list = list.unwrap_or(NONE);
        match asked {
            Asked::Ids => {
                out.extend_from_slice(b"ids");
                for Element { id, .. } in self.shown(list) {
                    out.push(b' '); put(out, id.epoch as u64);
                    out.push(b'.'); put(out, id.origin() as u64);
                    out.push(b'.'); put(out, id.seq() as u64);
                }
            }
            Asked::Tombs => {
                out.extend_from_slice(b"tombs ");
                put(out, self.elements(list).filter(|(_, is_shown)| !is_shown).count() as u64);
            }
        }
        out.push(b'\n');
    }

    // --- replies
    pub fn put_log(&self, out: &mut Vec<u8>) {
        out.extend_from_slice(b"log");
        let mut e = self.first;
        while e != NONE {
            let x = &self.log[e as usize];
            out.push(b' '); put(out, x.origin as u64); out.push(b':'); put(out, x.seq.wide() as u64);
            e = x.next;
        }
        out.push(b'\n');
    }
    pub fn put_size(&self, out: &mut Vec<u8>) {
        out.extend_from_slice(b"size ");
        put(out, self.logged as u64); out.push(b' '); put(out, self.items as u64); out.push(b'\n');
    }
    pub fn put_noops(&self, out: &mut Vec<u8>) {
        out.extend_from_slice(b"noops ");
        put(out, self.noops[self.me] as u64);
        out.push(b'\n');
    }
    /// The least member that isn't known to have the oldest own message that isn't stable.
    pub fn put_lags(&self, out: &mut Vec<u8>) {
        let me = self.me;
        let oldest = self.stable.at(me) + 1;
        out.extend_from_slice(b"lags ");
        match (0..self.n).find(|q| *q != me && self.rows[*q].at(me) < oldest) {
            Some(q) if oldest <= self.counts.at(me) => put(out, q as u64),
            _ => out.extend_from_slice(b"none"),
        }
        out.push(b'\n');
    }
    pub fn put_tag(&self, word: &[u8], tag: &Tag<N>, out: &mut Vec<u8>) {
        out.extend_from_slice(word);
        for v in &tag.0[..self.n] { out.push(b' '); put(out, v.wide() as u64); }
        out.push(b'\n');
    }
}
