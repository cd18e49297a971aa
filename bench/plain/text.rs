//! What both plain programs read and write: kinds and operations, names, lines and frames.

use super::replica::{Num, Tag};
use std::num::NonZeroU32;

/// No place of a list.
pub const NONE: u32 = u32::MAX;
/// The bytes of the longest line that is read.
pub const LINE: usize = 16_384;

// ---------------------------------------------------------------- kinds and codes
#[derive(Clone, Copy, PartialEq, Eq)]
#[repr(u8)]
pub enum Kind { AwSet, RwSet, EwFlag, DwFlag, MvReg, Counter, RCounter, List }
pub use Kind::*;
/// What an operation takes: nothing, a value, an amount, a value and its place in a list, or the id of an element.
#[derive(Clone, Copy, PartialEq, Eq)]
pub enum Arg { Nil, Val, Amt, Put, Id }
impl Arg { #[inline(always)] pub fn has_value(self) -> bool { matches!(self, Arg::Val | Arg::Put) } }
pub const CODES: [(Kind, &str, Arg); 22] = [
    (AwSet, "add", Arg::Val), (AwSet, "rmv", Arg::Val), (AwSet, "clear", Arg::Nil),
    (RwSet, "add", Arg::Val), (RwSet, "rmv", Arg::Val), (RwSet, "clear", Arg::Nil),
    (EwFlag, "enable", Arg::Nil), (EwFlag, "disable", Arg::Nil), (EwFlag, "clear", Arg::Nil),
    (DwFlag, "enable", Arg::Nil), (DwFlag, "disable", Arg::Nil), (DwFlag, "clear", Arg::Nil),
    (MvReg, "write", Arg::Val), (MvReg, "clear", Arg::Nil),
    (Counter, "inc", Arg::Amt), (Counter, "dec", Arg::Amt),
    (RCounter, "inc", Arg::Amt), (RCounter, "dec", Arg::Amt), (RCounter, "clear", Arg::Nil),
    (List, "ins", Arg::Put), (List, "del", Arg::Id), (List, "clear", Arg::Nil)];
/// The codes of a list.
pub const INS: u8 = 20;
pub const DEL: u8 = 21;
pub const CLEAR: u8 = 22;
/// The last code of frames of version 1.
const LAST_OF_FIRST: u8 = 19;

// ---------------------------------------------------------------- elements
/// The id of an element of a list: the epoch, the member and the number of the message that put it in. It takes nine bytes,
/// and so do an id or none.
#[derive(Clone, Copy)]
#[repr(packed)]
pub struct ElementId { pub epoch: u32, pub origin: u8, pub seq: NonZeroU32 }
/// A place of a list in six bytes: the head, all zeros, or behind the element of an id. In `at` the member stands above the
/// number, since no store has numbers above a million.
#[derive(Clone, Copy, PartialEq, Eq)]
pub struct Place { pub epoch: u16, pub at: u32 }
impl Place {
    pub const HEAD: Place = Place { epoch: 0, at: 0 };
    /// What no element has.
    const NOWHERE: Place = Place { epoch: u16::MAX, at: u32::MAX };
    #[inline]
    pub fn of(id: Option<ElementId>) -> Place {
        let Some(id) = id else { return Place::HEAD };
        let seq = id.seq.get();
        match u16::try_from(id.epoch) {
            Ok(epoch) if seq < 1 << 24 => Place { epoch, at: (id.origin as u32) << 24 | seq },
            _ => Place::NOWHERE,
        }
    }
    #[inline]
    pub fn origin(self) -> usize { (self.at >> 24) as usize & 15 }
    #[inline]
    pub fn seq(self) -> u32 { self.at & 0xff_ffff }
}

// ---------------------------------------------------------------- names
/// Objects and their values are interned once; items are found by the id.
#[derive(Clone)]
struct Name { prefix: u64, off: u32, hash: u32, parent: u32, obj: u32, len: u16 }
#[derive(Clone)]
pub struct Names { bytes: Vec<u8>, names: Vec<Name>, table: Vec<u32>, objects: u32 }
impl Names {
    pub fn new() -> Names { Names { bytes: Vec::new(), names: Vec::new(), table: vec![NONE; 1024], objects: 0 } }
    pub fn hash(parent: u32, b: &[u8]) -> u32 {
        const K: u64 = 0x9e37_79b9_7f4a_7c15;
        let mut h = (parent as u64 ^ (b.len() as u64) << 40).wrapping_mul(K);
        let mut it = b.chunks_exact(8);
        for c in &mut it { h = (h.rotate_left(23) ^ u64::from_le_bytes(c.try_into().unwrap())).wrapping_mul(K); }
        let r = it.remainder();
        let mut x = 0u64;
        for (i, c) in r.iter().enumerate() { x |= (*c as u64) << (8 * i); }
        h = (h.rotate_left(23) ^ x).wrapping_mul(K);
        (h ^ h >> 32) as u32
    }
    #[inline]
    pub fn text(&self, id: u32) -> &[u8] { let n = &self.names[id as usize]; &self.bytes[n.off as usize..n.off as usize + n.len as usize] }
    /// The id, or the place of the table where it would go.
    #[inline]
    pub fn find(&self, parent: u32, b: &[u8], h: u32) -> Result<u32, (u32, usize)> {
        let mask = self.table.len() - 1;
        let mut i = h as usize & mask;
        loop {
            let id = self.table[i];
            if id == NONE { return Err((h, i)); }
            let n = &self.names[id as usize];
            if n.hash == h && n.parent == parent && self.text(id) == b { return Ok(id); }
            i = (i + 1) & mask;
        }
    }
    fn insert(&mut self, parent: u32, b: &[u8], h: u32, place: usize, obj: u32) -> u32 {
        let id = self.names.len() as u32;
        let mut p = [0u8; 8];
        let l = b.len().min(8);
        p[..l].copy_from_slice(&b[..l]);
        self.names.push(Name { prefix: u64::from_be_bytes(p), off: self.bytes.len() as u32, hash: h, parent, obj, len: b.len() as u16 });
        self.bytes.extend_from_slice(b);
        self.table[place] = id;
        if self.names.len() * 2 > self.table.len() {
            let mut t = vec![NONE; self.table.len() * 2];
            let mask = t.len() - 1;
            for (id, n) in self.names.iter().enumerate() {
                let mut i = n.hash as usize & mask;
                while t[i] != NONE { i = (i + 1) & mask; }
                t[i] = id as u32;
            }
            self.table = t;
        }
        id
    }
    pub fn object(&mut self, kind: u32, key: &[u8], h: u32) -> u32 {
        match self.find(kind, key, h) {
            Ok(id) => id,
            Err((h, p)) => { let o = self.objects; self.objects += 1; self.insert(kind, key, h, p, o) }
        }
    }
    pub fn value(&mut self, object: u32, v: &[u8], h: u32) -> u32 {
        match self.find(8 + object, v, h) {
            Ok(id) => id,
            Err((h, p)) => { let o = self.names[object as usize].obj; self.insert(8 + object, v, h, p, o) }
        }
    }
    /// The number of the object that a name is of.
    #[inline]
    pub fn object_of(&self, id: u32) -> u32 { self.names[id as usize].obj }
    #[inline]
    pub fn cmp(&self, a: u32, b: u32) -> std::cmp::Ordering {
        let (x, y) = (&self.names[a as usize], &self.names[b as usize]);
        x.prefix.cmp(&y.prefix).then_with(|| self.text(a).cmp(self.text(b)))
    }
}

/// An operation as parsed, not interned yet.
#[derive(Clone, Copy)]
pub struct RawOp<'a> { pub code: u8, pub key: &'a [u8], pub value: &'a [u8], pub amount: u32, pub element: Option<ElementId> }
pub const NO_OP: RawOp<'static> = RawOp { code: 0, key: &[], value: &[], amount: 0, element: None };

// ---------------------------------------------------------------- reading text
pub fn put(out: &mut Vec<u8>, mut v: u64) {
    let mut b = [0u8; 20];
    let mut i = 20;
    loop { i -= 1; b[i] = b'0' + (v % 10) as u8; v /= 10; if v == 0 { break; } }
    out.extend_from_slice(&b[i..]);
}
pub fn number(b: &[u8]) -> Option<u32> {
    if b.is_empty() || b.len() > 10 { return None; }
    let mut v = 0u64;
    for c in b { let d = c.wrapping_sub(b'0'); if d > 9 { return None; } v = v * 10 + d as u64; }
    u32::try_from(v).ok()
}
const KEY_BYTE: [bool; 256] = {
    let mut t = [false; 256];
    let mut i = 0;
    while i < 256 { let c = i as u8; t[i] = matches!(c, b'a'..=b'z' | b'0'..=b'9' | b'_' | b'.' | b'-'); i += 1; }
    t
};
fn key_ok(b: &[u8]) -> bool { (1..=32).contains(&b.len()) && b.iter().all(|c| KEY_BYTE[*c as usize]) }
fn value_ok(b: &[u8]) -> bool {
    if !(1..=4096).contains(&b.len()) { return false; }
    let (mut low, mut all) = (false, 0u8);
    for c in b { low |= *c <= 0x20 || *c == 0x7f; all |= *c; }
    !low && (all < 0x80 || std::str::from_utf8(b).is_ok())
}
fn kind(b: &[u8]) -> Option<Kind> {
    Some(match b { b"awset" => AwSet, b"rwset" => RwSet, b"ewflag" => EwFlag, b"dwflag" => DwFlag, b"mvreg" => MvReg,
        b"counter" => Counter, b"rcounter" => RCounter, b"list" => List, _ => return None })
}
pub fn object(b: &[u8]) -> Option<(Kind, &[u8])> {
    let i = b.iter().take(9).position(|c| *c == b':')?;
    let k = kind(&b[..i])?;
    if key_ok(&b[i + 1..]) { Some((k, &b[i + 1..])) } else { None }
}
/// An id as its text says it: three numbers parted by points.
fn element(b: &[u8]) -> Option<ElementId> {
    let mut parts = b.split(|c| *c == b'.').map(number);
    let (epoch, origin, seq) = (parts.next()??, parts.next()??, parts.next()??);
    if parts.next().is_some() { return None; }
    element_id(epoch, origin, seq)
}
fn element_id(epoch: u32, origin: u32, seq: u32) -> Option<ElementId> {
    NonZeroU32::new(seq).filter(|_| origin <= 15).map(|seq| ElementId { epoch, origin: origin as u8, seq })
}
fn code(k: Kind, word: &[u8]) -> Option<u8> {
    Some(match (k, word) {
        (AwSet, b"add") => 1, (AwSet, b"rmv") => 2, (AwSet, b"clear") => 3,
        (RwSet, b"add") => 4, (RwSet, b"rmv") => 5, (RwSet, b"clear") => 6,
        (EwFlag, b"enable") => 7, (EwFlag, b"disable") => 8, (EwFlag, b"clear") => 9,
        (DwFlag, b"enable") => 10, (DwFlag, b"disable") => 11, (DwFlag, b"clear") => 12,
        (MvReg, b"write") => 13, (MvReg, b"clear") => 14,
        (Counter, b"inc") => 15, (Counter, b"dec") => 16,
        (RCounter, b"inc") => 17, (RCounter, b"dec") => 18, (RCounter, b"clear") => 19,
        (List, b"ins") => INS, (List, b"del") => DEL, (List, b"clear") => CLEAR,
        _ => return None,
    })
}
/// The operation of a command `do`.
#[inline(always)]
pub fn operation<'a>(w: &[&'a [u8]]) -> Result<RawOp<'a>, u8> {
    let (kind, key) = object(w[2]).ok_or(5u8)?;
    let c = code(kind, w[3]).ok_or(6u8)?;
    let arg = CODES[c as usize - 1].2;
    let taken = match arg { Arg::Nil => 0, Arg::Val | Arg::Amt | Arg::Id => 1, Arg::Put => 2 };
    if w.len() != 4 + taken { return Err(6); }
    let mut op = RawOp { code: c, key, ..NO_OP };
    if arg.has_value() { if !value_ok(w[4]) { return Err(7); } op.value = w[4] }
    match arg {
        Arg::Amt => op.amount = number(w[4]).ok_or(8u8)?,
        Arg::Id => op.element = Some(element(w[4]).ok_or(8u8)?),
        Arg::Put if w[5] != b"head" => op.element = Some(element(w[5]).ok_or(8u8)?),
        _ => {}
    }
    Ok(op)
}
/// Frames of both versions. Version 1 is of epoch 0 alone.
pub fn decode<'a, N: Num>(b: &'a [u8], n: usize, limit: u32, epoch: u32) -> Result<(u8, Tag<N>, RawOp<'a>), u8> {
    let wide = b.first() == Some(&2);
    let head = if wide { 8 } else { 4 };
    if b.len() < head + 4 * n { return Err(1); }
    if !wide && (b[0] != 1 || epoch != 0) { return Err(2); }
    if wide && b[4..8] != epoch.to_be_bytes() { return Err(10); }
    if b[2] as usize != n { return Err(3); }
    if b[1] as usize >= n { return Err(4); }
    if b[3] > if wide { CLEAR } else { LAST_OF_FIRST } { return Err(5); }
    let mut tag = Tag::zero();
    for (i, c) in b[head..head + 4 * n].chunks_exact(4).enumerate() {
        let v = u32::from_be_bytes(c.try_into().unwrap());
        if v > limit { return Err(6); }
        tag.0[i] = N::of(v);
    }
    if tag.at(b[1] as usize) == 0 { return Err(6); }
    let mut rest = &b[head + 4 * n..];
    let mut op = RawOp { code: b[3], ..NO_OP };
    if op.code > 0 {
        op.key = field(&mut rest, wide).filter(|k| key_ok(k)).ok_or(7u8)?;
        let arg = CODES[op.code as usize - 1].2;
        if arg.has_value() {
            op.value = field(&mut rest, wide).filter(|v| (wide || v.len() <= 64) && value_ok(v)).ok_or(8u8)?;
        }
        match arg {
            Arg::Amt => { op.amount = u32::from_be_bytes(rest.get(..4).ok_or(8u8)?.try_into().unwrap()); rest = &rest[4..] }
            Arg::Id => op.element = Some(id_field(&mut rest).ok_or(8u8)?),
            Arg::Put => {
                let is_head = match rest.first() { Some(0) => true, Some(1) => false, _ => return Err(8) };
                rest = &rest[1..];
                if !is_head { op.element = Some(id_field(&mut rest).ok_or(8u8)?) }
            }
            Arg::Nil | Arg::Val => {}
        }
    }
    if rest.is_empty() { Ok((b[1], tag, op)) } else { Err(9) }
}
fn field<'a>(rest: &mut &'a [u8], wide: bool) -> Option<&'a [u8]> {
    let (at, len) = match (wide, *rest) {
        (false, [l, ..]) => (1, *l as usize),
        (true, [h, l, ..]) => (2, (*h as usize) << 8 | *l as usize),
        _ => return None,
    };
    let f = rest.get(at..at + len)?;
    *rest = &rest[at + len..];
    Some(f)
}
fn id_field(rest: &mut &[u8]) -> Option<ElementId> {
    let ([e0, e1, e2, e3, origin, s0, s1, s2, s3], more) = rest.split_first_chunk::<9>()?;
    *rest = more;
    element_id(u32::from_be_bytes([*e0, *e1, *e2, *e3]), *origin as u32, u32::from_be_bytes([*s0, *s1, *s2, *s3]))
}

const HEX: [u8; 256] = {
    let mut t = [0xffu8; 256];
    let mut i = 0;
    while i < 256 {
        let c = i as u8;
        t[i] = match c { b'0'..=b'9' => c - b'0', b'a'..=b'f' => c - b'a' + 10, b'A'..=b'F' => c - b'A' + 10, _ => 0xff };
        i += 1;
    }
    t
};
/// Whether these are pairs of hexadecimal digits. Their bytes are written where it is so.
#[inline(always)]
pub fn unhex(digits: &[u8], bytes: &mut Vec<u8>) -> bool {
    if digits.len() % 2 == 1 { return false; }
    bytes.clear();
    let mut bad = 0u8;
    for p in digits.chunks_exact(2) {
        let (a, b) = (HEX[p[0] as usize], HEX[p[1] as usize]);
        bad |= a | b;
        bytes.push(a << 4 | b & 15);
    }
    bad <= 15
}
