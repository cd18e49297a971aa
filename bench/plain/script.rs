//! The scripts of both plain programs: a line is read, and what it asks is done in a world.

use super::replica::*;
use super::text::*;
use std::fs::File;
use std::io::{ErrorKind, Read, Write};
use std::os::fd::AsFd;

/// The bytes of the longest script, and of a piece of it that is read at once.
const CAP: usize = 4_194_304;
const BUF: usize = 65_536;
/// The last epoch.
const LAST: u32 = 65_535;

// ---------------------------------------------------------------- the world of a script
/// The members of a store and the messages that they sent.
pub trait World {
    type N: Num;
    fn open(n: usize, w: u32, limit: u32) -> Self;
    fn replica(&self, r: usize) -> &Replica<Self::N>;
    /// The steps since they were taken last.
    fn steps(&mut self) -> &mut Steps;
    /// Sends an operation, or a no-op. The message's number.
    fn send(&mut self, r: usize, op: &RawOp) -> u32;
    /// Offers to `r` the message of `k` with a number. `None` where `k` sent none with it.
    fn give(&mut self, r: usize, k: usize, number: usize) -> Option<Got>;
    /// Offers to `r` the outbox of `k`. Whether a message was kept.
    fn offer(&mut self, r: usize, k: usize) -> bool;
    /// Offers to `r` a message that came as a frame.
    fn receive(&mut self, r: usize, origin: u8, tag: Tag<Self::N>, op: &RawOp) -> Got;
    fn answer(&mut self, r: usize, kind: Kind, key: &[u8], out: &mut Vec<u8>);
    /// What else is asked of a list.
    fn list(&mut self, r: usize, key: &[u8], asked: Asked, out: &mut Vec<u8>);
    /// Begins the next epoch, of `n` members, in which nothing was sent: who is new begins with a copy of what member 0 has.
    fn regroup(&mut self, n: usize);
}

/// A world whose script runs.
struct Stage<W> { world: W, n: usize, limit: u32, bytes: Vec<u8> }
impl<W: World> Stage<W> {
    fn open(n: usize, w: u32, limit: u32) -> Self { Stage { world: W::open(n, w, limit), n, limit, bytes: Vec::new() } }
    /// Runs one line without its newline and final CR.
    fn line(&mut self, line: &[u8], out: &mut Vec<u8>) {
        let mut words: [&[u8]; 7] = [&[]; 7];
        let mut count = 0;
        let mut i = 0;
        let blank = |c: u8| c == b' ' || c == b'\t';
        let l = line.len();
        while count < 7 {
            while i < l && blank(line[i]) { i += 1; }
            if i == l { break; }
            let s = i;
            while i < l && !blank(line[i]) { i += 1; }
            words[count] = &line[s..i];
            count += 1;
        }
        if count == 0 || words[0][0] == b'#' { return; }
        if let Err(c) = self.run(line, &words[..count], out) {
            out.extend_from_slice(&[b'b', b'a', b'd', b' ', b'0' + c, b'\n']);
        }
    }
    fn run(&mut self, line: &[u8], w: &[&[u8]], out: &mut Vec<u8>) -> Result<(), u8> {
        if line.len() > LINE { return Err(1); }
        let (lo, hi) = match w[0] {
            b"do" => (4, 6), b"ask" | b"ids" | b"tombs" | b"resend" | b"raw" => (3, 3), b"give" => (4, 4),
            b"beat" | b"log" | b"size" | b"stable" | b"seen" | b"noops" | b"lags" => (2, 2), b"members" => (2, 2), b"settle" => (1, 1), _ => return Err(2),
        };
        if w.len() < lo || w.len() > hi { return Err(3); }
        if w[0] == b"settle" {
            out.extend_from_slice(if self.settle() { b"settled\n" } else { b"unsettled\n" });
            return Ok(());
        }
        if w[0] == b"members" {
            let n = number(w[1]).filter(|n| (1..=16).contains(n)).ok_or(8u8)?;
            self.regroup(n as usize, out);
            return Ok(());
        }
        let n = self.n;
        let member = |b: &[u8]| number(b).map(|x| x as usize).filter(|x| *x < n).ok_or(4u8);
        let r = member(w[1])?;
        match w[0] {
            b"do" => {
                let op = operation(w)?;
                match self.world.replica(r).may_local() {
                    Some(t) => out.extend_from_slice(t),
                    None => self.send(r, &op, out),
                }
            }
            b"ask" => {
                let (kind, key) = object(w[2]).ok_or(5u8)?;
                self.world.answer(r, kind, key, out);
            }
            b"ids" | b"tombs" => {
                let (_, key) = object(w[2]).filter(|(kind, _)| *kind == List).ok_or(5u8)?;
                self.world.list(r, key, if w[0] == b"ids" { Asked::Ids } else { Asked::Tombs }, out);
            }
            b"beat" => match self.world.replica(r).may_beat() {
                Some(t) => out.extend_from_slice(t),
                None => self.send(r, &NO_OP, out),
            },
            b"give" => {
                let k = member(w[2])?;
                let s = number(w[3]).ok_or(8u8)? as usize;
                match self.world.give(r, k, s) {
                    Some(g) => self.put_got(g, out),
                    None => out.extend_from_slice(b"unsent\n"),
                }
            }
            b"resend" => {
                let k = member(w[2])?;
                let kept = self.world.offer(r, k);
                if !self.world.steps().is_empty() { self.put_took(out) }
                else { out.extend_from_slice(if kept { b"kept\n" } else { b"none\n" }) }
            }
            b"raw" => {
                let mut bytes = std::mem::take(&mut self.bytes);
                let done = self.raw(r, w[2], &mut bytes, out);
                self.bytes = bytes;
                return done;
            }
            b"log" => self.world.replica(r).put_log(out),
            b"size" => self.world.replica(r).put_size(out),
            b"noops" => self.world.replica(r).put_noops(out),
            b"lags" => self.world.replica(r).put_lags(out),
            word => {
                let p = self.world.replica(r);
                p.put_tag(word, if word == b"stable" { &p.stable } else { &p.counts }, out);
            }
        }
        Ok(())
    }
    #[inline(always)]
    fn send(&mut self, r: usize, op: &RawOp, out: &mut Vec<u8>) {
        let seq = self.world.send(r, op);
        out.extend_from_slice(b"ok ");
        put(out, seq as u64);
        out.push(b'\n');
    }
    #[inline(always)]
    fn raw(&mut self, r: usize, digits: &[u8], bytes: &mut Vec<u8>, out: &mut Vec<u8>) -> Result<(), u8> {
        if !unhex(digits, bytes) { return Err(7); }
        match decode::<W::N>(bytes, self.n, self.limit, self.world.replica(0).epoch) {
            Err(f) => { out.extend_from_slice(b"bad frame "); put(out, f as u64); out.push(b'\n') }
            Ok((origin, tag, op)) => {
                let g = match self.world.replica(r).refuse(origin, &tag) {
                    Some(g) => g,
                    None => self.world.receive(r, origin, tag, &op),
                };
                self.put_got(g, out);
            }
        }
        Ok(())
    }
    fn settle(&mut self) -> bool {
        let (w, n) = (&mut self.world, self.n);
        loop {
            let mut moved = false;
            for r in 0..n {
                for k in 0..n {
                    w.offer(r, k);
                    moved |= w.steps().drain(..).any(|s| s.2);
                }
            }
            for r in 0..n {
                if w.replica(r).may_beat().is_none() {
                    w.send(r, &NO_OP);
                    moved = true;
                }
            }
            if !moved { break; }
        }
        self.is_settled()
    }
    /// Whether all replicas have delivered as many messages of each member.
    fn is_settled(&self) -> bool {
        let (w, n) = (&self.world, self.n);
        let first = w.replica(0).counts;
        (1..n).all(|r| w.replica(r).counts.0[..n] == first.0[..n])
    }
    fn regroup(&mut self, n: usize, out: &mut Vec<u8>) {
        let epoch = self.world.replica(0).epoch;
        if epoch == LAST { return out.extend_from_slice(b"last\n"); }
        if !self.is_settled() || !(0..self.n).all(|r| self.world.replica(r).is_at_rest()) { return out.extend_from_slice(b"unsettled\n"); }
        self.world.regroup(n);
        self.n = n;
        out.extend_from_slice(b"epoch ");
        put(out, epoch as u64 + 1);
        out.push(b'\n');
    }
    fn put_took(&mut self, out: &mut Vec<u8>) {
        out.extend_from_slice(b"took");
        for (k, s, ok) in self.world.steps().drain(..) {
            out.extend_from_slice(if ok { b" " } else { b" !" });
            put(out, k as u64); out.push(b':'); put(out, s as u64);
        }
        out.push(b'\n');
    }
    fn put_got(&mut self, g: Got, out: &mut Vec<u8>) {
        match g {
            Got::Old => out.extend_from_slice(b"old\n"), Got::Again => out.extend_from_slice(b"again\n"),
            Got::Far => out.extend_from_slice(b"far\n"), Got::Kept => out.extend_from_slice(b"kept\n"),
            Got::Took => self.put_took(out),
        }
    }
}

// ---------------------------------------------------------------- script mode
fn header(line: &[u8]) -> Option<(usize, u32, u32)> {
    if line.len() > LINE { return None; }
    let w: Vec<&[u8]> = line.split(|c| *c == b' ' || *c == b'\t').filter(|w| !w.is_empty()).collect();
    if !(3..=4).contains(&w.len()) || w[0] != b"store" { return None; }
    let n = number(w[1]).filter(|x| (1..=16).contains(x))?;
    let win = number(w[2]).filter(|x| (1..=64).contains(x))?;
    let limit = if w.len() == 4 { number(w[3]).filter(|x| (1..=1_000_000).contains(x))? } else { 10000 };
    Some((n as usize, win, limit))
}
/// The store of a script, once its header is read. Timestamps have half-words where the limit allows it.
enum Runner<S, L> { Empty, Small(Stage<S>), Large(Stage<L>) }
impl<S: World, L: World> Runner<S, L> {
    /// False where the first command line is no header.
    fn line(&mut self, line: &[u8], out: &mut Vec<u8>) -> bool {
        let line = if let [head @ .., b'\r'] = line { head } else { line };
        match self {
            Runner::Small(w) => { w.line(line, out); return true }
            Runner::Large(w) => { w.line(line, out); return true }
            Runner::Empty => {}
        }
        match line.iter().find(|c| **c != b' ' && **c != b'\t') {
            None | Some(b'#') => true,
            _ => match header(line) {
                Some((n, w, limit)) => {
                    *self = if limit <= 65535 { Runner::Small(Stage::open(n, w, limit)) } else { Runner::Large(Stage::open(n, w, limit)) };
                    true
                }
                None => false,
            },
        }
    }
}
fn newline(b: &[u8]) -> Option<usize> {
    const LO: u64 = 0x0101_0101_0101_0101;
    let mut i = 0;
    while let Some(c) = b.get(i..i + 8) {
        let x = u64::from_le_bytes(c.try_into().unwrap()) ^ (LO * b'\n' as u64);
        let hit = x.wrapping_sub(LO) & !x & (LO << 7);
        if hit != 0 { return Some(i + (hit.trailing_zeros() / 8) as usize); }
        i += 8;
    }
    b[i..].iter().position(|c| *c == b'\n').map(|p| i + p)
}
fn flush(out: &mut Vec<u8>, sink: &mut File) -> bool {
    let ok = sink.write_all(out).is_ok();
    out.clear();
    ok
}
fn script<S: World, L: World>(source: &mut File, sink: &mut File) -> i32 {
    let mut run = Runner::<S, L>::Empty;
    let mut buf = vec![0u8; BUF];
    let mut part: Vec<u8> = Vec::new(); // the line that has begun
    let mut out: Vec<u8> = Vec::with_capacity(2 * BUF);
    let mut taken = 0usize;
    loop {
        let ask = if taken == CAP { 1 } else { BUF.min(CAP - taken) };
        let k = match source.read(&mut buf[..ask]) {
            Ok(k) => k,
            Err(e) if e.kind() == ErrorKind::Interrupted => continue,
            Err(_) => return 4,
        };
        if k == 0 { break; }
        if taken == CAP { return 3; }
        taken += k;
        let mut rest = &buf[..k];
        while let Some(p) = newline(rest) {
            let good = if part.is_empty() { run.line(&rest[..p], &mut out) } else {
                part.extend_from_slice(&rest[..p]);
                let g = run.line(&part, &mut out);
                part.clear();
                g
            };
            if !good { return 2; }
            if out.len() >= BUF && !flush(&mut out, sink) { return 5; }
            rest = &rest[p + 1..];
        }
        part.extend_from_slice(rest);
        if !flush(&mut out, sink) { return 5; }
    }
    if !part.is_empty() && !run.line(&part, &mut out) { return 2; }
    if matches!(run, Runner::Empty) { return 2; }
    if flush(&mut out, sink) { 0 } else { 5 }
}
/// Runs the script that comes over standard input, with half-words or with words. The status is the proved program's.
pub fn main<S: World, L: World>() -> ! {
    let mut words = std::env::args_os().skip(1);
    if words.next().is_none_or(|w| w != "script") || words.next().is_some() { std::process::exit(1) }
    let Ok(fd) = std::io::stdout().as_fd().try_clone_to_owned() else { std::process::exit(5) };
    let mut sink = File::from(fd);
    std::process::exit(match std::io::stdin().as_fd().try_clone_to_owned() {
        Ok(fd) => script::<S, L>(&mut File::from(fd), &mut sink),
        Err(_) => 4,
    })
}
