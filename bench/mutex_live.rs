// A live run without proofs: the same lines, workers, mailboxes, settling and text as the proved program's mode live, over plain
// replicas, each behind a Mutex of the standard library, as its mailbox is. `bench/live` builds it and runs it beside the
// proved program. It takes the word `live`.
// Build: rustc --edition 2021 -C opt-level=3 mutex_live.rs
#![allow(dead_code)] // of what scripts need
#[path = "plain/member.rs"]
mod member;
mod plain {
    pub mod lists;
    pub mod replica;
    pub mod text;
}
use member::{offer, Member, Message, Note};
use plain::text::*;
use std::collections::{BTreeMap, VecDeque};
use std::io::{Read, Write};
use std::process::exit;
use std::sync::Mutex;
use std::thread;

/// The bytes of the longest input, what a member may send, the letters of a mailbox, and what a courier posts and takes in a
/// turn.
const CAP: u64 = 4_194_304;
const LIMIT: u32 = 65_535;
const MAILBOX: usize = 256;
const POSTED: usize = 32;
const TAKEN: usize = 64;

// ---------------------------------------------------------------- the input
struct Header { n: usize, w: u32, clients: usize, turns: u32, loss: u32 }
enum Command<'a> { Do(RawOp<'a>), Ask(Kind, &'a [u8]) }
/// Each client's commands and replica, the objects by their texts, and the text so far.
struct Input<'a> {
    header: Header, commands: Vec<Vec<Command<'a>>>, at: Vec<usize>, objects: BTreeMap<&'a [u8], (Kind, &'a [u8])>, text: Vec<u8>,
}

fn header(words: &[&[u8]]) -> Option<Header> {
    let [b"live", n, w, clients, turns, loss] = words else { return None };
    let within = |word: &[u8], low: u32, high: u32| number(word).filter(|x| (low..=high).contains(x));
    Some(Header {
        n: within(n, 1, 16)? as usize, w: within(w, 1, 64)?, clients: within(clients, 1, 8)? as usize,
        turns: within(turns, 0, 10_000)?, loss: within(loss, 0, 1_000_000)?,
    })
}
impl<'a> Input<'a> {
    /// Reads an input. The text begins with its bad lines.
    fn read(bytes: &'a [u8]) -> Option<Input<'a>> {
        let mut input: Option<Input> = None;
        for (at, line) in bytes.split(|c| *c == b'\n').enumerate() {
            let line = line.strip_suffix(b"\r").unwrap_or(line);
            let words: Vec<&[u8]> = line.split(|c| *c == b' ' || *c == b'\t').filter(|word| !word.is_empty()).collect();
            if words.is_empty() || words[0][0] == b'#' { continue; }
            let Some(input) = &mut input else {
                let header = header(&words).filter(|_| line.len() <= LINE)?;
                input = Some(Input {
                    commands: (0..header.clients).map(|_| Vec::new()).collect(),
                    at: (0..header.clients).map(|c| c % header.n).collect(),
                    objects: BTreeMap::new(), text: Vec::new(), header,
                });
                continue;
            };
            let taken = if line.len() > LINE { Err(1) } else { input.take(&words) };
            if let Err(code) = taken { writeln!(input.text, "bad line {} {code}", at + 1).unwrap(); }
        }
        input
    }
    fn take(&mut self, words: &[&'a [u8]]) -> Result<(), u8> {
        let below = |word: &[u8], n: usize| number(word).map(|x| x as usize).filter(|x| *x < n).ok_or(4u8);
        if words[0] == b"client" {
            let [_, c, r] = words else { return Err(3) };
            let (c, r) = (below(c, self.header.clients)?, below(r, self.header.n)?);
            self.at[c] = r;
            return Ok(());
        }
        let [digits @ .., b':'] = words[0] else { return Err(2) };
        if digits.is_empty() || !digits.iter().all(u8::is_ascii_digit) { return Err(2); }
        let command = match words.get(1) {
            None => return Err(3),
            Some(&b"do") if (4..=6).contains(&words.len()) => {
                let c = below(digits, self.header.clients)?;
                (c, words[2], Command::Do(operation(words)?))
            }
            Some(&b"ask") if words.len() == 3 => {
                let c = below(digits, self.header.clients)?;
                let (kind, key) = object(words[2]).ok_or(5u8)?;
                (c, words[2], Command::Ask(kind, key))
            }
            Some(&b"do" | &b"ask") => return Err(3),
            Some(_) => return Err(2),
        };
        let (c, name, command) = command;
        self.objects.insert(name, object(name).unwrap());
        self.commands[c].push(command);
        Ok(())
    }
}

// ---------------------------------------------------------------- the workers
type Letter = Message<u16>;
struct Node { member: Mutex<Member<u16>>, mailbox: Mutex<VecDeque<Letter>> }
/// What a client was told at a place of the journal, as text.
struct Told { place: usize, text: Vec<u8> }

/// One call that sends an operation.
fn send(member: &Mutex<Member<u16>>, op: &RawOp) -> (Told, bool) {
    let mut member = member.lock().unwrap();
    if let Some(why) = member.state.may_local() {
        return (Told { place: member.journal.len(), text: why.to_vec() }, why == b"busy\n");
    }
    let mut text = b"ok ".to_vec();
    put(&mut text, member.send(op).seq() as u64);
    text.push(b'\n');
    (Told { place: member.journal.len(), text }, false)
}
fn ask(member: &Mutex<Member<u16>>, kind: Kind, key: &[u8]) -> Told {
    let member = &mut *member.lock().unwrap();
    let mut text = Vec::new();
    answer(member, kind, key, &mut text);
    Told { place: member.journal.len(), text }
}
fn answer(member: &mut Member<u16>, kind: Kind, key: &[u8], out: &mut Vec<u8>) {
    let found = member.names.find(kind as u32, key, Names::hash(kind as u32, key)).ok();
    member.state.answer(found, kind, &member.names, out);
}
/// A client makes its commands in order. After `busy` it yields, and makes the same call again, so often at most.
fn work_as_client(node: &Node, commands: &[Command], turns: u32) -> Vec<Told> {
    commands.iter().map(|command| match command {
        Command::Ask(kind, key) => ask(&node.member, *kind, key),
        Command::Do(op) => {
            let (mut told, mut is_busy) = send(&node.member, op);
            for _ in 0..turns {
                if !is_busy { break; }
                thread::yield_now();
                (told, is_busy) = send(&node.member, op);
            }
            told
        }
    }).collect()
}
/// A courier makes its turns, and yields after each.
fn work_as_courier(nodes: &[Node], r: usize, turns: u32, loss: u32) {
    let (me, mut number, mut steps) = (&nodes[r], 0u32, Vec::new());
    for _ in 0..turns {
        let letters: Vec<Letter> = me.member.lock().unwrap().outbox.iter().take(POSTED).cloned().collect();
        for letter in &letters {
            for (x, other) in nodes.iter().enumerate() {
                if x == r { continue; }
                number = number.wrapping_add(1);
                if loss != 0 && number % loss == 0 { continue; }
                let letter = letter.clone();
                let mut mailbox = other.mailbox.lock().unwrap();
                if mailbox.len() < MAILBOX { mailbox.push_back(letter); }
            }
        }
        let mut taken = 0;
        while taken < TAKEN {
            let Some(letter) = me.mailbox.lock().unwrap().pop_front() else { break };
            me.member.lock().unwrap().receive(&letter, &mut steps);
            steps.clear();
            taken += 1;
        }
        beat(&mut me.member.lock().unwrap());
        thread::yield_now();
    }
}
/// Whether a no-op was due, and was sent.
fn beat(member: &mut Member<u16>) -> bool {
    let may = member.state.may_beat().is_none();
    if may { member.send(&NO_OP); }
    may
}
/// Each client and each courier works in a thread of its own. What each client was told.
fn work(nodes: &[Node], input: &Input) -> Vec<Vec<Told>> {
    let Header { turns, loss, .. } = input.header;
    thread::scope(|scope| {
        let clients = input.commands.iter().zip(&input.at);
        let clients: Vec<_> = clients.map(|(commands, r)| scope.spawn(|| work_as_client(&nodes[*r], commands, turns))).collect();
        for r in 0..nodes.len() { scope.spawn(move || work_as_courier(nodes, r, turns, loss)); }
        clients.into_iter().map(|client| client.join().unwrap()).collect()
    })
}
/// Rounds, until one moves nothing.
fn settle(members: &mut [Member<u16>]) {
    let (mut moved, mut steps, n) = (true, Vec::new(), members.len());
    while moved {
        moved = false;
        for r in 0..n {
            for k in 0..n {
                offer(members, r, k, &mut steps);
                moved |= steps.drain(..).any(|step| step.2);
            }
        }
        for member in members.iter_mut() { moved |= beat(member); }
    }
}

// ---------------------------------------------------------------- the text
fn put_frame(word: &[u8], message: &Letter, n: usize, out: &mut Vec<u8>) {
    out.extend_from_slice(word);
    for byte in message.frame(n, 0) {
        out.extend([byte >> 4, byte & 15].map(|digit| b"0123456789abcdef"[digit as usize]));
    }
    out.push(b'\n');
}
fn put_words(word: &[u8], numbers: &[usize], by: u8, out: &mut Vec<u8>) {
    out.extend_from_slice(word);
    for (at, number) in numbers.iter().enumerate() {
        out.push(if at == 0 { b' ' } else { by });
        put(out, *number as u64);
    }
}
fn put_note(note: &Note<u16>, n: usize, out: &mut Vec<u8>) {
    match note {
        Note::Sent(m) => return put_frame(b"sent ", m, n, out),
        Note::Kept(m) => return put_frame(b"kept ", m, n, out),
        Note::Took(k, s) => put_words(b"took", &[*k as usize, *s as usize], b':', out),
        Note::Crook(k, s) => put_words(b"crook", &[*k as usize, *s as usize], b':', out),
        Note::Regroup(..) => return,
    }
    out.push(b'\n');
}
fn put_text(input: &Input, told: &[Vec<Told>], members: &mut [Member<u16>], out: &mut Vec<u8>) {
    for (c, told) in told.iter().enumerate() {
        for (i, told) in told.iter().enumerate() {
            put_words(b"reply", &[c, i + 1, told.place], b' ', out);
            out.push(b' ');
            out.extend_from_slice(&told.text);
        }
    }
    out.extend_from_slice(b"settled\n");
    for (r, member) in members.iter().enumerate() {
        put_words(b"journal", &[r, member.journal.len()], b' ', out);
        out.push(b'\n');
        for note in &member.journal { put_note(note, members.len(), out); }
    }
    for (name, (kind, key)) in &input.objects {
        for (r, member) in members.iter_mut().enumerate() {
            put_words(b"final", &[r], b' ', out);
            out.push(b' ');
            out.extend_from_slice(name);
            out.push(b' ');
            answer(member, *kind, key, out);
        }
    }
}

fn main() {
    let words: Vec<_> = std::env::args().skip(1).collect();
    if words != ["live"] { exit(1) }
    let mut bytes = Vec::new();
    if std::io::stdin().take(CAP + 1).read_to_end(&mut bytes).is_err() { exit(4) }
    let Some(mut input) = Input::read(&bytes[..bytes.len().min(CAP as usize)]) else { exit(2) };
    if bytes.len() > CAP as usize { exit(3) }
    let Header { n, w, .. } = input.header;
    let open = |r| Node { member: Mutex::new(Member::new(r, n, w, LIMIT)), mailbox: Mutex::new(VecDeque::new()) };
    let nodes: Vec<Node> = (0..n).map(open).collect();
    let told = work(&nodes, &input);
    let mut members: Vec<_> = nodes.into_iter().map(|node| node.member.into_inner().unwrap()).collect();
    settle(&mut members);
    let mut text = std::mem::take(&mut input.text);
    put_text(&input, &told, &mut members, &mut text);
    if std::io::stdout().write_all(&text).is_err() { exit(5) }
}
