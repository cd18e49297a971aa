//! The frames of this store in plain Rust, for `bench/run` to measure beside the proved ones: the same calls, the same
//! words, the same loops, and nothing proved.

use std::env;
use std::process::exit;

const LIMIT: u32 = 1_000_000;
const EPOCH: u32 = 0;

#[derive(Clone, PartialEq)]
struct Key {
    len: u8,
    bytes: [u8; 32],
}

impl Key {
    fn read(bytes: &[u8]) -> Option<Key> {
        if bytes.is_empty() || bytes.len() > 32 {
            return None;
        }
        if !bytes.iter().all(|b| matches!(b, b'a'..=b'z' | b'0'..=b'9' | b'_' | b'.' | b'-')) {
            return None;
        }
        let mut key = Key { len: bytes.len() as u8, bytes: [0; 32] };
        key.bytes[..bytes.len()].copy_from_slice(bytes);
        Some(key)
    }

    fn as_slice(&self) -> &[u8] {
        &self.bytes[..self.len as usize]
    }
}

#[derive(Clone, PartialEq)]
struct Value(Vec<u8>);

impl Value {
    fn read(bytes: &[u8]) -> Option<Value> {
        if bytes.is_empty() || bytes.len() > 4096 {
            return None;
        }
        if !bytes.iter().all(|b| *b > 0x20 && *b != 0x7F) || std::str::from_utf8(bytes).is_err() {
            return None;
        }
        Some(Value(bytes.to_vec()))
    }
}

#[derive(Clone, Copy, PartialEq)]
enum Kind {
    AwSet,
    RwSet,
    EwFlag,
    DwFlag,
    MvReg,
    Counter,
    RCounter,
}

#[derive(Clone, PartialEq)]
enum Act {
    Add(Value),
    Rmv(Value),
    Clear,
    Enable,
    Disable,
    Write(Value),
    Inc(u32),
    Dec(u32),
}

#[derive(Clone, PartialEq)]
struct Update {
    kind: Kind,
    key: Key,
    act: Act,
}

#[derive(Clone, PartialEq)]
enum Op {
    NoOp,
    Update(Update),
}

#[derive(Clone, PartialEq)]
struct Message {
    origin: u8,
    n: u8,
    tag: [u32; 16],
    op: Op,
}

/// Why bytes are no frame.
#[derive(Debug)]
enum Fault {
    Short,
    Version,
    Epoch,
    Members,
    Origin,
    Code,
    Number,
    BadKey,
    Argument,
    Rest,
}

fn code(op: &Op) -> u8 {
    let Op::Update(update) = op else { return 0 };
    match (update.kind, &update.act) {
        (Kind::AwSet, Act::Add(_)) => 1,
        (Kind::AwSet, Act::Rmv(_)) => 2,
        (Kind::AwSet, Act::Clear) => 3,
        (Kind::RwSet, Act::Add(_)) => 4,
        (Kind::RwSet, Act::Rmv(_)) => 5,
        (Kind::RwSet, Act::Clear) => 6,
        (Kind::EwFlag, Act::Enable) => 7,
        (Kind::EwFlag, Act::Disable) => 8,
        (Kind::EwFlag, Act::Clear) => 9,
        (Kind::DwFlag, Act::Enable) => 10,
        (Kind::DwFlag, Act::Disable) => 11,
        (Kind::DwFlag, Act::Clear) => 12,
        (Kind::MvReg, Act::Write(_)) => 13,
        (Kind::MvReg, Act::Clear) => 14,
        (Kind::Counter, Act::Inc(_)) => 15,
        (Kind::Counter, Act::Dec(_)) => 16,
        (Kind::RCounter, Act::Inc(_)) => 17,
        (Kind::RCounter, Act::Dec(_)) => 18,
        (Kind::RCounter, Act::Clear) => 19,
        _ => 0,
    }
}

fn put_text(out: &mut Vec<u8>, text: &[u8]) {
    out.extend_from_slice(&(text.len() as u16).to_be_bytes());
    out.extend_from_slice(text);
}

fn encode(message: &Message, n: u8, epoch: u32) -> Vec<u8> {
    let fields = match &message.op {
        Op::NoOp => 0,
        Op::Update(update) => {
            2 + update.key.as_slice().len()
                + match &update.act {
                    Act::Add(value) | Act::Rmv(value) | Act::Write(value) => 2 + value.0.len(),
                    Act::Inc(_) | Act::Dec(_) => 4,
                    Act::Clear | Act::Enable | Act::Disable => 0,
                }
        }
    };
    let mut out = Vec::with_capacity(8 + 4 * n as usize + fields);
    out.extend_from_slice(&[2, message.origin, n, code(&message.op)]);
    out.extend_from_slice(&epoch.to_be_bytes());
    for number in &message.tag[..n as usize] {
        out.extend_from_slice(&number.to_be_bytes());
    }
    if let Op::Update(update) = &message.op {
        put_text(&mut out, update.key.as_slice());
        match &update.act {
            Act::Add(value) | Act::Rmv(value) | Act::Write(value) => put_text(&mut out, &value.0),
            Act::Inc(amount) | Act::Dec(amount) => out.extend_from_slice(&amount.to_be_bytes()),
            Act::Clear | Act::Enable | Act::Disable => {}
        }
    }
    out
}

fn number(bytes: &[u8]) -> u32 {
    u32::from_be_bytes([bytes[0], bytes[1], bytes[2], bytes[3]])
}

fn text_field(bytes: &[u8], is_old: bool) -> Option<(&[u8], &[u8])> {
    let (len, rest) = if is_old {
        let (len, rest) = bytes.split_first()?;
        (*len as usize, rest)
    } else {
        let (len, rest) = bytes.split_at_checked(2)?;
        (u16::from_be_bytes([len[0], len[1]]) as usize, rest)
    };
    rest.split_at_checked(len)
}

fn value_field(bytes: &[u8], is_old: bool) -> Result<(Value, &[u8]), Fault> {
    let (text, rest) = text_field(bytes, is_old).ok_or(Fault::Argument)?;
    if is_old && text.len() > 64 {
        return Err(Fault::Argument);
    }
    Ok((Value::read(text).ok_or(Fault::Argument)?, rest))
}

fn amount_field(bytes: &[u8]) -> Result<(u32, &[u8]), Fault> {
    let (field, rest) = bytes.split_at_checked(4).ok_or(Fault::Argument)?;
    Ok((number(field), rest))
}

fn operation(code: u8, bytes: &[u8], is_old: bool) -> Result<(Op, &[u8]), Fault> {
    if code == 0 {
        return Ok((Op::NoOp, bytes));
    }
    let (text, rest) = text_field(bytes, is_old).ok_or(Fault::BadKey)?;
    let key = Key::read(text).ok_or(Fault::BadKey)?;
    let kind = match code {
        1..=3 => Kind::AwSet,
        4..=6 => Kind::RwSet,
        7..=9 => Kind::EwFlag,
        10..=12 => Kind::DwFlag,
        13 | 14 => Kind::MvReg,
        15 | 16 => Kind::Counter,
        _ => Kind::RCounter,
    };
    let (act, rest) = match code {
        1 | 4 => value_field(rest, is_old).map(|(value, rest)| (Act::Add(value), rest))?,
        2 | 5 => value_field(rest, is_old).map(|(value, rest)| (Act::Rmv(value), rest))?,
        13 => value_field(rest, is_old).map(|(value, rest)| (Act::Write(value), rest))?,
        15 | 17 => amount_field(rest).map(|(amount, rest)| (Act::Inc(amount), rest))?,
        16 | 18 => amount_field(rest).map(|(amount, rest)| (Act::Dec(amount), rest))?,
        7 | 10 => (Act::Enable, rest),
        8 | 11 => (Act::Disable, rest),
        _ => (Act::Clear, rest),
    };
    Ok((Op::Update(Update { kind, key, act }), rest))
}

fn decode(bytes: &[u8], n: u8, epoch: u32, limit: u32) -> Result<Message, Fault> {
    let is_old = bytes.first() != Some(&2);
    let begin = if is_old { 4 } else { 8 };
    if bytes.len() < begin + 4 * n as usize {
        return Err(Fault::Short);
    }
    let (version, origin, members, code) = (bytes[0], bytes[1], bytes[2], bytes[3]);
    if is_old && (version != 1 || epoch != 0) {
        return Err(Fault::Version);
    }
    if !is_old && number(&bytes[4..]) != epoch {
        return Err(Fault::Epoch);
    }
    if members != n {
        return Err(Fault::Members);
    }
    if origin >= n {
        return Err(Fault::Origin);
    }
    if code > 19 {
        return Err(Fault::Code);
    }
    let (numbers, fields) = bytes[begin..].split_at(4 * n as usize);
    let mut tag = [0; 16];
    for (entry, field) in tag.iter_mut().zip(numbers.chunks_exact(4)) {
        *entry = number(field);
    }
    if tag[origin as usize] == 0 || tag.iter().any(|entry| *entry > limit) {
        return Err(Fault::Number);
    }
    let (op, rest) = operation(code, fields, is_old)?;
    if !rest.is_empty() {
        return Err(Fault::Rest);
    }
    Ok(Message { origin, n, tag, op })
}

/// How many bytes a message's value has, 0 where it has none.
fn value_len(message: &Message) -> u64 {
    match &message.op {
        Op::Update(Update { act: Act::Add(value), .. }) => value.0.len() as u64,
        _ => 0,
    }
}

fn main() {
    let words: Vec<String> = env::args().collect();
    let [_, call, members, key, text, times, count] = words.as_slice() else {
        exit(2);
    };
    let number = |word: &String| word.parse::<usize>().expect("a number");
    let n = number(members) as u8;
    let op = match number(key) {
        0 => Op::NoOp,
        key => Op::Update(Update {
            kind: Kind::AwSet,
            key: Key::read(&vec![b'k'; key]).expect("a key"),
            act: Act::Add(Value::read(text.repeat(number(times)).as_bytes()).expect("a value")),
        }),
    };
    let mut tag = [0; 16];
    tag[..n as usize].fill(LIMIT);
    let message = Message { origin: n - 1, n, tag, op };
    let mut bytes = 0u64;
    match call.as_str() {
        "encode" => {
            for _ in 0..number(count) {
                bytes += encode(&message, n, EPOCH).len() as u64;
            }
        }
        "decode" => {
            let frame = encode(&message, n, EPOCH);
            let mut last = decode(&frame, n, EPOCH, LIMIT).expect("a frame");
            for _ in 0..number(count) {
                last = decode(&frame, n, EPOCH, LIMIT).expect("a frame");
                bytes += frame.len() as u64;
            }
            assert!(last == message);
        }
        "copy" => {
            let mut last = message.clone();
            for _ in 0..number(count) {
                last = message.clone();
                bytes += value_len(&last);
            }
            assert!(last == message);
        }
        _ => exit(2),
    }
    println!("{bytes}");
}
