//! The program of two_phones.c in Rust, by plain rustc: `extern "C"` declarations of the library, and a safe type over them.
//! build.sh builds it; expected.txt has what it prints.

use std::ffi::c_void;

const DONE: i32 = 0;
const NO_PEER: i32 = 2;
const NO_ROOM: i32 = 4;
const KEPT: i32 = 10;
const OLD: i32 = 11;
const NO_FRAME: i32 = 14;
const BAD_TEXT: i32 = 20;
const MOST_FRAME: usize = 4214;

/// `struct munsikap_peer`. It is neither `Send` nor `Clone`: all calls of a handle stay on one thread, and no copy is a peer.
#[repr(C)]
struct Peer {
    at: *mut c_void,
    full: bool,
}

extern "C" {
    fn munsikap_create(peer: &mut Peer, me: u8, n: u8, w: u8, limit: u32) -> i32;
    fn munsikap_free(peer: &mut Peer);
    fn munsikap_update(peer: &mut Peer, text: *const u8, length: usize, frame: *mut u8, room: usize, count: &mut usize) -> i32;
    fn munsikap_beat(peer: &mut Peer, frame: *mut u8, room: usize, count: &mut usize) -> i32;
    fn munsikap_hear(peer: &mut Peer, bytes: *const u8, length: usize, delivered: &mut usize, steps: &mut usize) -> i32;
    fn munsikap_frame(peer: &mut Peer, place: usize, frame: *mut u8, room: usize, count: &mut usize) -> i32;
    fn munsikap_ask(peer: &mut Peer, object: *const u8, length: usize, line: *mut u8, room: usize, count: &mut usize) -> i32;
    fn munsikap_seen(peer: &mut Peer, member: u8, number: &mut u32) -> i32;
    fn munsikap_stable(peer: &mut Peer, member: u8, number: &mut u32) -> i32;
}

// SAFETY of the calls below: pointers and lengths are those of slices that are borrowed for the call, the handle comes from
// `empty`, and Rust's references keep it and what is written to apart.
impl Peer {
    fn empty() -> Peer {
        Peer { at: std::ptr::null_mut(), full: false }
    }

    fn create(me: u8, n: u8, w: u8, limit: u32) -> Result<Peer, i32> {
        let mut peer = Peer::empty();
        match unsafe { munsikap_create(&mut peer, me, n, w, limit) } {
            DONE => Ok(peer),
            code => Err(code),
        }
    }

    /// The bytes that a call hands out, which is tried once more where its buffer was too small.
    fn handed_out(room: usize, mut call: impl FnMut(&mut [u8], &mut usize) -> i32) -> Result<Vec<u8>, i32> {
        let (mut bytes, mut count) = (vec![0; room], 0);
        let mut code = call(&mut bytes, &mut count);
        if code == NO_ROOM {
            bytes.resize(count, 0);
            code = call(&mut bytes, &mut count);
        }
        bytes.truncate(count);
        if code == DONE { Ok(bytes) } else { Err(code) }
    }

    fn update(&mut self, text: &str) -> Result<Vec<u8>, i32> {
        Peer::handed_out(MOST_FRAME, |frame, count| unsafe {
            munsikap_update(self, text.as_ptr(), text.len(), frame.as_mut_ptr(), frame.len(), count)
        })
    }

    fn beat(&mut self) -> Result<Vec<u8>, i32> {
        Peer::handed_out(MOST_FRAME, |frame, count| unsafe { munsikap_beat(self, frame.as_mut_ptr(), frame.len(), count) })
    }

    fn hear(&mut self, bytes: &[u8]) -> Result<usize, i32> {
        let (mut delivered, mut steps) = (0, 0);
        match unsafe { munsikap_hear(self, bytes.as_ptr(), bytes.len(), &mut delivered, &mut steps) } {
            DONE => Ok(delivered),
            code => Err(code),
        }
    }

    fn frame(&mut self, place: usize) -> Result<Vec<u8>, i32> {
        Peer::handed_out(MOST_FRAME, |frame, count| unsafe {
            munsikap_frame(self, place, frame.as_mut_ptr(), frame.len(), count)
        })
    }

    fn ask(&mut self, object: &str) -> Result<String, i32> {
        let line = Peer::handed_out(1, |line, count| unsafe {
            munsikap_ask(self, object.as_ptr(), object.len(), line.as_mut_ptr(), line.len(), count)
        })?;
        Ok(String::from_utf8(line).expect("a line is UTF-8"))
    }

    /// How many of a member's messages were delivered here, and how many all members are known to have.
    fn counts(&mut self, member: u8) -> Result<(u32, u32), i32> {
        let (mut seen, mut stable) = (0, 0);
        match unsafe { (munsikap_seen(self, member, &mut seen), munsikap_stable(self, member, &mut stable)) } {
            (DONE, DONE) => Ok((seen, stable)),
            (DONE, code) | (code, _) => Err(code),
        }
    }
}

impl Drop for Peer {
    fn drop(&mut self) {
        unsafe { munsikap_free(self) }
    }
}

/// Brings a frame to a phone, and prints what comes of it.
fn bring(what: &str, frame: &[u8], name: &str, phone: &mut Peer) {
    match phone.hear(frame) {
        Ok(delivered) => println!("{what}: {name} takes {delivered}"),
        Err(KEPT) => println!("{what}: {name} keeps it, since an earlier one is missing"),
        Err(OLD) => println!("{what}: {name} has it"),
        Err(code) => println!("{what}: {name} answers {code}"),
    }
}

/// Prints what both phones have on the list.
fn show(ann: &mut Peer, ben: &mut Peer) -> Result<(), i32> {
    print!("Ann {}Ben {}", ann.ask("awset:list")?, ben.ask("awset:list")?);
    Ok(())
}

/// Sends again what isn't known to be everywhere.
fn send_again(from: &mut Peer, name: &str, to: &mut Peer) -> Result<(), i32> {
    for place in 0.. {
        match from.frame(place) {
            Ok(frame) => bring(&format!("sent again, frame {place}"), &frame, name, to),
            Err(NO_FRAME) => break,
            Err(code) => return Err(code),
        }
    }
    Ok(())
}

fn main() -> Result<(), i32> {
    let (mut ann, mut ben) = (Peer::create(0, 2, 8, 10000)?, Peer::create(1, 2, 8, 10000)?);

    ann.update("awset:list add bread")?;
    println!("Ann adds bread: the frame is lost");
    bring("Ann adds milk", &ann.update("awset:list add milk")?, "Ben", &mut ben);
    bring("Ben adds eggs", &ben.update("awset:list add eggs")?, "Ann", &mut ann);
    show(&mut ann, &mut ben)?;

    send_again(&mut ann, "Ben", &mut ben)?;
    bring("Ben beats", &ben.beat()?, "Ann", &mut ann);
    show(&mut ann, &mut ben)?;
    for (name, phone, member) in [("Ann", &mut ann, 0), ("Ben", &mut ben, 1)] {
        let (seen, stable) = phone.counts(member)?;
        println!("{name} has {seen} of member {member}, and all have {stable}");
    }

    bring("bytes that are no frame", b"?", "Ann", &mut ann);
    assert_eq!(ann.update("awset:list inc 1"), Err(BAD_TEXT + 6));
    assert_eq!(Peer::empty().beat(), Err(NO_PEER));
    Ok(())
}
