//! The turns of `store_bench locks` under the standard library's mutex, in plain Rust, for `bench/locks` to compare.
//!
//! Its words are those behind `locks`: `act` or `leave`, how many threads there are, how many turns each takes, and how
//! many steps of work each turn makes. It prints the number that these leave.

use std::env;
use std::hint::black_box;
use std::sync::Mutex;
use std::thread;

fn mixed(number: u64, steps: u32) -> u64 {
    let mut number = number;
    for _ in 0..steps {
        number = (number ^ (number >> 7)).wrapping_mul(0x9e37_79b9_7f4a_7c15);
    }
    number
}

fn take_turns(number: &Mutex<u64>, acts: bool, turns: u32, steps: u32) {
    for _ in 0..turns {
        let mut number = number.lock().unwrap();
        let after = mixed(black_box(*number), steps);
        *number = if acts { after.wrapping_add(1) } else { after };
    }
}

fn main() {
    let words: Vec<String> = env::args().collect();
    let [_, part, threads, turns, steps] = words.as_slice() else {
        panic!("the words are a part, and numbers of threads, turns and steps");
    };
    let acts = match part.as_str() {
        "act" => true,
        "leave" => false,
        _ => panic!("no part: {part}"),
    };
    let threads: u32 = threads.parse().expect("reading the threads");
    let turns: u32 = turns.parse().expect("reading the turns");
    let steps: u32 = steps.parse().expect("reading the steps");
    let number = Mutex::new(0);
    thread::scope(|scope| {
        for _ in 0..threads {
            scope.spawn(|| take_turns(&number, acts, turns, steps));
        }
    });
    println!("{}", number.into_inner().unwrap());
}
