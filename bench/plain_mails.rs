//! What `store_bench mails` does, over a `VecDeque` behind std's `Mutex`.

use std::collections::VecDeque;
use std::env;
use std::sync::Mutex;
use std::thread;

const CAPACITY: usize = 1024;

fn post(mailbox: &Mutex<VecDeque<u64>>, number: u64) -> Result<(), u64> {
    let mut queue = mailbox.lock().unwrap();
    if queue.len() == CAPACITY {
        return Err(number);
    }
    queue.push_back(number);
    Ok(())
}

fn take(mailbox: &Mutex<VecDeque<u64>>) -> Option<u64> {
    mailbox.lock().unwrap().pop_front()
}

fn work(mailbox: &Mutex<VecDeque<u64>>, count: u64) -> u64 {
    let mut posted = 0;
    let mut taken = 0;
    let mut sum = 0u64;
    while posted < count || taken < count {
        if posted < count && post(mailbox, posted).is_ok() {
            posted += 1;
        }
        if taken < count {
            match take(mailbox) {
                Some(number) => {
                    sum = sum.wrapping_add(number);
                    taken += 1;
                }
                None => thread::yield_now(),
            }
        }
    }
    sum
}

fn main() {
    let words: Vec<String> = env::args().collect();
    let [_, threads, count] = words.as_slice() else {
        panic!("the words are how many threads and how many numbers");
    };
    let threads: u32 = threads.parse().unwrap();
    let count: u64 = count.parse().unwrap();
    let mailbox = Mutex::new(VecDeque::with_capacity(CAPACITY));
    let sum = thread::scope(|scope| {
        let workers: Vec<_> = (0..threads).map(|_| scope.spawn(|| work(&mailbox, count))).collect();
        workers.into_iter().fold(0u64, |sum, worker| sum.wrapping_add(worker.join().unwrap()))
    });
    println!("{sum}");
}
