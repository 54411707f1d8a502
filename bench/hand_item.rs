// What handing numbers over costs with the channel of Rust's std. Words: how many threads, 1 or 2; how many places; how many
// numbers. Prints their sum.
use std::sync::mpsc::{sync_channel, Receiver, SyncSender};
use std::thread;

fn put(ends: &SyncSender<u64>, number: u64) -> bool {
    ends.try_send(number).is_ok()
}

fn put_all(ends: SyncSender<u64>, count: u64) {
    let mut number = 0;
    while number < count {
        if put(&ends, number) {
            number += 1;
        } else {
            thread::yield_now();
        }
    }
}

fn take_all(ends: Receiver<u64>, count: u64) -> u64 {
    let (mut left, mut sum) = (count, 0u64);
    while left > 0 {
        match ends.try_recv() {
            Ok(number) => {
                sum = sum.wrapping_add(number);
                left -= 1;
            }
            Err(_) => thread::yield_now(),
        }
    }
    sum
}

fn main() {
    let words: Vec<u64> = std::env::args().skip(1).map(|word| word.parse().unwrap()).collect();
    let [threads, places, count] = words[..] else { panic!("three numbers are wanted") };
    let (sender, receiver) = sync_channel(places as usize);
    let sum = if threads == 1 {
        let mut sum = 0u64;
        for number in 0..count {
            if put(&sender, number) {
                if let Ok(number) = receiver.try_recv() {
                    sum = sum.wrapping_add(number);
                }
            }
        }
        sum
    } else {
        let putter = thread::spawn(move || put_all(sender, count));
        let sum = take_all(receiver, count);
        putter.join().unwrap();
        sum
    };
    println!("{sum}");
}
