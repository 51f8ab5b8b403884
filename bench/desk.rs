//! The same work as so many lines `turns THREADS` of `case_rooms`, over a mutex of std and a queue: `desk THREADS ROUNDS`.
use std::collections::VecDeque;
use std::sync::Mutex;
use std::{env, hint, thread};

const PASSES: usize = 64;
const TURNS: u64 = 4096;

struct Sum {
    sum: u64,
    entries: VecDeque<u64>,
}

fn turn(sum: &Mutex<Sum>, event: u64) -> u64 {
    let mut sum = sum.lock().unwrap();
    sum.sum = sum.sum.wrapping_add(event);
    sum.entries.push_back(event);
    sum.sum
}

fn round(threads: usize) -> u64 {
    let entries = VecDeque::with_capacity(PASSES * TURNS as usize);
    let sum = Mutex::new(Sum { sum: 0, entries });
    let passes = [(); PASSES];
    thread::scope(|scope| {
        for part in passes.chunks(PASSES.div_ceil(threads)) {
            let sum = &sum;
            scope.spawn(move || {
                for _ in part {
                    for event in 0..TURNS {
                        hint::black_box(turn(sum, event));
                    }
                }
            });
        }
    });
    sum.into_inner().unwrap().sum
}

fn main() {
    let words: Vec<usize> = env::args().skip(1).map(|word| word.parse().unwrap()).collect();
    let sum = (0..words[1]).fold(0u64, |sum, _| sum.wrapping_add(round(words[0])));
    println!("{sum}");
}
