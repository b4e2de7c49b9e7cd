//! Threads that meet, with Rust's library: threads KIND WIDTH LENGTH
//!
//! turns: WIDTH threads meet at one `Barrier`, LENGTH times. ring: each has a count of its own behind a
//! lock, adds one, and waits until its left neighbour's is as great. stencil: WIDTH cells go LENGTH steps,
//! and all meet at one `Barrier` after each. pipeline: LENGTH items go through WIDTH stages, and so do the
//! source, the stages and the sink. Printed are nanoseconds on the clock for one round, step or item of one
//! thread. The best of several runs counts, after some that warm up; what a kernel came to is laid beside
//! the same computed by one thread.
use std::sync::atomic::{AtomicU32, Ordering::Relaxed};
use std::sync::{Barrier, Condvar, Mutex};
use std::time::Instant;
use std::{env, process, thread};

const WARM: usize = 5;
const RUNS: usize = 10;

/// How many rounds a thread has signalled, and who waits for it.
#[derive(Default)]
struct Signals {
    count: Mutex<usize>,
    raised: Condvar,
}

impl Signals {
    fn signal(&self) {
        *self.count.lock().unwrap() += 1;
        self.raised.notify_all();
    }

    fn wait_for(&self, count: usize) {
        let reached = self.raised.wait_while(self.count.lock().unwrap(), |now| *now < count);
        drop(reached.unwrap());
    }
}

/// Nanoseconds from when all threads have started until the last has made its rounds.
fn nanoseconds(threads: usize, rounds: usize, work: impl Fn(usize, usize) + Sync) -> u128 {
    let gate = Barrier::new(threads + 1);
    thread::scope(|scope| {
        for number in 0..threads {
            let (gate, work) = (&gate, &work);
            scope.spawn(move || {
                gate.wait();
                gate.wait();
                for round in 0..rounds {
                    work(number, round);
                }
                gate.wait();
            });
        }
        gate.wait();
        let begun = Instant::now();
        gate.wait();
        gate.wait();
        begun.elapsed().as_nanos()
    })
}

/// The same, where all meet after each round.
fn meeting(threads: usize, rounds: usize, work: impl Fn(usize, usize) + Sync) -> u128 {
    let all = Barrier::new(threads);
    nanoseconds(threads, rounds, |number, round| {
        work(number, round);
        all.wait();
    })
}

fn turns(threads: usize, rounds: usize) -> u128 {
    meeting(threads, rounds, |_, _| {})
}

fn ring(threads: usize, rounds: usize) -> u128 {
    let own: Vec<Signals> = (0..threads).map(|_| Signals::default()).collect();
    nanoseconds(threads, rounds, |number, round| {
        own[number].signal();
        own[(number + threads - 1) % threads].wait_for(round + 1);
    })
}

/// A row for each step, of which each value is written once. The barrier orders what is written and read.
fn rows(number: usize, width: usize) -> Vec<Vec<AtomicU32>> {
    (0..number).map(|_| (0..width).map(|_| AtomicU32::new(0)).collect()).collect()
}

fn weighed(at: impl Fn(usize) -> u32, cell: usize, cells: usize) -> u32 {
    let left = if cell > 0 { at(cell - 1) } else { 0 };
    let right = if cell + 1 < cells { at(cell + 1) } else { 0 };
    (left + 2 * at(cell) + right) / 4
}

fn stencil(cells: usize, steps: usize) -> u128 {
    let table = rows(steps + 1, cells);
    table[0].iter().for_each(|cell| cell.store(1_000_000, Relaxed));
    let took = meeting(cells, steps, |cell, step| {
        let value = weighed(|place| table[step][place].load(Relaxed), cell, cells);
        table[step + 1][cell].store(value, Relaxed);
    });
    let mut row = vec![1_000_000; cells];
    for _ in 0..steps {
        row = (0..cells).map(|cell| weighed(|place| row[place], cell, cells)).collect();
    }
    let came: Vec<u32> = table[steps].iter().map(|cell| cell.load(Relaxed)).collect();
    assert_eq!(came, row);
    took
}

/// In round r the source makes item r, and stage k has that of round r - k; the sink adds nothing.
fn pipeline(stages: usize, items: usize) -> u128 {
    let table = rows(stages + 2, items);
    let took = meeting(stages + 2, items + stages + 1, |stage, round| {
        let Some(item) = round.checked_sub(stage).filter(|item| *item < items) else {
            return;
        };
        let before = match stage {
            0 => item as u32 + 1,
            _ => table[stage - 1][item].load(Relaxed),
        };
        let more = if stage <= stages { stage as u32 } else { 0 };
        table[stage][item].store(before + more, Relaxed);
    });
    for (item, value) in table[stages + 1].iter().enumerate() {
        assert_eq!(value.load(Relaxed) as usize, item + 1 + stages * (stages + 1) / 2);
    }
    took
}

fn main() {
    let words: Vec<String> = env::args().collect();
    let (width, length) = (words[2].parse().unwrap(), words[3].parse().unwrap());
    let run = match words[1].as_str() {
        "turns" => turns,
        "ring" => ring,
        "stencil" => stencil,
        "pipeline" => pipeline,
        _ => {
            eprintln!("threads: KIND is turns, ring, stencil or pipeline");
            process::exit(2);
        }
    };
    let least = (0..WARM + RUNS).map(|_| run(width, length)).skip(WARM).min().unwrap_or(0);
    println!("{:.1}", least as f64 / (width * length) as f64);
}
