//! phases KIND THREADS PHASES BATCHES: threads of Rust that go through phases together and do nothing else.
//!
//! KIND is where they meet: std_barrier, at a `std::sync::Barrier`; barrier, at a `paldwosk::Barrier`; phaser, by tasks
//! of a `paldwosk::Phaser`. A batch is PHASES phases; one warms up, and then BATCHES count. Thread 0 takes the time.
//! Printed are the best and the median batch, in microseconds on the clock for a phase. Status 1: a phase didn't come
//! in order; 2: the words are wrong; 3: the phaser couldn't be made.
use std::sync::atomic::{AtomicU64, Ordering::Relaxed};
use std::time::Instant;
use std::{env, process, sync, thread};

use paldwosk::{Mode, Phaser, Refusal, Task};

const LOOK_EVERY: u64 = 16;

/// How many phases a thread has signalled. It has a line of its own, so that it costs nothing while nobody looks.
#[derive(Default)]
#[repr(align(128))]
struct Place(AtomicU64);

/// What all threads share: their places, and the gate between batches, outside what is timed.
struct Course {
    places: Vec<Place>,
    gate: sync::Barrier,
    phases: u64,
    batches: usize,
}

fn stop(status: i32, why: &str) -> ! {
    eprintln!("phases: {why}");
    process::exit(status)
}

impl Course {
    fn new(threads: usize, phases: u64, batches: usize) -> Course {
        let places = (0..threads).map(|_| Place::default()).collect();
        Course { places, gate: sync::Barrier::new(threads), phases, batches }
    }

    /// After the phase the neighbour has signalled it, and at most the next.
    fn look(&self, thread: usize, phase: u64) {
        let signalled = self.places[(thread + 1) % self.places.len()].0.load(Relaxed);
        if signalled != phase + 1 && signalled != phase + 2 {
            stop(1, "a thread went on before another had come");
        }
    }

    /// What each thread does: it meets the others, and learns whether that was the phase of this number. Given are the
    /// microseconds of each batch that counts. Where it is timed it looks seldom, since that takes a line from another
    /// processor.
    fn go_through(&self, thread: usize, mut meet: impl FnMut(u64) -> bool) -> Vec<f64> {
        let mut phases = 0..;
        let batches = (0..=self.batches).map(|batch| {
            self.gate.wait();
            let begun = Instant::now();
            for phase in phases.by_ref().take(self.phases as usize) {
                self.places[thread].0.store(phase + 1, Relaxed);
                if !meet(phase) {
                    stop(1, "a phase was answered as another, or not at all");
                }
                if batch == 0 || phase % LOOK_EVERY == 0 {
                    self.look(thread, phase);
                }
            }
            begun.elapsed().as_secs_f64() * 1e6
        });
        batches.collect::<Vec<_>>().split_off(1)
    }

    /// What thread 0 took for each batch, where each thread meets the others by its own of these.
    fn times(&self, meetings: Vec<impl FnMut(u64) -> bool + Send>) -> Vec<f64> {
        thread::scope(|scope| {
            let start = |(thread, meet)| scope.spawn(move || self.go_through(thread, meet));
            let started: Vec<_> = meetings.into_iter().enumerate().map(start).collect();
            let mut times = started.into_iter().filter_map(|it| it.join().ok());
            times.next().unwrap_or_default()
        })
    }
}

/// By the bound 2 nobody waits who wouldn't wait anyway.
fn tasks(threads: usize) -> Result<Vec<Task>, Refusal> {
    let mut maker = Phaser::new(2, &[])?.make(Mode::SigWait)?;
    let mut tasks = (1..threads).map(|_| maker.join(Mode::SigWait)).collect::<Result<Vec<_>, _>>()?;
    tasks.push(maker);
    Ok(tasks)
}

fn times(kind: &str, threads: usize, course: &Course) -> Vec<f64> {
    match kind {
        "std_barrier" => {
            let all = &sync::Barrier::new(threads);
            course.times((0..threads).map(|_| move |_| (all.wait(), true).1).collect())
        }
        "barrier" => {
            let all = &paldwosk::Barrier::new(threads);
            course.times((0..threads).map(|_| move |_| (all.wait(), true).1).collect())
        }
        "phaser" => match tasks(threads) {
            Ok(tasks) => {
                course.times(tasks.into_iter().map(|mut task| move |phase| task.next() == Ok(phase)).collect())
            }
            Err(refusal) => stop(3, &refusal.to_string()),
        },
        _ => stop(2, "KIND is std_barrier, barrier or phaser"),
    }
}

/// The number at this place of the words.
fn number(words: &[String], at: usize) -> usize {
    match words.get(at).and_then(|word| word.parse().ok()) {
        Some(number) if number > 0 => number,
        _ => stop(2, "usage: phases KIND THREADS PHASES BATCHES"),
    }
}

fn main() {
    let words: Vec<String> = env::args().collect();
    let [threads, phases, batches] = [2, 3, 4].map(|at| number(&words, at));
    let mut times = times(&words[1], threads, &Course::new(threads, phases as u64, batches));
    times.sort_by(f64::total_cmp);
    println!("{:.4} {:.4}", times[0] / phases as f64, times[batches / 2] / phases as f64);
}
