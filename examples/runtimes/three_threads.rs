//! Three threads that take three turns at a barrier: three_threads [--early-pass]
//!
//! With --early-pass the third thread arrives once too often, and the trace doesn't see it: so the others pass before its
//! first turn. At their end they arrive once more too, so that its last turn ends.
mod traced_barrier;

use std::sync::atomic::{AtomicUsize, Ordering::SeqCst};
use std::{env, thread};
use traced_barrier::Barrier;

const THREADS: usize = 3;
const TURNS: usize = 3;

fn turns(barrier: &Barrier, passed: &AtomicUsize) {
    for _ in 0..TURNS {
        barrier.wait();
        passed.fetch_add(1, SeqCst);
    }
}

/// A turn that goes past the drop-in, to the barrier itself.
fn unseen_turn(barrier: &Barrier) {
    barrier.real.wait();
}

fn work(barrier: &Barrier, passed: &AtomicUsize, is_early: bool, is_third: bool) {
    if is_early && is_third {
        unseen_turn(barrier);
        while passed.load(SeqCst) < THREADS - 1 {
            thread::yield_now();
        }
    }
    turns(barrier, passed);
    if is_early && !is_third {
        unseen_turn(barrier);
    }
}

fn main() {
    let is_early = env::args().nth(1).is_some_and(|word| word == "--early-pass");
    let (barrier, passed) = (&Barrier::new(THREADS), &AtomicUsize::new(0));
    thread::scope(|scope| {
        for number in 1..=THREADS {
            scope.spawn(move || work(barrier, passed, is_early, number == THREADS));
        }
    });
}
