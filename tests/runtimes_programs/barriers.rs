//! Programs at barriers of Rust, for tests/runtimes: barriers NAME. Each name is a function below. The drop-in is below a
//! module of its own, and no warning is let through.
#![deny(warnings, unreachable_pub, missing_debug_implementations, missing_docs, rust_2018_idioms)]

mod inner {
    #[path = "../traced_barrier.rs"]
    pub(crate) mod traced_barrier;
}
#[allow(dead_code, unreachable_pub)]
mod faulty;

use inner::traced_barrier::Barrier;
use std::sync::atomic::{AtomicUsize, Ordering::SeqCst};
use std::sync::{Arc, BarrierWaitResult, OnceLock};
use std::{env, process, thread, time::Duration};

static PASSED: AtomicUsize = AtomicUsize::new(0);

fn until(turns: usize) {
    while PASSED.load(SeqCst) < turns {
        thread::sleep(Duration::from_micros(100));
    }
}

fn start(threads: usize, turns: usize, started: usize) -> Vec<thread::JoinHandle<usize>> {
    let barrier = Arc::new(Barrier::new(threads));
    let work = move |barrier: Arc<Barrier>| {
        (0..turns).filter(|turn| {
            let result: BarrierWaitResult = barrier.wait();
            PASSED.fetch_add(1, SeqCst);
            if turns == usize::MAX && turn % 8 == 7 {
                thread::sleep(Duration::from_micros(100)); // so that the trace is short
            }
            result.is_leader()
        }).count()
    };
    (0..started).map(|_| barrier.clone()).map(|barrier| thread::spawn(move || work(barrier))).collect()
}

fn joined() {
    let leaders: usize = start(4, 50, 4).into_iter().map(|thread| thread.join().unwrap()).sum();
    assert_eq!(leaders, 50);
    let barrier = Barrier::new(3);
    assert_eq!(format!("{:?}", barrier), format!("{:?}", std::sync::Barrier::new(3)));
    thread::scope(|scope| (0..3).for_each(|_| drop(scope.spawn(|| barrier.wait()))));
}

fn of_none() {
    assert!(Barrier::new(0).wait().is_leader());
    let barrier = Barrier::new(1);
    thread::scope(|scope| (0..3).for_each(|_| drop(scope.spawn(|| (0..50).for_each(|_| drop(barrier.wait()))))));
}

fn in_a_static() {
    static BARRIER: OnceLock<Barrier> = OnceLock::new();
    let threads = (0..3).map(|_| thread::spawn(|| drop(BARRIER.get_or_init(|| Barrier::new(3)).wait())));
    threads.collect::<Vec<_>>().into_iter().for_each(|thread| thread.join().unwrap());
}

fn come_and_go() {
    let barrier = Barrier::new(3);
    for _ in 0..20 {
        thread::scope(|scope| (0..3).for_each(|_| drop(scope.spawn(|| barrier.wait()))));
    }
}

fn exits() { // while its threads take turns
    start(4, usize::MAX, 4);
    until(300);
    process::exit(7);
}

fn still_turning() {
    start(4, usize::MAX, 4);
    until(300);
}

fn still_waiting() {
    start(3, 1, 2);
    thread::sleep(Duration::from_millis(5));
}

fn turning_for_ever() {
    start(3, usize::MAX, 3).into_iter().for_each(|thread| drop(thread.join()));
}

fn hang() {
    start(3, 2, 2).into_iter().for_each(|thread| drop(thread.join()));
}

fn too_many() {
    start(2, usize::MAX, 6);
    until(500);
}

fn full() {
    start(2, 20_000, 2).into_iter().for_each(|thread| drop(thread.join()));
}

fn many_parties() {
    start(300, 2, 300).into_iter().for_each(|thread| drop(thread.join()));
}

/// For the faulty barrier: the last comes to the third turn once another has ended it.
fn late() {
    let barrier = Barrier::new(3);
    let work = |number: usize| {
        for turn in 0..5 {
            if turn == 2 && number == 2 {
                until(7);
            }
            barrier.wait();
            PASSED.fetch_add(1, SeqCst);
        }
    };
    let work = &work;
    thread::scope(|scope| (0..3).for_each(|number| drop(scope.spawn(move || work(number)))));
}

fn late_and_exits() {
    late();
    process::exit(0);
}

fn main() {
    let calls: [(&str, fn()); 14] = [
        ("joined", joined), ("of_none", of_none), ("in_a_static", in_a_static), ("come_and_go", come_and_go),
        ("exits", exits), ("still_turning", still_turning), ("still_waiting", still_waiting),
        ("turning_for_ever", turning_for_ever), ("hang", hang), ("too_many", too_many), ("full", full),
        ("many_parties", many_parties), ("late", late), ("late_and_exits", late_and_exits),
    ];
    let word = env::args().nth(1).unwrap_or_default();
    match calls.iter().find(|(name, _)| *name == word) {
        Some((_, call)) => call(),
        None => process::exit(2),
    }
}
