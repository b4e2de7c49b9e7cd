//! Heat in a rod, by eight threads, each with a slice of it. In each step each thread sends the greatest change of its
//! cells; the phaser folds these, so all see the same, and stop after the same step.
use paldwosk::{Look, Mode, Operator, Phaser, Refusal, Task};
use std::array::from_fn;
use std::sync::atomic::{AtomicI32, Ordering::Relaxed};

const THREADS: usize = 8;
const SLICE: usize = 4;
const CELLS: usize = THREADS * SLICE;
const SMALL: i64 = 100;

/// Thousandths of a degree. What orders the writing and the reading of a cell is the phaser.
type Rod = [AtomicI32; CELLS + 2];

/// A step of a slice, and how much its cells changed at most.
fn step(from: &Rod, to: &Rod, first: usize) -> i32 {
    let change = |at: usize| {
        let [left, here, right] = [at - 1, at, at + 1].map(|at| from[at].load(Relaxed));
        let change = (left - 2 * here + right) / 4;
        to[at].store(here + change, Relaxed);
        change.abs()
    };
    (first..first + SLICE).map(change).fold(0, i32::max)
}

/// How many steps it took. Each reads one of the two rods, and writes the other.
fn heat(mut task: Task, rods: &[Rod; 2], first: usize) -> Result<usize, Refusal> {
    let (mut count, mut greatest) = (0, Look::Nothing);
    while !matches!(greatest, Look::Value(..=SMALL)) {
        task.send(0, step(&rods[count % 2], &rods[(count + 1) % 2], first))?;
        task.next()?; // all have written this step, and nobody reads the one before any more
        greatest = task.look(0)?;
        count += 1;
    }
    Ok(count)
}

fn main() -> Result<(), Refusal> {
    let rods: &[Rod; 2] = &from_fn(|_| from_fn(|_| AtomicI32::new(0)));
    rods.iter().for_each(|rod| rod[0].store(100_000, Relaxed)); // one end is kept at 100 degrees, and the other at none
    let phaser = Phaser::new(2, &[Operator::Greatest])?;
    let steps = phaser.scope(|scope| {
        let slices = (1..=CELLS).step_by(SLICE);
        let start = |first| scope.spawn(Mode::SigWait, move |task| heat(task, rods, first));
        let threads = slices.map(start).collect::<Result<Vec<_>, _>>()?;
        threads.into_iter().map(|thread| thread.join().unwrap()).collect::<Result<Vec<_>, _>>()
    })?;
    assert!(steps.iter().all(|count| *count == steps[0]));
    println!("{} steps", steps[0]);
    for slice in rods[steps[0] % 2][1..=CELLS].chunks(SLICE) {
        let degrees: Vec<_> = slice.iter().map(|cell| (cell.load(Relaxed) / 1_000).to_string()).collect();
        println!("{}", degrees.join(" "));
    }
    Ok(())
}
