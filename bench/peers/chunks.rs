//! The row of crates/chunked_stencil by threads that meet at a `Barrier` of Rust's library: chunks WORKERS CELLS
//! PIECES STEPS ROUNDS
//!
//! Each thread keeps pieces of the row, and puts their border cells into a table before each step. Printed is
//! the same line; and on standard error the shortest time of all rounds, in which the threads are started and
//! joined.
use std::sync::atomic::{AtomicU32, Ordering::Relaxed};
use std::sync::Barrier;
use std::time::{Duration, Instant};
use std::{env, process, thread};

const GREATEST: u64 = 1_000_000;

fn first_row(cells: usize) -> Vec<u32> {
    (0..cells as u64).map(|place| (place % 1_000 * 7_919 % (GREATEST + 1)) as u32).collect()
}

fn step(left: u32, piece: &mut [u32], right: u32) {
    let last = piece.len() - 1;
    let mut before = left;
    for place in 0..last {
        let own = piece[place];
        piece[place] = (before + 2 * own + piece[place + 1]) / 4;
        before = own;
    }
    piece[last] = (before + 2 * piece[last] + right) / 4;
}

/// Before step t the border cells stand in table t % 2: of each piece its first and its last. The barrier orders
/// what is written and read.
fn work(all: &Barrier, pieces: &mut [Vec<u32>], from: usize, tables: &[Vec<AtomicU32>], steps: usize) {
    for number in 0..steps {
        let table = &tables[number % 2];
        for (place, piece) in pieces.iter().enumerate() {
            table[2 * (from + place) + 1].store(piece[0], Relaxed);
            table[2 * (from + place) + 2].store(piece[piece.len() - 1], Relaxed);
        }
        all.wait();
        for (place, piece) in pieces.iter_mut().enumerate() {
            let at = |place: usize| table[place].load(Relaxed);
            step(at(2 * (from + place)), piece, at(2 * (from + place) + 3));
        }
    }
}

fn go(pieces: &mut [Vec<u32>], steps: usize, workers: usize) {
    // Outside the row, in the first and the last place, a cell is 0.
    let table = || (0..2 * pieces.len() + 2).map(|_| AtomicU32::new(0)).collect();
    let tables: Vec<Vec<AtomicU32>> = vec![table(), table()];
    let size = pieces.len().div_ceil(workers);
    let all = Barrier::new(pieces.len().div_ceil(size));
    thread::scope(|scope| {
        for (number, own) in pieces.chunks_mut(size).enumerate() {
            let (all, tables) = (&all, &tables);
            scope.spawn(move || work(all, own, number * size, tables, steps));
        }
    });
}

fn main() {
    let numbers: Vec<usize> = env::args().skip(1).map(|word| word.parse().unwrap()).collect();
    let [workers, cells, number, steps, rounds] = numbers[..] else {
        eprintln!("usage: chunks WORKERS CELLS PIECES STEPS ROUNDS");
        process::exit(2);
    };
    let mut plain = first_row(cells);
    (0..steps).for_each(|_| step(0, &mut plain, 0));
    let (mut shortest, mut same) = (Duration::MAX, true);
    for _ in 0..rounds {
        let mut pieces: Vec<Vec<u32>> = first_row(cells).chunks(cells / number).map(|piece| piece.to_vec()).collect();
        let begun = Instant::now();
        go(&mut pieces, steps, workers);
        shortest = shortest.min(begun.elapsed());
        same &= pieces.concat() == plain;
    }
    let sum: u64 = plain.iter().map(|cell| u64::from(*cell)).sum();
    let judged = if same { "as" } else { "NOT as" };
    println!("{cells} cells in {number} pieces, {steps} steps: sum {sum}, each cell {judged} by the plain function");
    eprintln!("{workers} workers: {} us", shortest.as_micros());
    process::exit(i32::from(!same));
}
