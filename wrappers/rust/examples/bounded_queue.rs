//! A queue of one producer and two consumers, of whom each takes all items. It has no lock but the phaser's: the bound
//! holds back the producer, which only signals, until both consumers, who only wait, have come after it.
use paldwosk::{Mode, Phaser, Refusal, Task};
use std::array::from_fn;
use std::sync::atomic::{AtomicI32, Ordering::Relaxed};
use std::thread;

const BOUND: usize = 6;
const ITEMS: i32 = 1_000;

/// When the producer writes item n it has signalled item n - 1, so each consumer has ended its wait for item n - 1 - BOUND,
/// and may be reading that. The slots of all from there to n are apart.
const SLOTS: usize = BOUND + 2;

/// What orders the writing and the reading of a slot is the phaser.
type Slots = [AtomicI32; SLOTS];

fn slot(slots: &Slots, item: i32) -> &AtomicI32 {
    &slots[item as usize % SLOTS]
}

fn produce(mut task: Task, slots: &Slots) -> Result<(), Refusal> {
    for item in 0..ITEMS {
        slot(slots, item).store(item * item, Relaxed);
        task.signal()?; // it is there: this waits where the queue is full
        task.wait()?; // who only signals waits for nobody: on to the next item
    }
    Ok(())
}

fn consume(mut task: Task, slots: &Slots) -> Result<i64, Refusal> {
    let mut sum = 0;
    for item in 0..ITEMS {
        task.wait()?;
        sum += i64::from(slot(slots, item).load(Relaxed));
    }
    Ok(sum)
}

fn main() -> Result<(), Refusal> {
    let slots: Slots = from_fn(|_| AtomicI32::new(0));
    let mut root = Phaser::new(BOUND as u32, &[])?.make(Mode::SigWait)?; // only who does both has children of both kinds
    let producer = root.join(Mode::Sig)?;
    let consumers = [root.join(Mode::Wait)?, root.join(Mode::Wait)?];
    root.leave();
    thread::scope(|scope| {
        let producing = scope.spawn(|| produce(producer, &slots));
        let consuming = consumers.map(|task| scope.spawn(|| consume(task, &slots)));
        producing.join().unwrap()?;
        for (thread, number) in consuming.into_iter().zip(0..) {
            println!("consumer {number} took {ITEMS} items: {}", thread.join().unwrap()?);
        }
        Ok(())
    })
}
