//! Threads that come and go. Each works for three phases, and after its first has two others come, up to a depth. Who
//! comes begins in the phase in which its parent is then. In each phase all who work say so, and the root counts.
use paldwosk::{Look, Mode, Operator, Phaser, Refusal, Task};
use std::thread::{self, JoinHandle};

const DEPTH: u32 = 3;
const TURNS: u32 = 3;
const CHILDREN: u32 = 2;

type Worker = JoinHandle<Result<(), Refusal>>;

/// A new worker, in a thread of its own, that `parent` has join. The parent hasn't signalled its phase yet, so that phase
/// can't end without the child.
fn start(parent: &mut Task, depth: u32) -> Result<Worker, Refusal> {
    let task = parent.join(Mode::SigWait)?;
    Ok(thread::spawn(move || work(task, depth)))
}

fn finish(worker: Worker) -> Result<(), Refusal> {
    worker.join().unwrap()
}

fn work(mut task: Task, depth: u32) -> Result<(), Refusal> {
    let mut children = Vec::new();
    for turn in 0..TURNS {
        task.send(0, 1)?;
        task.next()?;
        if turn == 0 && depth < DEPTH {
            children = (0..CHILDREN).map(|_| start(&mut task, depth + 1)).collect::<Result<_, _>>()?;
        }
    }
    task.leave(); // before it waits for its children: they needn't wait for it
    children.into_iter().try_for_each(finish)
}

fn main() -> Result<(), Refusal> {
    let mut root = Phaser::new(2, &[Operator::Sum])?.make(Mode::SigWait)?;
    let first = start(&mut root, 0)?;
    let (mut working, mut total) = (1, 0);
    while working > 0 {
        let phase = root.next()?;
        if let Look::Value(sum) = root.look(0)? {
            working = sum;
        }
        println!("phase {phase}: {working}");
        total += working;
    }
    root.leave();
    finish(first)?;
    println!("total {total}");
    Ok(())
}
