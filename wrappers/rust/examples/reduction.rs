//! The sum, the least and the greatest of a table, by four threads, each with a part of it; all see what all came to.
use paldwosk::{Look, Mode, Operator, Phaser, Refusal, Task};
use std::thread;

const THREADS: usize = 4;
const PART: usize = 250;

fn reduce(mut task: Task, part: &[i32]) -> Result<[Look; 3], Refusal> {
    task.send(0, part.iter().sum())?;
    task.send(1, part.iter().copied().fold(i32::MAX, i32::min))?;
    task.send(2, part.iter().copied().fold(i32::MIN, i32::max))?;
    task.next()?;
    Ok([task.look(0)?, task.look(1)?, task.look(2)?])
}

fn shown(look: Look) -> String {
    match look {
        Look::Value(value) => value.to_string(),
        Look::Nothing => "none".to_string(),
    }
}

fn main() -> Result<(), Refusal> {
    let table: Vec<i32> = (0..1_000).map(|at| (at * 7_919) % 10_007 - 5_000).collect();
    let phaser = Phaser::new(2, &[Operator::Sum, Operator::Least, Operator::Greatest])?;
    let mut maker = phaser.make(Mode::SigWait)?;
    let mut tasks = (1..THREADS).map(|_| maker.join(Mode::SigWait)).collect::<Result<Vec<_>, _>>()?;
    tasks.push(maker);
    let seen = thread::scope(|scope| {
        let parts = tasks.into_iter().zip(table.chunks(PART));
        let threads: Vec<_> = parts.map(|(task, part)| scope.spawn(|| reduce(task, part))).collect();
        threads.into_iter().map(|thread| thread.join().unwrap()).collect::<Result<Vec<_>, _>>()
    })?;
    for (looks, number) in seen.into_iter().zip(0..) {
        let [sum, least, greatest] = looks.map(shown);
        println!("thread {number}: sum {sum}, least {least}, greatest {greatest}");
    }
    Ok(())
}
