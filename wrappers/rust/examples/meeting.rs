//! Four threads meet. Each sends a value, waits for the others, and reads the sum of all.
use paldwosk::{Look, Mode, Operator, Phaser, Refusal, Task};

fn meet(mut task: Task, value: i32) -> Result<Look, Refusal> {
    task.send(0, value)?;
    task.next()?; // waits for all four
    task.look(0)
}

fn main() -> Result<(), Refusal> {
    Phaser::new(2, &[Operator::Sum])?.scope(|scope| {
        let start = |value| scope.spawn(Mode::SigWait, move |task| meet(task, value));
        let threads = (1..=4).map(start).collect::<Result<Vec<_>, _>>()?;
        for (at, thread) in threads.into_iter().enumerate() {
            let Look::Value(sum) = thread.join().unwrap()? else { panic!("no value was sent") };
            println!("thread {at}: the sum is {sum}");
        }
        Ok(())
    })
}
