//! A child of fork: its parent's phasers are closed to it.
use paldwosk::{Barrier, Mode, Phaser, Task};
use std::panic::{catch_unwind, set_hook, AssertUnwindSafe};

extern "C" {
    fn fork() -> i32;
    fn waitpid(process: i32, status: *mut i32, options: i32) -> i32;
    fn _exit(status: i32) -> !;
    fn alarm(seconds: u32) -> u32;
}

/// What a child's call of its parent's phaser panics with.
fn words(call: impl FnOnce()) -> Option<String> {
    let panicked = catch_unwind(AssertUnwindSafe(call)).err()?;
    panicked.downcast_ref::<&str>().map(|words| words.to_string()).or_else(|| panicked.downcast_ref::<String>().cloned())
}

/// One thread alone is in the child. There each call panics, a task that is dropped leaves nobody behind, and phasers of its own
/// are as everywhere. The parent goes on.
#[test]
fn child_of_a_fork_has_phasers_of_its_own() {
    let phaser = Phaser::traced(2, &[]).unwrap();
    let mut maker = phaser.make(Mode::Single).unwrap();
    let mut other = maker.join(Mode::SigWait).unwrap();
    let barrier = Barrier::new(1);
    let in_child = |maker: &mut Task| {
        let told = "a fork has left this phaser to its parent: a child makes phasers of its own";
        let closed: [&dyn Fn(&mut Task); 7] = [
            &|task| _ = task.next(),
            &|task| _ = task.try_wait(),
            &|task| _ = task.single(1, || unreachable!()),
            &|task| _ = task.join(Mode::Sig),
            &|task| _ = task.look(0),
            &|_| _ = phaser.missing(),
            &|_| _ = phaser.trace(),
        ];
        let are_closed = closed.into_iter().all(|call| words(|| call(maker)).as_deref() == Some(told));
        let mut own = Phaser::new(2, &[]).unwrap().make(Mode::SigWait).unwrap();
        are_closed && own.next() == Ok(0) && Barrier::new(1).wait().is_leader()
    };
    // SAFETY: the child makes no call that waits for a thread that it doesn't have, and ends by itself, or by the alarm.
    let child = unsafe { fork() };
    if child == 0 {
        unsafe { alarm(60) };
        set_hook(Box::new(|_| ()));
        let is_good = catch_unwind(AssertUnwindSafe(|| in_child(&mut maker))).unwrap_or(false);
        drop((maker, other, barrier, phaser));
        unsafe { _exit(if is_good { 0 } else { 1 }) };
    }
    let mut status = -1;
    // SAFETY: the status is this function's.
    assert_eq!((unsafe { waitpid(child, &mut status, 0) }, status), (child, 0));
    assert_eq!((other.try_next(), maker.next(), other.next()), (Ok(None), Ok(0), Ok(0)));
    assert!(barrier.wait().is_leader());
}
