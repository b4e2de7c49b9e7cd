//! Threads that make all calls of a phaser by turns, as a seed has it. Each value, phase and single is checked against what the
//! threads count themselves. And threads that meet at a barrier, some of them late.
use paldwosk::{Barrier, Look, Mode, Operator, Phaser, Task};
use std::sync::atomic::{AtomicBool, AtomicI64, AtomicU64, Ordering::*};
use std::thread::{self, Scope};
use std::time::Duration;

const WORKERS: usize = 4;
const BOUND: u64 = 2;

/// So long two tasks of mode `Single` take part too.
const SINGLES: u64 = 60;

/// Numbers that look as if nobody chose them.
struct Dice(u64);

impl Dice {
    fn below(&mut self, most: u64) -> u64 {
        self.0 = self.0.wrapping_add(0x9e37_79b9_7f4a_7c15);
        let mixed = (self.0 ^ self.0 >> 30).wrapping_mul(0xbf58_476d_1ce4_e5b9);
        let mixed = (mixed ^ mixed >> 27).wrapping_mul(0x94d0_49bb_1331_11eb);
        (mixed ^ mixed >> 31) % most
    }

    fn short_time(&mut self) -> Duration {
        Duration::from_micros(self.below(200))
    }
}

/// What the threads count of a phase.
struct Counted {
    sum: AtomicI64,
    /// `i64::MIN` if nobody sends.
    greatest: AtomicI64,
    singles: AtomicU64,
}

/// What all threads share.
struct Course {
    phases: u64,
    counted: Vec<Counted>,
    /// How many phases each worker has signalled, or is about to.
    signalled: [AtomicU64; WORKERS],
}

impl Course {
    fn new(phases: u64) -> Course {
        let none =
            || Counted { sum: AtomicI64::new(0), greatest: AtomicI64::new(i64::MIN), singles: AtomicU64::new(0) };
        // A value may be sent to the phase after the last.
        let counted = (0..=phases).map(|_| none()).collect();
        Course { phases, counted, signalled: [const { AtomicU64::new(0) }; WORKERS] }
    }

    /// Sends a value, which counts for this phase.
    fn send(&self, task: &mut Task, phase: u64, dice: &mut Dice) {
        let value = dice.below(2_001) as i32 - 1_000;
        let counted = &self.counted[phase as usize];
        counted.sum.fetch_add(value.into(), Relaxed);
        counted.greatest.fetch_max(value.into(), Relaxed);
        assert_eq!((task.send(0, value), task.send(1, value)), (Ok(()), Ok(())));
    }

    /// Before a signal: some values, more of them than a phaser keeps without a lock.
    fn send_some(&self, task: &mut Task, dice: &mut Dice) {
        for _ in 0..dice.below(4) * dice.below(3) {
            self.send(task, task.phase(), dice);
        }
    }

    /// After a pass: all who signal have come, and what they sent is seen.
    fn check(&self, task: &mut Task, dice: &mut Dice) {
        let Some(phase) = task.phase().checked_sub(1) else { return };
        // Nobody waits for one who only waits, but for the bound: then the signal of the third phase after is about to be made.
        let ahead = if task.mode() == Mode::Wait { BOUND + 2 } else { 2 };
        for signalled in &self.signalled {
            let signalled = signalled.load(Relaxed);
            assert!((phase + 1..=phase + ahead).contains(&signalled), "{signalled} signals, phase {phase} has ended");
        }
        let counted = &self.counted[phase as usize];
        assert_eq!(counted.singles.load(Relaxed), u64::from(phase < SINGLES));
        if dice.below(4) > 0 {
            let greatest = match counted.greatest.load(Relaxed) {
                i64::MIN => Look::Nothing,
                greatest => Look::Value(greatest),
            };
            let sum = Look::Value(counted.sum.load(Relaxed));
            assert_eq!((task.look(0), task.look(1)), (Ok(sum), Ok(greatest)), "task {} phase {phase}", task.number());
        }
    }

    /// A turn of a task that signals and waits.
    fn turn(&self, task: &mut Task, dice: &mut Dice) -> u64 {
        if is_calm(task.phase()) {
            return task.next().unwrap();
        }
        match dice.below(40) {
            0 => self.split_turn(task, dice),
            1 => {
                assert!(task.try_signal().unwrap() || task.signal().is_ok());
                waits(task, dice)
            }
            2 => until_done(|| task.try_next()),
            3 => until_done(|| task.next_timeout(dice.short_time())),
            4 => task.try_next().unwrap().unwrap_or_else(|| task.next().unwrap()),
            _ => task.next().unwrap(),
        }
    }

    /// What is sent between the signal and the pass counts for the next phase.
    fn split_turn(&self, task: &mut Task, dice: &mut Dice) -> u64 {
        task.signal().unwrap();
        self.send(task, task.phase() + 1, dice);
        task.wait().unwrap()
    }

    /// The life of a task that comes to this phase at most.
    fn live(&self, mut task: Task, last: u64, dice: &mut Dice) {
        let is_waiter = task.mode() == Mode::Wait;
        while task.phase() < last.min(self.phases) {
            let phase = task.phase();
            let passed = match task.mode() {
                Mode::Wait => waits(&mut task, dice),
                Mode::Sig => {
                    self.send_some(&mut task, dice);
                    task.next().unwrap()
                }
                _ => {
                    self.send_some(&mut task, dice);
                    self.turn(&mut task, dice)
                }
            };
            assert_eq!((passed, task.phase()), (phase, phase + 1));
            if task.mode() != Mode::Sig {
                self.check(&mut task, dice);
            }
        }
        if !is_waiter {
            // It leaves in a phase that it doesn't signal. What it sent counts.
            self.send_some(&mut task, dice);
        }
    }

    /// A task that takes part to the end. Now and then it has another join, or goes on by another.
    fn work<'scope>(&'scope self, scope: &'scope Scope<'scope, '_>, mut task: Task, number: usize, mut dice: Dice) {
        for phase in 0..self.phases {
            match dice.below(60) {
                0 => {
                    let modes = [Mode::SigWait, Mode::SigWait, Mode::Sig, Mode::Wait];
                    let mode = if is_calm(phase) { Mode::SigWait } else { modes[dice.below(4) as usize] };
                    let child = task.join(mode).unwrap();
                    let (last, mut dice) = (phase + dice.below(20), Dice(dice.below(u64::MAX)));
                    scope.spawn(move || self.live(child, last, &mut dice));
                }
                1 | 2 => task = task.join(Mode::SigWait).unwrap(),
                3 | 4 => task.join(Mode::SigWait).unwrap().leave(),
                _ => {}
            }
            self.send_some(&mut task, &mut dice);
            self.signalled[number].store(phase + 1, Relaxed);
            assert_eq!((self.turn(&mut task, &mut dice), task.phase()), (phase, phase + 1));
            self.check(&mut task, &mut dice);
        }
    }

    /// A task that proposes singles for a while.
    fn run_singles(&self, mut task: Task, mut dice: Dice) {
        for phase in 0..SINGLES {
            let run = || assert_eq!(self.counted[phase as usize].singles.fetch_add(1, Relaxed), 0);
            self.send_some(&mut task, &mut dice);
            assert_eq!(task.single(phase as u32, run), Ok(phase));
            self.check(&mut task, &mut dice);
        }
    }
}

/// Whether it is one of the phases in which all make plain turns. Tasks join and leave in these too.
fn is_calm(phase: u64) -> bool {
    phase / 200 % 2 == 1
}

/// Has a call be made again until it is done.
fn until_done<T, E: std::fmt::Debug>(mut call: impl FnMut() -> Result<Option<T>, E>) -> T {
    loop {
        if let Some(done) = call().unwrap() {
            return done;
        }
        thread::yield_now();
    }
}

/// A pass, in one of its forms.
fn waits(task: &mut Task, dice: &mut Dice) -> u64 {
    match dice.below(4) {
        0 => until_done(|| task.try_wait()),
        1 => until_done(|| task.wait_timeout(dice.short_time())),
        _ => task.wait().unwrap(),
    }
}

/// Asks who is missing now and then, until it is over.
fn watch(phaser: &Phaser, is_over: &AtomicBool) {
    while !is_over.load(Relaxed) {
        let missing = phaser.missing();
        assert!(missing.windows(2).all(|two| two[0] < two[1]));
        thread::sleep(Duration::from_millis(20));
    }
}

/// It is over when this is dropped, also by a panic.
struct Running<'a>(&'a AtomicBool);

impl Drop for Running<'_> {
    fn drop(&mut self) {
        self.0.store(true, Relaxed);
    }
}

fn stress(seed: u64, phases: u64) {
    let phaser = Phaser::new(BOUND as u32, &[Operator::Sum, Operator::Greatest]).unwrap();
    let (course, is_over) = (Course::new(phases), AtomicBool::new(false));
    let (course, mut dice) = (&course, Dice(seed));
    let mut maker = phaser.make(Mode::Single).unwrap();
    thread::scope(|outer| {
        outer.spawn(|| watch(&phaser, &is_over));
        let _running = Running(&is_over);
        thread::scope(|scope| {
            let workers: Vec<_> = (0..WORKERS).map(|_| maker.join(Mode::SigWait).unwrap()).collect();
            for task in [maker.join(Mode::Single).unwrap(), maker] {
                let dice = Dice(dice.below(u64::MAX));
                scope.spawn(|| course.run_singles(task, dice));
            }
            for (number, task) in workers.into_iter().enumerate() {
                let dice = Dice(dice.below(u64::MAX));
                scope.spawn(move || course.work(scope, task, number, dice));
            }
        });
    });
}

#[test]
fn stress_of_seed_1() {
    stress(1, 3_000);
}

#[test]
fn stress_of_seed_2() {
    stress(2, 3_000);
}

#[test]
fn stress_of_seed_3() {
    stress(3, 3_000);
}

/// Now and then one of those who meet sleeps before it comes, so that the others sleep too. What each wrote before a meeting is
/// seen after it, and one leads.
fn meet(seed: u64, threads: usize, rounds: u64) {
    let (barrier, leaders, mut dice) = (Barrier::new(threads), AtomicU64::new(0), Dice(seed));
    // A thread writes to two places by turns, since others may still read what it wrote last.
    let written: Vec<_> = (0..threads).map(|_| [const { AtomicU64::new(0) }; 2]).collect();
    let go_through = |own: &[AtomicU64; 2], mut dice: Dice| {
        for round in 0..rounds {
            if !is_calm(round) && dice.below(8) == 0 {
                thread::sleep(dice.short_time());
            }
            let place = (round % 2) as usize;
            own[place].store(round + 1, Relaxed);
            leaders.fetch_add(u64::from(barrier.wait().is_leader()), Relaxed);
            assert!(written.iter().all(|it| it[place].load(Relaxed) == round + 1));
        }
    };
    let go_through = &go_through;
    thread::scope(|scope| {
        for own in &written {
            let dice = Dice(dice.below(u64::MAX));
            scope.spawn(move || go_through(own, dice));
        }
    });
    assert_eq!(leaders.load(Relaxed), rounds);
}

#[test]
fn threads_meet_that_come_late() {
    for (seed, threads) in [(1, 2), (2, 3), (3, 4), (4, 5), (5, 16)] {
        meet(seed, threads, 3_000);
    }
}
