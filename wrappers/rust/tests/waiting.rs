//! The calls that wait: each on its happy path and wrongly used, threads that panic or leave, barriers, and traces.
use paldwosk::{replay, Barrier, Look, Mode, Operator, Phaser, Refusal, Task};
use std::panic::{catch_unwind, AssertUnwindSafe, RefUnwindSafe, UnwindSafe};
use std::process::Command;
use std::sync::atomic::{AtomicBool, AtomicU64, Ordering::*};
use std::sync::mpsc::{channel, RecvTimeoutError};
use std::sync::Arc;
use std::thread::{self, JoinHandle};
use std::time::{Duration, Instant};

/// Far more than any test takes: one that hangs fails by it.
const SECONDS: u64 = 120;

fn in_time<T: Send + 'static>(body: impl FnOnce() -> T + Send + 'static) -> T {
    let (ends, end) = channel();
    let thread = thread::spawn(move || {
        let value = body();
        let _ = ends.send(());
        value
    });
    if end.recv_timeout(Duration::from_secs(SECONDS)) == Err(RecvTimeoutError::Timeout) {
        panic!("it hangs");
    }
    joined(thread)
}

fn joined<T>(thread: JoinHandle<T>) -> T {
    thread.join().unwrap()
}

/// Time enough for another thread to sleep in its call. Nothing is judged by it: it makes likely what is to be tried.
fn let_sleep() {
    thread::sleep(Duration::from_millis(30));
}

/// The first task of a phaser by whose bound no barrier waits.
fn maker(mode: Mode, operators: &[Operator]) -> Task {
    Phaser::new(2, operators).unwrap().make(mode).unwrap()
}

fn children(parent: &mut Task, mode: Mode, count: usize) -> Vec<Task> {
    (0..count).map(|_| parent.join(mode).unwrap()).collect()
}

/// Each task does it in a thread of its own: what they came to, in order.
fn together<T: Send + 'static>(tasks: Vec<Task>, body: impl Fn(Task) -> T + Send + Sync + 'static) -> Vec<T> {
    let body = Arc::new(body);
    let started = |task| {
        let body = body.clone();
        thread::spawn(move || body(task))
    };
    let threads: Vec<_> = tasks.into_iter().map(started).collect();
    threads.into_iter().map(joined).collect()
}

/// The maker and as many children as make so many tasks.
fn tasks(mut maker: Task, mode: Mode, count: usize) -> Vec<Task> {
    let mut tasks = children(&mut maker, mode, count - 1);
    tasks.push(maker);
    tasks
}

// ---- What each call does

#[test]
fn three_tasks_turn() {
    in_time(|| {
        let tasks = tasks(maker(Mode::SigWait, &[]), Mode::SigWait, 3);
        let phases = together(tasks, |mut task| [task.next(), task.next(), task.next()]);
        assert_eq!(phases, [[Ok(0), Ok(1), Ok(2)]; 3]);
    });
}

#[test]
fn phase_is_split() {
    in_time(|| {
        let mut maker = maker(Mode::SigWait, &[]);
        let mut other = maker.join(Mode::SigWait).unwrap();
        assert_eq!(maker.signal(), Ok(())); // it goes on, though the other hasn't signalled
        let thread = thread::spawn(move || (other.signal(), other.wait(), other.next()));
        assert_eq!(maker.wait(), Ok(0));
        assert_eq!(maker.next(), Ok(1));
        assert_eq!(joined(thread), (Ok(()), Ok(0), Ok(1)));
    });
}

#[test]
fn one_who_only_signals_waits_for_nobody() {
    in_time(|| {
        let mut maker = maker(Mode::SigWait, &[]);
        let mut producer = maker.join(Mode::Sig).unwrap();
        assert_eq!(producer.next(), Ok(0));
        assert_eq!(producer.signal(), Ok(()));
        assert_eq!(producer.wait(), Ok(1));
    });
}

/// By the bound 2 the signal of phase 2 waits until both consumers have passed phase 0.
#[test]
fn producer_waits_at_the_bound() {
    in_time(|| {
        let mut maker = maker(Mode::SigWait, &[]);
        let mut producer = maker.join(Mode::Sig).unwrap();
        let consumers = children(&mut maker, Mode::Wait, 2);
        maker.leave();
        let passed = Arc::new(AtomicU64::new(0));
        let seen = passed.clone();
        assert_eq!((producer.next(), producer.next()), (Ok(0), Ok(1)));
        let thread = thread::spawn(move || (producer.next(), seen.load(SeqCst), producer));
        let mut consumers = consumers.into_iter().map(|mut consumer| {
            let_sleep();
            passed.fetch_add(1, SeqCst);
            assert_eq!(consumer.wait(), Ok(0));
            consumer
        });
        let (mut first, mut second) = (consumers.next().unwrap(), consumers.next().unwrap());
        let (phase, seen, mut producer) = joined(thread);
        assert_eq!((phase, seen), (Ok(2), 2));
        // The same for a signal alone: of phase 3, until both have passed phase 1.
        let thread = thread::spawn(move || producer.signal());
        let_sleep();
        assert!(!thread.is_finished());
        assert_eq!((first.wait(), second.wait()), (Ok(1), Ok(1)));
        assert_eq!(joined(thread), Ok(()));
        assert_eq!((first.wait(), first.wait()), (Ok(2), Ok(3)));
    });
}

#[test]
fn accumulators_fold() {
    in_time(|| {
        let mut task = maker(Mode::SigWait, &[Operator::Sum, Operator::Least, Operator::Greatest]);
        let looks = |task: &mut Task| [task.look(0), task.look(1), task.look(2)];
        for value in [i32::MAX, -4, i32::MAX] {
            for accumulator in 0..3 {
                assert_eq!(task.send(accumulator, value), Ok(()));
            }
        }
        task.next().unwrap();
        let folds = [4_294_967_290, -4, 2_147_483_647].map(|fold| Ok(Look::Value(fold)));
        assert_eq!(looks(&mut task), folds);
        task.next().unwrap(); // a phase without a value
        assert_eq!(looks(&mut task), [Ok(Look::Value(0)), Ok(Look::Nothing), Ok(Look::Nothing)]);
    });
}

#[test]
fn child_begins_where_its_parent_stands() {
    in_time(|| {
        let mut maker = maker(Mode::SigWait, &[]);
        maker.next().unwrap();
        maker.signal().unwrap();
        let mut child = maker.join(Mode::SigWait).unwrap();
        assert_eq!((maker.number(), child.number()), (0, 1));
        assert_eq!(child.signal(), Err(Refusal::AlreadySignalled));
        assert_eq!((child.wait(), maker.wait()), (Ok(1), Ok(1)));
        child.leave();
        assert_eq!(maker.next(), Ok(2)); // nobody waits for the child any more
        assert_eq!(maker.join(Mode::Sig).unwrap().number(), 2); // nobody has its number again
    });
}

#[test]
fn task_knows_its_phase() {
    in_time(|| {
        let mut maker = maker(Mode::Single, &[]);
        assert_eq!(maker.phase(), 0);
        maker.signal().unwrap();
        assert_eq!(maker.phase(), 0); // it has still to pass it
        maker.wait().unwrap();
        assert_eq!(maker.phase(), 1);
        assert_eq!(maker.wait(), Err(Refusal::NotSignalled));
        assert_eq!(maker.phase(), 1);
        maker.next().unwrap();
        maker.single(7, || ()).unwrap();
        assert_eq!(maker.phase(), 3);
        assert!(catch_unwind(AssertUnwindSafe(|| maker.single(7, || panic!("as it has to")))).is_err());
        assert_eq!(maker.phase(), 4);
        // The maker stays in phase 4, so who only signals goes ahead of it, and its child with it.
        let mut ahead = maker.join(Mode::Sig).unwrap();
        assert_eq!((ahead.phase(), ahead.next(), ahead.phase()), (4, Ok(4), 5));
        assert_eq!((ahead.join(Mode::Sig).unwrap().phase(), maker.phase()), (5, 4));
    });
}

/// A task that waits for a single that another runs has ended its turn too.
#[test]
fn all_know_the_phase_after_a_single() {
    in_time(|| {
        let phases = together(tasks(maker(Mode::Single, &[]), Mode::Single, 3), |mut task| {
            task.single(1, || ()).unwrap();
            task.phase()
        });
        assert_eq!(phases, [1; 3]);
    });
}

#[test]
fn task_knows_its_mode() {
    let mut maker = maker(Mode::Single, &[]);
    let modes = [Mode::Sig, Mode::Wait, Mode::SigWait, Mode::Single];
    assert_eq!(modes.map(|mode| maker.join(mode).unwrap().mode()), modes);
    assert_eq!(maker.mode(), Mode::Single);
}

/// In each of 200 phases one of four runs the statement, before anybody goes on.
#[test]
fn single_runs_once_and_alone() {
    in_time(|| {
        static RUNS: AtomicU64 = AtomicU64::new(0);
        static RUNNING: AtomicBool = AtomicBool::new(false);
        let statement = || {
            assert!(!RUNNING.swap(true, SeqCst));
            thread::yield_now();
            RUNS.fetch_add(1, SeqCst);
            assert!(RUNNING.swap(false, SeqCst));
        };
        together(tasks(maker(Mode::Single, &[]), Mode::Single, 4), move |mut task| {
            for phase in 0..200 {
                assert_eq!(task.single(phase as u32 % 3, statement), Ok(phase));
                // Nobody runs the next before this task has proposed it too.
                assert_eq!((RUNS.load(SeqCst), RUNNING.load(SeqCst)), (phase + 1, false));
            }
        });
    });
}

/// Who proposed nothing waits for the statement all the same.
#[test]
fn all_wait_for_a_single() {
    in_time(|| {
        let mut maker = maker(Mode::Single, &[]);
        let mut plain = maker.join(Mode::SigWait).unwrap();
        let is_done = Arc::new(AtomicBool::new(false));
        let seen = is_done.clone();
        let thread = thread::spawn(move || (plain.next(), seen.load(SeqCst)));
        let statement = || {
            let_sleep();
            is_done.store(true, SeqCst);
        };
        assert_eq!(maker.single(7, statement), Ok(0));
        assert_eq!(joined(thread), (Ok(0), true));
    });
}

// ---- What is refused

#[test]
fn wrong_bounds_and_operators_are_refused() {
    let refusal = |bound, operators: &[Operator]| Phaser::new(bound, operators).err();
    assert_eq!(refusal(0, &[]), Some(Refusal::BadBound));
    assert_eq!(refusal(65_537, &[]), Some(Refusal::BadBound));
    assert_eq!(refusal(2, &[Operator::Sum; 5]), Some(Refusal::BadOperators));
    assert_eq!(refusal(65_536, &[Operator::Sum; 4]), None);
    assert_eq!(Phaser::traced(0, &[]).err(), Some(Refusal::BadBound));
}

#[test]
fn second_maker_is_refused() {
    let phaser = Phaser::new(2, &[]).unwrap();
    let maker = phaser.make(Mode::Sig).unwrap();
    assert_eq!(phaser.make(Mode::Sig).err(), Some(Refusal::NotNow));
    maker.leave();
    assert_eq!(phaser.make(Mode::Sig).err(), Some(Refusal::NotNow));
}

#[test]
fn calls_outside_a_mode_are_refused() {
    let mut maker = maker(Mode::SigWait, &[Operator::Sum]);
    let mut signaller = maker.join(Mode::Sig).unwrap();
    let mut waiter = maker.join(Mode::Wait).unwrap();
    assert_eq!(signaller.look(0), Err(Refusal::NoWait));
    assert_eq!(waiter.signal(), Err(Refusal::NoSignal));
    assert_eq!(waiter.next(), Err(Refusal::NoSignal));
    assert_eq!(waiter.send(0, 1), Err(Refusal::NoSignal));
    assert_eq!(waiter.single(1, || unreachable!()), Err(Refusal::NoSignal));
    assert_eq!(maker.single(1, || unreachable!()), Err(Refusal::NoSingle));
    assert_eq!(maker.join(Mode::Single).err(), Some(Refusal::MoreThanParent));
    assert_eq!(signaller.join(Mode::Wait).err(), Some(Refusal::MoreThanParent));
    assert_eq!(waiter.join(Mode::Sig).err(), Some(Refusal::MoreThanParent));
}

#[test]
fn calls_out_of_order_are_refused() {
    in_time(|| {
        let mut task = maker(Mode::Single, &[Operator::Sum]);
        assert_eq!(task.wait(), Err(Refusal::NotSignalled));
        assert_eq!(task.look(0), Err(Refusal::NoPhaseYet));
        task.signal().unwrap();
        assert_eq!(task.signal(), Err(Refusal::AlreadySignalled));
        assert_eq!(task.next(), Err(Refusal::AlreadySignalled));
        assert_eq!(task.single(1, || unreachable!()), Err(Refusal::AlreadySignalled));
        // What was refused changed nothing.
        assert_eq!(task.wait(), Ok(0));
        assert_eq!(task.next(), Ok(1));
    });
}

#[test]
fn unknown_accumulators_are_refused() {
    let mut task = maker(Mode::SigWait, &[Operator::Sum]);
    for accumulator in [1, 4, 255] {
        assert_eq!(task.send(accumulator, 1), Err(Refusal::NoAccumulator));
        assert_eq!(task.look(accumulator), Err(Refusal::NoAccumulator));
    }
}

#[test]
fn tasks_over_256_at_once_are_refused() {
    let mut maker = maker(Mode::SigWait, &[]);
    let mut others = children(&mut maker, Mode::SigWait, 255);
    assert_eq!(maker.join(Mode::SigWait).err(), Some(Refusal::RegsFull));
    others.pop();
    assert_eq!(maker.join(Mode::SigWait).unwrap().number(), 256);
}

/// Two are held at the bound, each to propose a number of its own. One of them is first, and the other is refused.
#[test]
fn refusal_comes_to_who_slept() {
    in_time(|| {
        let phaser = Phaser::new(1, &[]).unwrap();
        let mut maker = phaser.make(Mode::Single).unwrap();
        let mut waiter = maker.join(Mode::Wait).unwrap();
        let mut proposers = children(&mut maker, Mode::Single, 2);
        maker.leave();
        proposers.iter_mut().for_each(|task| task.signal().unwrap());
        proposers.iter_mut().for_each(|task| assert_eq!(task.wait(), Ok(0)));
        let threads = proposers.into_iter().zip([7, 8]).map(|(mut task, number)| {
            thread::spawn(move || match task.single(number, || ()) {
                Err(Refusal::SingleMismatch) => (1, task.single(15 - number, || ())),
                answer => (0, answer),
            })
        });
        let threads: Vec<_> = threads.collect();
        let_sleep();
        assert_eq!(waiter.wait(), Ok(0));
        let answers: Vec<_> = threads.into_iter().map(joined).collect();
        assert_eq!(answers.iter().map(|(refused, _)| refused).sum::<u32>(), 1);
        assert_eq!(answers.iter().map(|(_, phase)| *phase).collect::<Vec<_>>(), [Ok(1), Ok(1)]);
    });
}

#[test]
fn refusals_have_their_words() {
    let text = "refused 14 RegsFull: As many tasks are registered as the limits allow. Let one leave first.";
    assert_eq!(Refusal::RegsFull.to_string(), text);
    let text = "refused 5 AlreadySignalled: The task has signalled since its last turn. End the turn before you signal again.";
    assert_eq!(Refusal::AlreadySignalled.to_string(), text);
}

// ---- Who leaves, and who panics

#[test]
fn who_leaves_holds_nobody_up() {
    in_time(|| {
        let mut maker = maker(Mode::SigWait, &[]);
        let tasks = children(&mut maker, Mode::SigWait, 3);
        let leaver = thread::spawn(move || {
            let_sleep();
            drop(maker);
        });
        assert_eq!(together(tasks, |mut task| [task.next(), task.next()]), [[Ok(0), Ok(1)]; 3]);
        joined(leaver);
    });
}

#[test]
fn thread_that_panics_holds_nobody_up() {
    in_time(|| {
        let mut maker = maker(Mode::SigWait, &[]);
        let tasks = children(&mut maker, Mode::SigWait, 3);
        let panicking = thread::spawn(move || {
            maker.next().unwrap();
            let_sleep();
            panic!("as it has to");
        });
        assert_eq!(together(tasks, |mut task| [task.next(), task.next(), task.next()]), [[Ok(0), Ok(1), Ok(2)]; 3]);
        assert!(panicking.join().is_err());
    });
}

/// The statement of phase 0 panics. The turn ends for all, and he who ran it goes on if the panic is caught.
#[test]
fn single_that_panics_ends_the_turn() {
    in_time(|| {
        let tasks = tasks(maker(Mode::Single, &[]), Mode::Single, 3);
        let panics = together(tasks, |mut task| {
            let caught = catch_unwind(AssertUnwindSafe(|| task.single(1, || panic!("as it has to"))));
            if let Ok(phase) = caught {
                assert_eq!(phase, Ok(0));
            }
            assert_eq!(task.single(2, || ()), Ok(1));
            caught.is_err()
        });
        assert_eq!(panics.into_iter().filter(|panics| *panics).count(), 1);
    });
}

/// What the statement panics with comes to its thread, once the turn has ended.
#[test]
fn panic_of_a_statement_goes_on() {
    in_time(|| {
        let (phaser, phases) = (Phaser::new(2, &[]).unwrap(), std::cell::Cell::new(0));
        let mut maker = phaser.make(Mode::Single).unwrap();
        let panics = || {
            let _ = maker.single(1, || {
                phases.set(1);
                panic!("as it has to")
            });
            phases.set(2); // it isn't reached
        };
        let panicked = catch_unwind(AssertUnwindSafe(panics)).unwrap_err();
        assert_eq!((panicked.downcast_ref(), phases.get(), maker.phase()), (Some(&"as it has to"), 1, 1));
        assert_eq!((phaser.missing(), maker.next()), (vec![], Ok(1)));
    });
}

#[test]
fn thread_that_panics_in_its_single_leaves() {
    in_time(|| {
        let mut maker = maker(Mode::Single, &[]);
        let mut other = maker.join(Mode::SigWait).unwrap();
        let panicking = thread::spawn(move || maker.single(1, || panic!("as it has to")));
        assert_eq!((other.next(), other.next()), (Ok(0), Ok(1)));
        assert!(panicking.join().is_err());
    });
}

/// The lock of a phaser is poisoned by nothing that a caller does.
#[test]
fn phaser_outlives_its_makers_thread() {
    in_time(|| {
        let phaser = Phaser::new(2, &[]).unwrap();
        let maker = phaser.make(Mode::SigWait).unwrap();
        let (gives, given) = channel();
        let thread = thread::spawn(move || {
            let mut maker = maker;
            gives.send(maker.join(Mode::SigWait).unwrap()).unwrap();
            drop(phaser);
            panic!("as it has to");
        });
        let mut child = given.recv().unwrap();
        assert!(thread.join().is_err());
        assert_eq!(child.next(), Ok(0));
    });
}

// ---- Scopes

/// Four threads send their number 1 to 4 times one more than the phase's, which comes to ten times that.
#[test]
fn scope_of_four_sums_each_phase() {
    in_time(|| {
        let (phaser, turns) = (Phaser::new(2, &[Operator::Sum]).unwrap(), AtomicU64::new(0));
        let ended = phaser.scope(|scope| {
            for value in 1..=4 {
                let turns = &turns;
                scope.spawn(Mode::SigWait, move |mut task| {
                    for phase in 0..100 {
                        task.send(0, value * (phase as i32 + 1)).unwrap();
                        assert_eq!(task.next(), Ok(phase));
                        assert_eq!(task.look(0), Ok(Look::Value(10 * (phase as i64 + 1))));
                        turns.fetch_add(1, Relaxed);
                    }
                })?;
            }
            Ok("ended")
        });
        assert_eq!((ended, turns.into_inner()), (Ok("ended"), 400));
    });
}

/// The thread of value 4 panics in phase 1, before it sends: the sums are 10, 6 and 6.
#[test]
fn panic_in_a_scope_holds_nobody_up() {
    in_time(|| {
        let phaser = Phaser::new(2, &[Operator::Sum]).unwrap();
        let turns = |mut task: Task, value| {
            [0, 1, 2].map(|phase| {
                assert!((phase, value) != (1, 4), "as it has to");
                task.send(0, value).unwrap();
                assert_eq!(task.next(), Ok(phase));
                task.look(0).unwrap()
            })
        };
        let came_to = phaser.scope(|scope| {
            let threads: Vec<_> = (1..=4)
                .map(|value| scope.spawn(Mode::SigWait, move |task| turns(task, value)))
                .collect::<Result<_, _>>()?;
            Ok(threads.into_iter().map(|thread| thread.join().ok()).collect::<Vec<_>>())
        });
        let sums = Some([10, 6, 6].map(Look::Value));
        assert_eq!(came_to, Ok(vec![sums, sums, sums, None]));
    });
}

/// Nobody joins the one that panics, so the scope panics, after the others have ended.
#[test]
fn scope_panics_after_its_threads() {
    in_time(|| {
        let (phaser, phases) = (Phaser::new(2, &[]).unwrap(), AtomicU64::new(0));
        let scope = || {
            phaser.scope(|scope| {
                scope.spawn(Mode::SigWait, |_task| panic!("as it has to"))?;
                for _ in 0..2 {
                    scope.spawn(Mode::SigWait, |mut task| {
                        (0..3).for_each(|phase| assert_eq!(task.next(), Ok(phase)));
                        phases.fetch_add(3, Relaxed);
                    })?;
                }
                Ok(())
            })
        };
        assert!(catch_unwind(AssertUnwindSafe(scope)).is_err());
        assert_eq!(phases.into_inner(), 6);
    });
}

/// The maker's task leaves by a panic of the body too, and by a refusal.
#[test]
fn scope_that_ends_early_joins_its_threads() {
    in_time(|| {
        let phases = AtomicU64::new(0);
        let scope = |ends: fn() -> Result<(), Refusal>| {
            Phaser::new(2, &[]).unwrap().scope(|scope| {
                scope.spawn(Mode::SigWait, |mut task| {
                    assert_eq!(task.next(), Ok(0));
                    phases.fetch_add(1, Relaxed);
                })?;
                ends()
            })
        };
        assert!(catch_unwind(AssertUnwindSafe(|| scope(|| panic!("as it has to")))).is_err());
        assert_eq!(phases.load(Relaxed), 1);
        assert_eq!(scope(|| Err(Refusal::Memory)), Err(Refusal::Memory));
        assert_eq!(phases.load(Relaxed), 2);
    });
}

/// The first thread would go on without the second, if the maker's task didn't wait for the end of the body.
#[test]
fn no_phase_ends_before_all_have_started() {
    in_time(|| {
        let (phaser, ended) = (Phaser::new(2, &[]).unwrap(), AtomicU64::new(0));
        let came = AtomicU64::new(0);
        let turn = |mut task: Task| {
            came.fetch_add(1, Relaxed);
            assert_eq!(task.next(), Ok(0));
            assert_eq!(came.load(Relaxed), 2);
            ended.fetch_add(1, Relaxed);
        };
        let turned = phaser.scope(|scope| {
            scope.spawn(Mode::SigWait, turn)?;
            let_sleep();
            assert_eq!(ended.load(Relaxed), 0);
            scope.spawn(Mode::SigWait, turn)?;
            scope.leave();
            while ended.load(Relaxed) < 2 {
                thread::yield_now();
            }
            Ok(())
        });
        assert_eq!(turned, Ok(()));
    });
}

/// A producer, two consumers and one task that runs singles: a scope has threads of every mode.
#[test]
fn scope_has_all_modes() {
    in_time(|| {
        let phaser = Phaser::new(1, &[Operator::Greatest]).unwrap();
        let runs = AtomicU64::new(0);
        let turned = phaser.scope(|scope| {
            scope.spawn(Mode::Sig, |mut task| {
                for item in 0..50 {
                    task.send(0, item as i32).unwrap();
                    assert_eq!(task.next(), Ok(item));
                }
            })?;
            for _ in 0..2 {
                scope.spawn(Mode::Wait, |mut task| {
                    for item in 0..50 {
                        assert_eq!(task.wait(), Ok(item));
                        assert_eq!(task.look(0), Ok(Look::Value(item as i64)));
                    }
                })?;
            }
            scope.spawn(Mode::Single, |mut task| {
                for item in 0..50 {
                    assert_eq!(task.single(1, || assert_eq!(runs.fetch_add(1, Relaxed), item)), Ok(item));
                }
            })?;
            Ok(())
        });
        assert_eq!((turned, runs.into_inner()), (Ok(()), 50));
    });
}

#[test]
fn scopes_refuse_what_has_no_place() {
    in_time(|| {
        let phaser = Phaser::new(2, &[]).unwrap();
        assert_eq!(phaser.scope(|_| Ok(())), Ok(()));
        assert_eq!(phaser.scope(|_| -> Result<(), _> { unreachable!() }), Err(Refusal::NotNow));
        let after_leaving = Phaser::new(2, &[]).unwrap().scope(|scope| {
            scope.leave();
            scope.leave(); // nothing is left to do
            scope.spawn(Mode::Sig, |task| task.number()).map(|_| ())
        });
        assert_eq!(after_leaving, Err(Refusal::NotRegistered));
        let after_joining = Phaser::new(2, &[]).unwrap().scope(|scope| {
            assert_eq!(scope.spawn(Mode::Sig, |task| task.number())?.join().unwrap(), 1);
            scope.spawn(Mode::Sig, |task| task.number()).map(|_| ())
        });
        assert_eq!(after_joining, Err(Refusal::NotRegistered));
    });
}

/// The 255 wait for the task of the maker, which is the 256th.
#[test]
fn scope_has_room_for_255() {
    in_time(|| {
        let phaser = Phaser::new(2, &[]).unwrap();
        let refused = phaser.scope(|scope| {
            for _ in 0..255 {
                scope.spawn(Mode::SigWait, |mut task| assert_eq!(task.next(), Ok(0)))?;
            }
            scope.spawn(Mode::SigWait, |_task| unreachable!()).map(|_| ())
        });
        assert_eq!(refused, Err(Refusal::RegsFull));
    });
}

// ---- Calls with a time, and who is missing

const MINUTE: Duration = Duration::from_secs(60);

/// The signal is made once: a task that comes back waits for what it has begun. Sent are 3 and 4 in phase 0, and 5 after
/// task 0 has signalled that, so in phase 1.
#[test]
fn next_runs_out_and_goes_on() {
    in_time(|| {
        let phaser = Phaser::new(2, &[Operator::Sum]).unwrap();
        let mut maker = phaser.make(Mode::SigWait).unwrap();
        let mut other = maker.join(Mode::SigWait).unwrap();
        let began = Instant::now();
        maker.send(0, 3).unwrap();
        assert_eq!(maker.next_timeout(Duration::from_millis(50)), Ok(None));
        assert!(began.elapsed() >= Duration::from_millis(50) && began.elapsed() < MINUTE / 2);
        assert_eq!((maker.try_next(), maker.next_timeout(Duration::ZERO), maker.phase()), (Ok(None), Ok(None), 0));
        assert_eq!(phaser.missing(), [1]);
        maker.send(0, 5).unwrap();
        other.send(0, 4).unwrap();
        assert_eq!((other.try_next(), phaser.missing()), (Ok(Some(0)), vec![]));
        assert_eq!((maker.try_next(), maker.phase(), maker.look(0)), (Ok(Some(0)), 1, Ok(Look::Value(7))));
        assert_eq!((maker.try_next(), other.next_timeout(Duration::MAX)), (Ok(None), Ok(Some(1))));
        assert_eq!((maker.next(), maker.look(0)), (Ok(1), Ok(Look::Value(5))));
    });
}

/// Whatever is not the same call is refused, before its answer has come and then.
#[test]
fn others_are_refused_while_a_call_goes_on() {
    in_time(|| {
        let mut maker = maker(Mode::Single, &[]);
        let mut other = maker.join(Mode::SigWait).unwrap();
        assert_eq!(maker.try_next(), Ok(None));
        for is_over in [false, true] {
            if is_over {
                assert_eq!(other.next(), Ok(0));
            }
            assert_eq!((maker.signal(), maker.try_signal()), (Err(Refusal::NotNow), Err(Refusal::NotNow)));
            assert_eq!((maker.wait(), maker.try_wait()), (Err(Refusal::NotNow), Err(Refusal::NotNow)));
            assert_eq!(maker.signal_timeout(MINUTE), Err(Refusal::NotNow));
            assert_eq!(maker.wait_timeout(MINUTE), Err(Refusal::NotNow));
            assert_eq!(maker.single(1, || unreachable!()), Err(Refusal::NotNow));
        }
        assert_eq!((maker.next(), maker.try_wait()), (Ok(0), Err(Refusal::NotSignalled)));
        maker.signal().unwrap();
        assert_eq!(maker.try_wait(), Ok(None));
        assert_eq!((maker.next(), maker.try_next()), (Err(Refusal::NotNow), Err(Refusal::NotNow)));
        assert_eq!((other.try_next(), maker.wait()), (Ok(Some(1)), Ok(1)));
    });
}

#[test]
fn one_party_never_runs_out() {
    in_time(|| {
        let (mut task, began) = (maker(Mode::SigWait, &[]), Instant::now());
        assert_eq!((task.try_next(), task.next_timeout(MINUTE)), (Ok(Some(0)), Ok(Some(1))));
        assert_eq!((task.try_signal(), task.try_wait()), (Ok(true), Ok(Some(2))));
        assert_eq!((task.signal_timeout(MINUTE), task.wait_timeout(MINUTE)), (Ok(true), Ok(Some(3))));
        assert_eq!(task.try_wait(), Err(Refusal::NotSignalled));
        assert!(began.elapsed() < MINUTE / 2);
    });
}

/// A time of less than a millisecond is waited for, and so is one of more milliseconds than 32 bits have: of 49 days.
#[test]
fn short_and_long_times_are_waited_for() {
    in_time(|| {
        let mut maker = maker(Mode::SigWait, &[]);
        let mut other = maker.join(Mode::SigWait).unwrap();
        for short in [Duration::from_nanos(1), Duration::from_micros(100), Duration::from_micros(1_900)] {
            let began = Instant::now();
            assert_eq!(maker.next_timeout(short), Ok(None));
            assert!(began.elapsed() >= short && began.elapsed() < MINUTE / 2);
        }
        for (phase, long) in [Duration::from_secs(50 * 24 * 3_600), Duration::MAX].into_iter().enumerate() {
            let thread = thread::spawn(move || (maker.next_timeout(long), maker));
            let_sleep();
            assert_eq!(other.next(), Ok(phase as u64));
            let (passed, back) = joined(thread);
            assert_eq!(passed, Ok(Some(phase as u64)));
            maker = back;
        }
    });
}

/// Task 0 tries and doesn't come back yet. The others pass phase 0 all the same, and wait for it in phase 1.
#[test]
fn others_go_on_without_who_ran_out() {
    in_time(|| {
        let phaser = Phaser::new(2, &[]).unwrap();
        let mut maker = phaser.make(Mode::SigWait).unwrap();
        let mut others = children(&mut maker, Mode::SigWait, 2).into_iter();
        let (mut first, mut second) = (others.next().unwrap(), others.next().unwrap());
        let passed = Arc::new(AtomicU64::new(0));
        let (of_first, of_second) = (passed.clone(), passed.clone());
        assert_eq!(maker.next_timeout(Duration::from_millis(5)), Ok(None));
        let first = thread::spawn(move || (first.next(), of_first.fetch_add(1, SeqCst), first.next_timeout(MINUTE)));
        let two = move || (second.next_timeout(MINUTE), of_second.fetch_add(1, SeqCst), second.next());
        let second = thread::spawn(two);
        while passed.load(SeqCst) < 2 || phaser.missing() != [0] {
            thread::yield_now();
        }
        let_sleep();
        assert!(!first.is_finished() && !second.is_finished());
        assert_eq!((maker.try_next(), maker.next_timeout(MINUTE)), (Ok(Some(0)), Ok(Some(1))));
        let ((one, _, two), (three, _, four)) = (joined(first), joined(second));
        assert_eq!((one, two, three, four), (Ok(0), Ok(Some(1)), Ok(Some(0)), Ok(1)));
    });
}

/// It leaves while its call goes on, and after its answer has come, again and again; and all tasks' calls go on at once.
#[test]
fn who_ran_out_leaves() {
    in_time(|| {
        let mut maker = maker(Mode::SigWait, &[]);
        for round in 0..600 {
            let mut child = maker.join(Mode::SigWait).unwrap();
            assert_eq!(child.try_next(), Ok(None));
            if round % 2 == 1 {
                assert_eq!(maker.next(), Ok(round / 2));
            }
        }
        let mut others = children(&mut maker, Mode::SigWait, 255);
        others.iter_mut().for_each(|task| assert_eq!(task.try_next(), Ok(None)));
        assert_eq!(maker.try_next(), Ok(Some(300)));
        others.iter_mut().for_each(|task| assert_eq!(task.try_next(), Ok(Some(300))));
    });
}

/// A task whose `next` goes on leaves, and the other sleeps until then.
#[test]
fn who_leaves_with_a_call_frees_others() {
    in_time(|| {
        let mut maker = maker(Mode::SigWait, &[]);
        let mut waits = maker.join(Mode::Wait).unwrap();
        let mut signals = maker.join(Mode::Sig).unwrap();
        assert_eq!((signals.next(), maker.next(), signals.next()), (Ok(0), Ok(0), Ok(1)));
        assert_eq!(signals.try_next(), Ok(None)); // the bound is 2, and the waiter is in phase 0
        let thread = thread::spawn(move || (maker.next(), maker.next()));
        let_sleep();
        drop(signals);
        assert_eq!((waits.wait(), waits.wait()), (Ok(0), Ok(1)));
        assert_eq!(joined(thread), (Ok(1), Ok(2)));
    });
}

/// Turns of threads whose times are often too short.
#[test]
fn hasty_threads_turn() {
    let turn = |task: &mut Task, phase: u64| match (phase + task.number()) % 4 {
        0 => task.next().map(Some),
        1 => task.next_timeout(Duration::from_micros(phase % 300)),
        2 => task.try_next(),
        _ => task.signal().and_then(|()| task.try_wait()),
    };
    let again = |task: &mut Task, phase: u64| match (phase + task.number()) % 4 {
        3 => task.wait_timeout(Duration::from_micros(50)),
        _ => task.next_timeout(Duration::from_micros(50)),
    };
    for is_traced in [false, true] {
        in_time(move || {
            let phaser = if is_traced { Phaser::traced(2, &[Operator::Sum]) } else { Phaser::new(2, &[Operator::Sum]) };
            let phaser = phaser.unwrap();
            let all = tasks(phaser.make(Mode::SigWait).unwrap(), Mode::SigWait, 5);
            together(all, move |mut task| {
                for phase in 0..1_000 {
                    task.send(0, task.number() as i32 + 1).unwrap();
                    let mut passed = turn(&mut task, phase).unwrap();
                    while passed.is_none() {
                        passed = again(&mut task, phase).unwrap();
                    }
                    assert_eq!((passed, task.look(0)), (Some(phase), Ok(Look::Value(15))));
                }
            });
            if is_traced {
                let totals = "totals registered 5 signals 5000 passes 5000 drops 5 sends 5000 up 15000 down 0\n";
                assert!(report(&phaser).ends_with(totals));
            }
        });
    }
}

/// A task that waits isn't missing, nor is any if none waits. A task that runs a single is.
#[test]
fn missing_tasks_are_named() {
    in_time(|| {
        let phaser = Phaser::new(2, &[]).unwrap();
        assert_eq!(phaser.missing(), []);
        let mut maker = phaser.make(Mode::Single).unwrap();
        let mut all = children(&mut maker, Mode::Single, 3);
        assert_eq!((phaser.missing(), maker.try_next(), phaser.missing()), (vec![], Ok(None), vec![1, 2, 3]));
        all[1].signal().unwrap();
        let late = maker.join(Mode::SigWait).unwrap(); // it has signalled, as its parent has
        assert_eq!(phaser.missing(), [1, 3]);
        assert_eq!((all[0].try_next(), phaser.missing()), (Ok(None), vec![3]));
        drop(all.pop());
        assert_eq!(phaser.missing(), []);
        assert_eq!((maker.try_next(), all[0].try_next(), all[1].wait()), (Ok(Some(0)), Ok(Some(0)), Ok(0)));
        late.leave();
        assert_eq!((maker.try_next(), all[1].try_next()), (Ok(None), Ok(None)));
        let seen = std::cell::RefCell::new(vec![]);
        assert_eq!(all[0].single(5, || *seen.borrow_mut() = phaser.missing()), Ok(1));
        assert_eq!((seen.into_inner(), phaser.missing()), (vec![1], vec![]));
    });
}

/// A signaller, number 1, and two waiters. The bound is 1: phase 1 is signalled once both have waited for phase 0.
#[test]
fn missing_at_the_bound_are_named() {
    in_time(|| {
        let phaser = Phaser::new(1, &[]).unwrap();
        let mut maker = phaser.make(Mode::SigWait).unwrap();
        let mut signals = maker.join(Mode::Sig).unwrap();
        let mut waits = children(&mut maker, Mode::Wait, 2);
        maker.leave();
        assert_eq!((signals.next(), signals.try_signal(), phaser.missing()), (Ok(0), Ok(false), vec![2, 3]));
        assert_eq!(signals.signal_timeout(Duration::from_millis(2)), Ok(false));
        assert_eq!((waits[0].wait(), phaser.missing()), (Ok(0), vec![3]));
        assert_eq!((waits[1].wait(), phaser.missing(), signals.try_signal()), (Ok(0), vec![], Ok(true)));
        assert_eq!((waits[0].wait(), waits[0].try_wait(), phaser.missing()), (Ok(1), Ok(None), vec![1]));
        assert_eq!((signals.wait(), signals.try_next(), phaser.missing()), (Ok(1), Ok(None), vec![3]));
        let mut late = signals.join(Mode::Sig).unwrap(); // it hasn't signalled phase 2, nor has its parent
        assert_eq!((phaser.missing(), waits[1].wait(), phaser.missing()), (vec![3, 4], Ok(1), vec![4]));
        assert_eq!((late.signal(), waits[0].wait(), signals.next()), (Ok(()), Ok(2), Ok(2)));
    });
}

// ---- Turns that take no lock, and calls that change that

/// While two turn, the third joins tasks that leave in the same phase, and hands its part over to another now and then. The
/// sums are 1, 2 and 3 of those who turn, and 10 of each who leaves.
#[test]
fn tasks_join_and_leave_while_others_come() {
    in_time(|| {
        let others = children(&mut maker(Mode::SigWait, &[Operator::Sum]), Mode::SigWait, 3);
        let phases = together(others, |mut task| {
            let (number, turns) = (task.number(), 0..3_000);
            turns.for_each(|phase| {
                for _ in 0..if number == 3 { phase % 4 } else { 0 } {
                    let mut child = task.join(Mode::SigWait).unwrap();
                    child.send(0, 10).unwrap();
                    child.leave();
                }
                if number == 3 && phase % 5 == 0 {
                    task = task.join(Mode::SigWait).unwrap();
                }
                task.send(0, number as i32).unwrap();
                assert_eq!(task.next(), Ok(phase));
                assert_eq!(task.look(0), Ok(Look::Value(6 + 10 * (phase as i64 % 4))));
            });
            task.phase()
        });
        assert_eq!(phases, [3_000; 3]);
    });
}

/// In each phase one of three makes another call before it turns, or turns by other calls. Sent are 1, 2 and 3 in each phase.
#[test]
fn turns_change_their_way() {
    let turn = |task: &mut Task, phaser: &Phaser, phase: u64| {
        let turns_otherwise = (phase / 7 + task.number()) % 3 == 0;
        match phase % 70 {
            0 if turns_otherwise => task.signal().and_then(|()| task.wait()),
            7 if turns_otherwise => Ok(task.try_next()?.map_or_else(|| task.next(), Ok)?),
            14 if turns_otherwise => {
                Ok(task.next_timeout(Duration::from_micros(20))?.map_or_else(|| task.next(), Ok)?)
            }
            21 | 28 if turns_otherwise => {
                task.join(if phase % 70 == 21 { Mode::Sig } else { Mode::Wait })?.leave();
                task.next()
            }
            35 if turns_otherwise => {
                assert!(!phaser.missing().contains(&99));
                task.next()
            }
            42 if turns_otherwise => {
                assert_eq!(task.wait(), Err(Refusal::NotSignalled));
                assert_eq!(task.single(5, || unreachable!()), Err(Refusal::NoSingle));
                task.next()
            }
            _ => task.next(),
        }
    };
    in_time(move || {
        let phaser = Arc::new(Phaser::new(2, &[Operator::Sum, Operator::Least, Operator::Greatest]).unwrap());
        let all = tasks(phaser.make(Mode::SigWait).unwrap(), Mode::SigWait, 3);
        together(all, move |mut task| {
            for phase in 0..2_000 {
                (0..3).for_each(|accumulator| task.send(accumulator, task.number() as i32 + 1).unwrap());
                assert_eq!(turn(&mut task, &phaser, phase), Ok(phase));
                let looks = [0, 1, 2].map(|accumulator| task.look(accumulator));
                assert_eq!(looks, [6, 1, 3].map(|fold| Ok(Look::Value(fold))));
            }
        });
    });
}

/// Seven values are more than are kept for a task until it comes. All count, whatever the task does next; that it leaves, too.
#[test]
fn many_values_of_a_phase_count() {
    in_time(|| {
        let mut maker = maker(Mode::SigWait, &[Operator::Sum]);
        assert_eq!(maker.next(), Ok(0));
        let send = |task: &mut Task, count| (1..=count).for_each(|value| task.send(0, value).unwrap());
        let mut child = maker.join(Mode::SigWait).unwrap();
        send(&mut child, 7);
        send(&mut maker, 3);
        child.leave();
        assert_eq!((maker.next(), maker.look(0)), (Ok(1), Ok(Look::Value(28 + 6))));
        send(&mut maker, 2);
        assert_eq!((maker.signal(), maker.send(0, 100)), (Ok(()), Ok(()))); // that one counts for phase 3
        assert_eq!((maker.wait(), maker.look(0)), (Ok(2), Ok(Look::Value(3))));
        send(&mut maker, 7);
        assert_eq!((maker.try_next(), maker.look(0)), (Ok(Some(3)), Ok(Look::Value(128))));
        for phase in 4..100 {
            send(&mut maker, phase % 9);
            let sum = phase % 9 * (phase % 9 + 1) / 2;
            assert_eq!((maker.next(), maker.look(0)), (Ok(phase as u64), Ok(Look::Value(sum.into()))));
        }
    });
}

/// What was sent before a turn whose time is over counts for its phase, and what is sent after it for the next. Once others
/// have ended the phase its fold is seen, though the task hasn't come back yet.
#[test]
fn who_ran_out_sees_the_phase_that_has_ended() {
    in_time(|| {
        let mut maker = maker(Mode::SigWait, &[Operator::Sum]);
        let mut other = maker.join(Mode::SigWait).unwrap();
        let turn = |task: Task| {
            let mut task = task;
            (task.send(0, 10).and_then(|()| task.next()), task)
        };
        for phase in 0..20 {
            let thread = thread::spawn(move || turn(other));
            assert_eq!((maker.send(0, phase), maker.next()), (Ok(()), Ok(phase as u64)));
            assert_eq!(maker.look(0), Ok(Look::Value(i64::from(phase) + 10)));
            other = joined(thread).1;
        }
        assert_eq!((maker.send(0, 5), maker.try_next(), maker.send(0, 6)), (Ok(()), Ok(None), Ok(())));
        assert_eq!(maker.look(0), Ok(Look::Value(19 + 10)));
        let (turned, mut other) = turn(other);
        assert_eq!((turned, maker.look(0)), (Ok(20), Ok(Look::Value(15))));
        assert_eq!((maker.phase(), maker.next(), maker.look(0)), (20, Ok(20), Ok(Look::Value(15))));
        assert_eq!((maker.try_next(), other.next(), maker.next()), (Ok(None), Ok(21), Ok(21)));
        assert_eq!(maker.look(0), Ok(Look::Value(6)));
    });
}

/// A task makes each of its calls while another waits in a turn. That turn ends in the phase in which this task signals.
#[test]
fn other_calls_meet_a_turn_that_waits() {
    type Other<'a> = &'a dyn Fn(&Phaser, &mut Task);
    let others: [Other; 5] = [
        &|_, task| assert_eq!(task.signal(), Ok(())),
        &|_, task| assert_eq!(task.wait(), Err(Refusal::NotSignalled)),
        &|_, task| assert_eq!(task.single(7, || unreachable!()), Err(Refusal::NoSingle)),
        &|phaser, _| assert_eq!(phaser.missing(), [0]),
        &|_, task| assert_eq!(task.join(Mode::Sig).unwrap().phase(), 1),
    ];
    for (at, other) in others.into_iter().enumerate() {
        let phaser = Phaser::new(2, &[]).unwrap();
        let mut maker = phaser.make(Mode::SigWait).unwrap();
        let mut waits = maker.join(Mode::SigWait).unwrap();
        let thread = thread::spawn(move || [waits.next(), waits.next()]);
        assert_eq!(maker.next(), Ok(0));
        let_sleep();
        other(&phaser, &mut maker);
        let last = if at == 0 { maker.wait() } else { maker.next() };
        assert_eq!((last, joined(thread)), (Ok(1), [Ok(0), Ok(1)]), "{at}");
    }
}

/// The turn of task 0 goes on, and ends while it has a child join. By its own turn the child shows where it has joined. Then task
/// 0 is given the answer of its turn, and nothing else before.
#[test]
fn child_of_a_turn_that_goes_on_knows_its_phase() {
    in_time(|| {
        let mut maker = maker(Mode::Single, &[]);
        let mut other = maker.join(Mode::SigWait).unwrap();
        for phase in 0..2_000 {
            assert_eq!(maker.try_next(), Ok(None));
            let thread = thread::spawn(move || (other.next(), other));
            let mut children = children(&mut maker, Mode::Sig, 1 + phase as usize % 3);
            for child in &mut children {
                let begun = child.phase();
                assert!(begun == phase || begun == phase + 1);
                assert_eq!(child.wait().or_else(|_| child.next()), Ok(begun));
            }
            drop(children);
            assert_eq!((maker.phase(), maker.signal(), maker.try_wait()), (phase, Err(Refusal::NotNow), Err(Refusal::NotNow)));
            assert_eq!(maker.single(1, || unreachable!()), Err(Refusal::NotNow));
            assert_eq!((maker.next(), maker.phase()), (Ok(phase), phase + 1));
            let (passed, back) = joined(thread);
            assert_eq!(passed, Ok(phase));
            other = back;
        }
    });
}

/// As many leave as join: a task takes no room that it doesn't give back, and no number again.
#[test]
fn thousand_join_and_leave() {
    for mode in [Mode::Sig, Mode::Wait, Mode::SigWait] {
        let mut maker = maker(Mode::SigWait, &[]);
        (1..1_000).for_each(|number| assert_eq!(maker.join(mode).unwrap().number(), number));
        assert_eq!(children(&mut maker, mode, 255).len(), 255);
    }
}

/// A task that waits in its turn has another join, which has signalled as it has. So only the third is missing.
#[test]
fn child_of_who_waits_has_signalled() {
    in_time(|| {
        let phaser = Phaser::new(2, &[]).unwrap();
        let mut maker = phaser.make(Mode::SigWait).unwrap();
        (0..5).for_each(|phase| assert_eq!(maker.next(), Ok(phase)));
        let mut late = maker.join(Mode::SigWait).unwrap();
        assert_eq!(maker.try_next(), Ok(None));
        let mut child = maker.join(Mode::SigWait).unwrap();
        assert_eq!((child.phase(), child.signal(), phaser.missing()), (5, Err(Refusal::AlreadySignalled), vec![1]));
        assert_eq!((late.next(), child.wait(), maker.next()), (Ok(5), Ok(5), Ok(5)));
    });
}

/// Whoever goes on drops its task at once: the phaser ends while others go on from the same phase.
#[test]
fn phaser_ends_with_its_last_phase() {
    in_time(|| {
        for _ in 0..300 {
            let all = tasks(maker(Mode::SigWait, &[]), Mode::SigWait, 4);
            assert_eq!(together(all, |mut task| (task.next(), task.next())), [(Ok(0), Ok(1)); 4]);
        }
    });
}

// ---- Many phases

/// Whether in each phase the sum is that of this phase's values, and all had come before anybody went on.
fn turn_with_values(count: usize, phases: u64, phaser: &Phaser) {
    let mut maker = phaser.make(Mode::SigWait).unwrap();
    let mut all = children(&mut maker, Mode::SigWait, count - 1);
    all.push(maker);
    let (came, count) = (AtomicU64::new(0), count as u64);
    let all_sum = (count * (count - 1) / 2) as i64;
    together(all, move |mut task| {
        for phase in 0..phases {
            let factor = (phase % 7 + 1) as i32;
            task.send(0, task.number() as i32 * factor).unwrap();
            came.fetch_add(1, Relaxed);
            assert_eq!(task.next(), Ok(phase));
            assert!(came.load(Relaxed) >= (phase + 1) * count, "a pass of phase {phase} is early");
            assert_eq!(task.look(0), Ok(Look::Value(all_sum * i64::from(factor))));
        }
    });
}

#[test]
fn two_threads_turn_often() {
    in_time(|| turn_with_values(2, 50_000, &Phaser::new(2, &[Operator::Sum]).unwrap()));
}

#[test]
fn four_threads_turn_often() {
    in_time(|| turn_with_values(4, 20_000, &Phaser::new(1, &[Operator::Sum]).unwrap()));
}

#[test]
fn sixteen_threads_turn_often() {
    in_time(|| turn_with_values(16, 5_000, &Phaser::new(2, &[Operator::Sum]).unwrap()));
}

/// More tasks than there are bits by which threads are woken.
#[test]
fn hundred_threads_turn() {
    in_time(|| turn_with_values(100, 200, &Phaser::new(2, &[Operator::Sum]).unwrap()));
}

/// Signals and waits apart, with work of another length in each thread between them.
#[test]
fn split_phases_turn_often() {
    in_time(|| {
        let (phases, came) = (3_000, AtomicU64::new(0));
        together(tasks(maker(Mode::SigWait, &[]), Mode::SigWait, 5), move |mut task| {
            for phase in 0..phases {
                came.fetch_add(1, Relaxed);
                task.signal().unwrap();
                (0..task.number() * (phase % 50)).for_each(|_| std::hint::spin_loop());
                assert_eq!(task.wait(), Ok(phase));
                assert!(came.load(Relaxed) >= (phase + 1) * 5);
            }
        });
    });
}

/// A producer fills a ring, and consumers read each item in order. Who has passed a phase reads its item before it passes the
/// next, so a ring has two places more than the bound.
fn produce(bound: u32, items: u64, consumers: usize) {
    let mut maker = Phaser::new(bound, &[]).unwrap().make(Mode::SigWait).unwrap();
    let mut producer = maker.join(Mode::Sig).unwrap();
    let readers = children(&mut maker, Mode::Wait, consumers);
    maker.leave();
    let ring: Arc<Vec<AtomicU64>> = Arc::new((0..bound as usize + 2).map(|_| AtomicU64::new(0)).collect());
    let place = move |item: u64| item as usize % (bound as usize + 2);
    let read = ring.clone();
    let writing = thread::spawn(move || {
        for item in 0..items {
            ring[place(item)].store(item * item, Relaxed);
            assert_eq!(producer.next(), Ok(item));
        }
    });
    together(readers, move |mut reader| {
        for item in 0..items {
            assert_eq!(reader.wait(), Ok(item));
            assert_eq!(read[place(item)].load(Relaxed), item * item);
        }
    });
    joined(writing);
}

#[test]
fn bounded_producer_is_never_too_far_ahead() {
    in_time(|| produce(1, 10_000, 2));
    in_time(|| produce(3, 10_000, 2));
    in_time(|| produce(64, 30_000, 1));
}

/// Threads come and go in some phase, and each sends 1 in each of its own. The one that stays sees each of them once.
#[test]
fn threads_come_and_go() {
    in_time(|| {
        let mut maker = maker(Mode::SigWait, &[Operator::Sum]);
        let (mut threads, mut seen, mut sent) = (Vec::new(), 0, 0);
        for round in 0..2_000_u64 {
            if round % 3 == 0 {
                let mut task = maker.join(Mode::SigWait).unwrap();
                let phases = round % 11 + 1;
                sent += phases;
                threads.push(thread::spawn(move || {
                    for phase in 0..phases {
                        task.send(0, 1).unwrap();
                        assert_eq!(task.next(), Ok(round + phase));
                    }
                }));
            }
            assert_eq!(maker.next(), Ok(round));
            let Ok(Look::Value(sum)) = maker.look(0) else { panic!("a sum is always there") };
            seen += sum as u64;
        }
        // Those who are still there go on without the maker only once it has left.
        while let Some(thread) = threads.pop() {
            while !thread.is_finished() {
                maker.next().unwrap();
                let Ok(Look::Value(sum)) = maker.look(0) else { panic!("a sum is always there") };
                seen += sum as u64;
            }
            joined(thread);
        }
        assert_eq!(seen, sent);
    });
}

/// Singles, of which each counts once, while others only signal and wait.
#[test]
fn singles_turn_often() {
    in_time(|| {
        static RUNS: AtomicU64 = AtomicU64::new(0);
        let mut maker = maker(Mode::Single, &[]);
        let mut all = children(&mut maker, Mode::SigWait, 2);
        all.extend(children(&mut maker, Mode::Single, 2));
        all.push(maker);
        together(all, |mut task| {
            for phase in 0..5_000 {
                let turned = match task.number() {
                    1 | 2 => task.next(),
                    _ => task.single(phase as u32, || assert_eq!(RUNS.fetch_add(1, Relaxed), phase)),
                };
                assert_eq!(turned, Ok(phase));
                assert_eq!(RUNS.load(Relaxed), phase + 1);
            }
        });
    });
}

// ---- Barriers: the same tests of std's and of this one

macro_rules! barrier_tests {
    ($name:ident, $barrier:ty) => {
        mod $name {
            use super::*;

            type Barrier = $barrier;

            /// In each round all had come before anybody went on, and one leads.
            fn meet(threads: usize, rounds: usize) {
                let barrier = Arc::new(Barrier::new(threads));
                let came = Arc::new(AtomicU64::new(0));
                let leaders: Arc<Vec<AtomicU64>> = Arc::new((0..rounds).map(|_| AtomicU64::new(0)).collect());
                let meeting: Vec<_> = (0..threads)
                    .map(|_| {
                        let (barrier, came, leaders) = (barrier.clone(), came.clone(), leaders.clone());
                        thread::spawn(move || {
                            for round in 0..rounds {
                                came.fetch_add(1, Relaxed);
                                let leads = barrier.wait().is_leader();
                                assert!(came.load(Relaxed) >= ((round + 1) * threads) as u64);
                                leaders[round].fetch_add(u64::from(leads), Relaxed);
                            }
                        })
                    })
                    .collect();
                meeting.into_iter().for_each(joined);
                assert!(leaders.iter().all(|leaders| leaders.load(Relaxed) == 1));
            }

            /// More threads than the barrier is for: each wait takes the place of one. Of as many as have gone on there have
            /// come whole generations, and each has one leader.
            fn crowd(size: u64, threads: usize, generations: u64) {
                let barrier = Barrier::new(size as usize);
                let [came, went, leaders] = [const { AtomicU64::new(0) }; 3];
                thread::scope(|scope| {
                    let meets = || {
                        while came.fetch_add(1, Relaxed) < size * generations {
                            let leads = barrier.wait().is_leader();
                            let gone = went.fetch_add(1, AcqRel) + 1;
                            assert!(came.load(Relaxed) >= gone.next_multiple_of(size));
                            leaders.fetch_add(u64::from(leads), Relaxed);
                        }
                    };
                    (0..threads).for_each(|_| drop(scope.spawn(meets)));
                });
                assert_eq!([&went, &leaders].map(|it| it.load(Relaxed)), [size * generations, generations]);
            }

            #[test]
            fn sixteen_threads_meet() {
                in_time(|| meet(16, 20_000));
            }

            #[test]
            fn few_threads_meet() {
                in_time(|| meet(2, 50_000));
                in_time(|| meet(3, 20_000));
            }

            #[test]
            fn more_threads_than_it_is_for_meet() {
                in_time(|| crowd(2, 6, 20_000));
                in_time(|| crowd(3, 8, 10_000));
                for size in [1, 2, 4, 7] {
                    in_time(move || crowd(size, 2 * size as usize, 5_000));
                    in_time(move || crowd(size, 2 * size as usize + 1, 5_000));
                }
            }

            /// The threads of each round are new ones.
            #[test]
            fn new_threads_meet() {
                in_time(|| {
                    let barrier = Barrier::new(5);
                    for _ in 0..300 {
                        let leaders = thread::scope(|scope| {
                            let threads: Vec<_> =
                                (0..5).map(|_| scope.spawn(|| barrier.wait().is_leader())).collect();
                            threads.into_iter().map(|it| it.join().unwrap()).filter(|leads| *leads).count()
                        });
                        assert_eq!(leaders, 1);
                    }
                });
            }

            /// Threads that meet at two barriers of different sizes by turns.
            #[test]
            fn threads_meet_at_two() {
                in_time(|| {
                    let (all, pairs) = (Barrier::new(4), [const { AtomicU64::new(0) }; 2]);
                    let two = [Barrier::new(2), Barrier::new(2)];
                    let meets = |pair: usize| {
                        for round in 1..=5_000 {
                            pairs[pair].fetch_add(1, Relaxed);
                            two[pair].wait();
                            assert!(pairs[pair].load(Relaxed) >= 2 * round);
                            all.wait();
                            assert!(pairs[1 - pair].load(Relaxed) >= 2 * round);
                        }
                    };
                    let meets = &meets;
                    thread::scope(|scope| (0..4).for_each(|at| drop(scope.spawn(move || meets(at % 2)))));
                });
            }

            #[test]
            fn barrier_of_none_is_one_of_one() {
                in_time(|| {
                    for count in [0, 1] {
                        let barrier = Barrier::new(count);
                        assert!(barrier.wait().is_leader());
                        assert!(barrier.wait().is_leader());
                    }
                });
            }

            #[test]
            fn it_has_the_same_form() {
                fn is_fit<T: Send + Sync + UnwindSafe + RefUnwindSafe>() {}
                is_fit::<Barrier>();
                assert_eq!(format!("{:?}", Barrier::new(2)), "Barrier { .. }");
                assert_eq!(format!("{:?}", Barrier::new(1).wait()), "BarrierWaitResult { is_leader: true }");
            }
        }
    };
}

barrier_tests!(barrier_of_std, std::sync::Barrier);
barrier_tests!(barrier_of_paldwosk, paldwosk::Barrier);

#[test]
fn barrier_of_256_is_the_greatest() {
    drop(Barrier::new(256));
    let panicked = catch_unwind(|| Barrier::new(257)).unwrap_err();
    let said = panicked.downcast_ref::<String>().unwrap();
    assert_eq!(said, "a paldwosk::Barrier has room for 256 threads, and 257 are asked for");
}

// ---- Traces

fn traced(bound: u32, operators: &[Operator], mode: Mode) -> (Phaser, Task) {
    let phaser = Phaser::traced(bound, operators).unwrap();
    let maker = phaser.make(mode).unwrap();
    (phaser, maker)
}

fn report(phaser: &Phaser) -> String {
    replay(phaser.trace().as_bytes()).unwrap()
}

/// The lines of the first tasks, where all of them are still there.
fn still_there(count: usize) -> String {
    (0..count).map(|task| format!("task {task} refused 21 NoFinish\n")).collect()
}

/// The root waits, task 1 has left, and task 2 hasn't signalled: a run that hangs.
#[test]
fn trace_marks_who_is_still_there() {
    in_time(|| {
        let (phaser, mut maker) = traced(2, &[], Mode::SigWait);
        let mut others = children(&mut maker, Mode::SigWait, 2);
        let late = others.pop().unwrap();
        drop(others);
        assert_eq!(maker.try_next(), Ok(None));
        let lines = concat!(
            "phaser 0 phases 1\ntask 0 refused 21 NoFinish\ntask 1 ended\ntask 2 refused 21 NoFinish\nfinish 0 tasks 2\n",
            "totals registered 3 signals 1 passes 0 drops 3 sends 0 up 0 down 0\n",
        );
        assert_eq!(report(&phaser), lines);
        drop((late, maker));
        assert!(report(&phaser).starts_with("phaser 0 phases 1\ntask 0 ended\ntask 1 ended\ntask 2 ended\n"));
        assert!(!phaser.trace().contains("refuse"));
    });
}

/// The child sends while its `next` goes on, so that is told as two acts. The sends 7 and 5 are of the phases 0 and 1.
#[test]
fn trace_of_calls_with_a_time_replays() {
    in_time(|| {
        let (phaser, mut maker) = traced(2, &[Operator::Sum], Mode::SigWait);
        let mut child = maker.join(Mode::SigWait).unwrap();
        child.send(0, 7).unwrap();
        assert_eq!(child.next_timeout(Duration::from_millis(5)), Ok(None));
        child.send(0, 5).unwrap();
        let late = child.join(Mode::Sig).unwrap();
        late.leave();
        assert_eq!((maker.next(), child.look(0), child.try_next()), (Ok(0), Ok(Look::Value(7)), Ok(Some(0))));
        assert_eq!((child.try_next(), maker.try_next(), child.try_next()), (Ok(None), Ok(Some(1)), Ok(Some(1))));
        assert_eq!(child.try_next(), Ok(None));
        child.leave(); // with a call that goes on
        maker.leave();
        let lines = concat!(
            "phaser 0 phases 3\nphaser 0 phase 0 acc 0 value 7\nphaser 0 phase 1 acc 0 value 5\n",
            "phaser 0 phase 2 acc 0 value 0\ntask 0 ended\ntask 1 ended\ntask 2 ended\nfinish 0 tasks 2\n",
            "totals registered 3 signals 5 passes 4 drops 3 sends 2 up 12 down 0\n",
        );
        assert_eq!(report(&phaser), lines);
        for act in [r#"["signal"]"#, r#"["wait"]"#, r#"["next"]"#] {
            assert!(phaser.trace().contains(&format!(r#""t",1,"begin",{act}]"#)));
        }
    });
}

/// With a trace or without, a turn that the bound holds back is signalled and passed though its thread has gone. By the bound 1
/// another signal waits for that pass.
#[test]
fn held_turn_goes_on_without_its_thread() {
    for phaser in [Phaser::new(1, &[]).unwrap(), Phaser::traced(1, &[]).unwrap()] {
        in_time(move || {
            let mut maker = phaser.make(Mode::SigWait).unwrap();
            let (mut signals, mut waits) = (maker.join(Mode::Sig).unwrap(), maker.join(Mode::Wait).unwrap());
            assert_eq!((maker.try_next(), signals.next(), maker.try_next()), (Ok(None), Ok(0), Ok(Some(0))));
            // Both are held until the waiter has passed phase 0. Then the maker's passes phase 1 by itself.
            assert_eq!((maker.try_next(), signals.try_next()), (Ok(None), Ok(None)));
            assert_eq!(phaser.missing(), [2]);
            assert_eq!((waits.wait(), waits.try_wait()), (Ok(0), Ok(Some(1))));
            assert_eq!((signals.try_next(), signals.try_next()), (Ok(Some(1)), Ok(Some(2))));
            assert_eq!((waits.try_wait(), phaser.missing()), (Ok(None), vec![0]));
            assert_eq!((maker.phase(), maker.join(Mode::Sig).unwrap().phase()), (1, 2)); // it doesn't know yet
            assert_eq!((maker.try_next(), maker.phase(), maker.try_next()), (Ok(Some(1)), 2, Ok(Some(2))));
            assert_eq!(waits.try_wait(), Ok(Some(2)));
        });
    }
}

#[test]
fn phaser_that_is_not_traced_has_no_trace() {
    let phaser = Phaser::new(2, &[]).unwrap();
    let maker = phaser.make(Mode::Sig).unwrap();
    assert_eq!(phaser.trace(), "");
    assert!(!phaser.trace_has_ended());
    drop(maker);
}

#[test]
fn trace_of_one_task_is_told() {
    in_time(|| {
        let (phaser, mut task) = traced(2, &[Operator::Sum, Operator::Greatest], Mode::SigWait);
        task.send(0, -5).unwrap();
        task.next().unwrap();
        assert_eq!((task.look(0), task.look(1)), (Ok(Look::Value(-5)), Ok(Look::Nothing)));
        task.signal().unwrap();
        task.wait().unwrap();
        assert_eq!(task.signal().and(task.signal()), Err(Refusal::AlreadySignalled)); // the second is no event
        let child = task.join(Mode::Sig).unwrap();
        child.leave();
        task.leave();
        let text = concat!(
            r#"{"events":[[1,"p",0,"make",0,"SIG_WAIT",["sum","greatest"],2],[2,"p",0,"send",0,0,-5],"#,
            r#"[3,"t",0,"begin",["next"]],[4,"p",0,"sig",0],[5,"p",0,"pass",0],"#,
            r#"[6,"p",0,"look",0,0,-5],[7,"p",0,"look",0,1,null],"#,
            r#"[8,"t",0,"begin",["signal"]],[9,"p",0,"sig",0],[10,"t",0,"begin",["wait"]],[11,"p",0,"pass",0],"#,
            r#"[12,"t",0,"begin",["signal"]],[13,"p",0,"sig",0],"#,
            r#"[14,"t",0,"begin",["async",1,[[0,"SIG"]]]],[15,"p",0,"reg",0,1,"SIG"],[16,"f",0,"spawned",1],"#,
            r#"[17,"t",1,"begin",["end"]],[18,"p",0,"drop",1],[19,"f",0,"ended",1],"#,
            r#"[20,"t",0,"begin",["end"]],[21,"p",0,"drop",0],[22,"f",0,"shut"]],"#,
            r#""limits":{"acts":65536,"history":65536,"tasks":4096},"version":2}"#
        );
        assert_eq!(phaser.trace(), text);
        let lines = concat!(
            "phaser 0 phases 3\n",
            "phaser 0 phase 0 acc 0 value -5\nphaser 0 phase 0 acc 1 none\n",
            "phaser 0 phase 1 acc 0 value 0\nphaser 0 phase 1 acc 1 none\n",
            "phaser 0 phase 2 acc 0 value 0\nphaser 0 phase 2 acc 1 none\n",
            "task 0 ended\ntask 1 ended\nfinish 0 tasks 1\n",
            "totals registered 2 signals 3 passes 2 drops 2 sends 1 up 0 down 5\n",
        );
        assert_eq!(report(&phaser), lines);
    });
}

/// The maker leaves first: the root's end comes last all the same.
#[test]
fn trace_of_threads_replays() {
    in_time(|| {
        let (phaser, mut maker) = traced(2, &[], Mode::SigWait);
        let tasks = children(&mut maker, Mode::SigWait, 3);
        maker.leave();
        together(tasks, |mut task| (0..50).for_each(|phase| assert_eq!(task.next(), Ok(phase))));
        let lines = concat!(
            "phaser 0 phases 50\ntask 0 ended\ntask 1 ended\ntask 2 ended\ntask 3 ended\nfinish 0 tasks 3\n",
            "totals registered 4 signals 150 passes 150 drops 4 sends 0 up 0 down 0\n",
        );
        assert_eq!(report(&phaser), lines);
        assert!(!phaser.trace_has_ended());
    });
}

#[test]
fn trace_of_a_scope_replays() {
    in_time(|| {
        let phaser = Phaser::traced(2, &[]).unwrap();
        let turned = phaser.scope(|scope| {
            for _ in 0..3 {
                scope.spawn(Mode::SigWait, |mut task| assert_eq!((task.next(), task.next()), (Ok(0), Ok(1))))?;
            }
            Ok(())
        });
        assert_eq!(turned, Ok(()));
        let lines = concat!(
            "phaser 0 phases 2\ntask 0 ended\ntask 1 ended\ntask 2 ended\ntask 3 ended\nfinish 0 tasks 3\n",
            "totals registered 4 signals 6 passes 6 drops 4 sends 0 up 0 down 0\n",
        );
        assert_eq!(report(&phaser), lines);
    });
}

#[test]
fn trace_of_values_replays() {
    in_time(|| {
        let phaser = Phaser::traced(2, &[Operator::Sum]).unwrap();
        turn_with_values(4, 200, &phaser);
        let report = report(&phaser);
        // The tasks 0 to 3 send six times the phase's factor: 6 in phase 0, 42 in phase 6.
        assert!(report.starts_with("phaser 0 phases 200\nphaser 0 phase 0 acc 0 value 6\n"));
        assert!(report.contains("phaser 0 phase 6 acc 0 value 42\n"));
        // 28 times seven phases of factors 1 to 7, and four phases of 1 to 4: (28 * 28 + 10) * 6.
        assert!(report.ends_with("totals registered 4 signals 800 passes 800 drops 4 sends 800 up 4764 down 0\n"));
    });
}

#[test]
fn trace_at_the_bound_replays() {
    in_time(|| {
        let (phaser, mut maker) = traced(1, &[], Mode::SigWait);
        let mut producer = maker.join(Mode::Sig).unwrap();
        let consumers = children(&mut maker, Mode::Wait, 2);
        maker.leave();
        let thread = thread::spawn(move || {
            for item in 0..100 {
                assert_eq!(producer.next(), Ok(2 * item));
                assert_eq!(producer.signal(), Ok(()));
                assert_eq!(producer.wait(), Ok(2 * item + 1));
            }
        });
        together(consumers, |mut task| (0..200).for_each(|phase| assert_eq!(task.wait(), Ok(phase))));
        joined(thread);
        let lines = concat!(
            "phaser 0 phases 200\ntask 0 ended\ntask 1 ended\ntask 2 ended\ntask 3 ended\nfinish 0 tasks 3\n",
            "totals registered 4 signals 200 passes 600 drops 4 sends 0 up 0 down 0\n",
        );
        assert_eq!(report(&phaser), lines);
    });
}

/// Proposers whom the bound holds up, one who proposes nothing, and statements that panic.
#[test]
fn trace_of_singles_replays() {
    in_time(|| {
        let (phaser, mut maker) = traced(1, &[], Mode::Single);
        let mut all = children(&mut maker, Mode::Single, 2);
        all.extend(children(&mut maker, Mode::SigWait, 1));
        all.extend(children(&mut maker, Mode::Wait, 1));
        maker.leave();
        let panics = together(all, |mut task| {
            let mut panics = 0;
            for phase in 0..100 {
                let statement = || assert!(phase % 10 != 9, "as it has to");
                let turned = match task.number() {
                    1 | 2 => catch_unwind(AssertUnwindSafe(|| task.single(phase as u32, statement))),
                    3 => Ok(task.next()),
                    _ => Ok(task.wait()),
                };
                match turned {
                    Ok(turned) => assert_eq!(turned, Ok(phase)),
                    Err(_) => panics += 1,
                }
            }
            panics
        });
        assert_eq!(panics.into_iter().sum::<u32>(), 10);
        let lines = concat!(
            "phaser 0 phases 100\ntask 0 ended\ntask 1 ended\ntask 2 ended\ntask 3 ended\ntask 4 ended\nfinish 0 tasks 4\n",
            "totals registered 5 signals 300 passes 400 drops 5 sends 0 up 0 down 0\n",
        );
        assert_eq!(report(&phaser), lines);
    });
}

#[test]
fn trace_of_nobody_replays() {
    let phaser = Phaser::traced(2, &[]).unwrap();
    let lines = "task 0 ended\nfinish 0 tasks 0\ntotals registered 0 signals 0 passes 0 drops 0 sends 0 up 0 down 0\n";
    assert_eq!(report(&phaser), lines);
}

/// One is idle, one is ahead, and one waits: the text closes the run for all three, and the run goes on.
#[test]
fn trace_is_asked_for_on_the_way() {
    in_time(|| {
        let (phaser, mut maker) = traced(2, &[], Mode::SigWait);
        let mut ahead = maker.join(Mode::SigWait).unwrap();
        ahead.signal().unwrap();
        let mut waiting = maker.join(Mode::SigWait).unwrap();
        let thread = thread::spawn(move || waiting.next());
        let still = "task 0 refused 21 NoFinish\ntask 1 refused 21 NoFinish\n";
        let ends = format!("{still}task 2 refused 21 NoFinish\nfinish 0 tasks 2\n");
        // Once the second has signalled too.
        while !report(&phaser).contains("signals 2") {
            thread::yield_now();
        }
        let totals = "totals registered 3 signals 2 passes 0 drops 3 sends 0 up 0 down 0\n";
        assert_eq!(report(&phaser), format!("phaser 0 phases 1\n{ends}{totals}"));
        maker.next().unwrap();
        ahead.wait().unwrap();
        assert_eq!(joined(thread), Ok(0));
        let ends = format!("{still}task 2 ended\nfinish 0 tasks 2\n");
        let totals = "totals registered 3 signals 3 passes 3 drops 3 sends 0 up 0 down 0\n";
        assert_eq!(report(&phaser), format!("phaser 0 phases 1\n{ends}{totals}"));
    });
}

/// In the text an open single is claimed, done and passed: before its phase is closed, and while its statement runs.
#[test]
fn trace_is_asked_for_in_a_single() {
    in_time(|| {
        let (phaser, mut maker) = traced(2, &[], Mode::Single);
        let mut proposers = children(&mut maker, Mode::Single, 2);
        maker.leave();
        let report_of = |signals, passes| {
            format!(
                "phaser 0 phases 1\ntask 0 ended\ntask 1 refused 21 NoFinish\ntask 2 refused 21 NoFinish\n\
                 finish 0 tasks 2\n\
                 totals registered 3 signals {signals} passes {passes} drops 3 sends 0 up 0 down 0\n"
            )
        };
        let runs = AtomicU64::new(0);
        let statement = || {
            runs.fetch_add(1, Relaxed);
            assert_eq!(report(&phaser), report_of(2, 2));
        };
        let mut last = proposers.pop().unwrap();
        let mut first = proposers.pop().unwrap();
        thread::scope(|scope| {
            let thread = scope.spawn(move || (first.single(1, statement), first));
            while !report(&phaser).contains("signals 1") {
                thread::yield_now();
            }
            assert_eq!(report(&phaser), report_of(1, 1));
            assert_eq!(last.single(1, statement), Ok(0));
            let (phase, _first) = thread.join().unwrap();
            assert_eq!(phase, Ok(0));
            assert_eq!(report(&phaser), report_of(2, 2));
        });
        assert_eq!(runs.load(Relaxed), 1);
        assert!(report(&phaser).contains("task 1 ended\ntask 2 refused 21 NoFinish\n"));
    });
}

/// One task: its making is an event, and each turn two. After 29,999 turns there is room for the signal of one more. The task is
/// still there where the trace ends.
#[test]
fn trace_ends_at_60_000_events() {
    in_time(|| {
        let (phaser, mut task) = traced(2, &[], Mode::SigWait);
        for phase in 0..30_000 {
            assert!(!phaser.trace_has_ended());
            assert_eq!(task.next(), Ok(phase));
        }
        assert!(phaser.trace_has_ended());
        (30_000..40_000).for_each(|phase| assert_eq!(task.next(), Ok(phase)));
        let lines = concat!(
            "phaser 0 phases 30000\ntask 0 refused 21 NoFinish\nfinish 0 tasks 0\n",
            "totals registered 1 signals 30000 passes 29999 drops 1 sends 0 up 0 down 0\n",
        );
        assert_eq!(report(&phaser), lines);
    });
}

/// Four events come first, and each turn of the four has eight: so the last that are noted are the signals of the turn after
/// 7,499, which aren't passed.
#[test]
fn trace_of_threads_ends_at_60_000_events() {
    in_time(|| {
        let (phaser, maker) = traced(2, &[], Mode::SigWait);
        together(tasks(maker, Mode::SigWait, 4), |mut task| {
            (0..8_000).for_each(|phase| assert_eq!(task.next(), Ok(phase)));
        });
        assert!(phaser.trace_has_ended());
        let lines = concat!(
            "phaser 0 phases 7500\nFOUR TASKSfinish 0 tasks 3\n",
            "totals registered 4 signals 30000 passes 29996 drops 4 sends 0 up 0 down 0\n",
        );
        assert_eq!(report(&phaser), lines.replace("FOUR TASKS", &still_there(4)));
    });
}

/// Four events come first, and a turn with a single has ten: after 5,999 turns there is room for six more, four signals, the
/// claim and the report. The text has the passes too, since no task leaves a single behind.
#[test]
fn trace_of_singles_ends_at_60_000_events() {
    in_time(|| {
        let (phaser, maker) = traced(2, &[], Mode::Single);
        together(tasks(maker, Mode::Single, 4), |mut task| {
            (0..6_500).for_each(|phase| assert_eq!(task.single(phase as u32, || ()), Ok(phase)));
        });
        assert!(phaser.trace_has_ended());
        let lines = concat!(
            "phaser 0 phases 6000\nFOUR TASKSfinish 0 tasks 3\n",
            "totals registered 4 signals 24000 passes 24000 drops 4 sends 0 up 0 down 0\n",
        );
        assert_eq!(report(&phaser), lines.replace("FOUR TASKS", &still_there(4)));
    });
}

#[test]
fn trace_ends_at_task_4_096() {
    in_time(|| {
        let (phaser, mut maker) = traced(2, &[], Mode::SigWait);
        for number in 1..4_096 {
            assert_eq!(maker.join(Mode::Sig).unwrap().number(), number);
        }
        assert!(!phaser.trace_has_ended());
        let mut late = maker.join(Mode::Sig).unwrap();
        assert!(phaser.trace_has_ended());
        assert_eq!(late.next(), Ok(0));
        assert_eq!(maker.next(), Ok(0));
        let report = report(&phaser);
        // The text ends before the last was registered, so nobody had signalled, and no phase is told.
        assert!(report.starts_with("phaser 0 phases 0\ntask 0 refused 21 NoFinish\ntask 1 ended\n"));
        assert!(report.ends_with("totals registered 4096 signals 0 passes 0 drops 4096 sends 0 up 0 down 0\n"));
    });
}

// ---- A wait that is watched

/// With this in the environment, the process of the test itself: its task 0 waits for task 1 for longer than a second.
const WATCH: &str = "PALDWOSK_WATCH";

#[test]
fn watched_wait_is_told() {
    if std::env::var_os(WATCH).is_some() {
        let mut maker = maker(Mode::SigWait, &[]);
        let _late = maker.join(Mode::SigWait).unwrap();
        assert_eq!(maker.next_timeout(Duration::from_millis(1_500)), Ok(None));
        return;
    }
    let ran = Command::new(std::env::current_exe().unwrap())
        .args(["--exact", "watched_wait_is_told", "--nocapture"])
        .env(WATCH, "1")
        .output()
        .unwrap();
    let told = "paldwosk: task 0 waits for more than 1 s; waiting: 0 (phase 0); missing: 1\n";
    assert!(ran.status.success() && String::from_utf8_lossy(&ran.stderr).contains(told), "{ran:?}");
}

// ---- The types

#[test]
fn tasks_go_from_thread_to_thread() {
    fn is_sent<T: Send>() {}
    fn is_shared<T: Send + Sync>() {}
    is_sent::<Task>();
    is_shared::<Phaser>();
    let (_, task) = traced(2, &[], Mode::SigWait);
    assert_eq!(format!("{task:?}"), "Task { number: 0, .. }");
    assert_eq!(format!("{:?}", Phaser::new(2, &[]).unwrap()), "Phaser { .. }");
}
