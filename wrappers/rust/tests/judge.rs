//! The judge of events: lists that were worked out by hand, and a program that judges itself.
use paldwosk::{Judge, JudgeRefusal, JudgedEvent, Look, Mode, Operator, Refusal, Totals};
use std::sync::mpsc::sync_channel;
use std::sync::{Arc, Barrier, Mutex};
use std::thread;

const MODE: Mode = Mode::SigWait;

fn make(task: u64, mode: Mode, operators: &[Operator]) -> JudgedEvent {
    JudgedEvent::Make { task, mode, operators: operators.to_vec(), bound: Some(2) }
}

fn register(parent: u64, child: u64, mode: Mode) -> JudgedEvent {
    JudgedEvent::Register { parent, child, mode }
}

fn signal(task: u64) -> JudgedEvent {
    JudgedEvent::Signal { task, single: None }
}

fn pass(task: u64) -> JudgedEvent {
    JudgedEvent::Pass { task }
}

fn leave(task: u64) -> JudgedEvent {
    JudgedEvent::Drop { task }
}

/// What a new judge answers to the first of these events of a phaser that isn't done, and its place; and the totals.
fn judged(phaser: u64, events: &[JudgedEvent]) -> (Result<(), (usize, Refusal)>, Totals) {
    let mut judge = Judge::new().unwrap();
    let mut give = |(at, event)| judge.event(phaser, event).map_err(|refusal| (at, refusal));
    let answer = events.iter().enumerate().try_for_each(&mut give);
    assert_eq!(judge.is_over(), answer.is_err());
    (answer, judge.totals())
}

/// At which place the events are refused, and why.
fn refused(events: &[JudgedEvent]) -> (usize, Refusal) {
    judged(7, events).0.unwrap_err()
}

#[test]
fn two_tasks_at_a_barrier() {
    let (first, second) = (1 << 63, u64::MAX);
    let events = [
        make(first, MODE, &[]),
        register(first, second, MODE),
        signal(first),
        signal(second),
        pass(first),
        pass(second),
        leave(first),
        leave(second),
    ];
    let totals = Totals { events: 8, made: 1, registrations: 2, signals: 2, passes: 2, drops: 2, ..Totals::default() };
    assert_eq!(judged(u64::MAX, &events), (Ok(()), totals));
}

#[test]
fn after_an_early_pass_the_judge_is_over() -> Result<(), Refusal> {
    let mut judge = Judge::new()?;
    judge.event(7, &make(1, MODE, &[]))?;
    judge.event(7, &register(1, 2, MODE))?;
    judge.event(7, &signal(1))?;
    assert!(!judge.is_over());
    assert_eq!(judge.event(7, &pass(1)), Err(Refusal::HadToWait));
    assert_eq!(judge.event(7, &signal(2)), Err(Refusal::Over));
    assert_eq!(judge.event(8, &make(1, MODE, &[])), Err(Refusal::Over));
    assert!(judge.is_over());
    assert_eq!((judge.totals().events, judge.totals().passes), (3, 0));
    Ok(())
}

/// What is told of an event that is refused, in the order of the fields.
fn told(refused: Result<(), JudgeRefusal>) -> (Refusal, u64, u64, Vec<u64>) {
    let JudgeRefusal { refusal, phase, count, tasks, .. } = refused.unwrap_err();
    (refusal, phase, count, tasks)
}

#[test]
fn an_early_pass_names_who_has_not_signalled() -> Result<(), Refusal> {
    let mut judge = Judge::new()?;
    judge.event_with_owing(7, &make(1, MODE, &[]))?;
    for child in [u64::MAX, 3, 1 << 63] {
        judge.event_with_owing(7, &register(1, child, MODE))?;
    }
    judge.event_with_owing(7, &register(1, 5, Mode::Wait))?; // it owes no signal
    judge.event_with_owing(7, &signal(1))?;
    judge.event_with_owing(7, &signal(3))?;
    let early = judge.event_with_owing(7, &pass(1));
    assert_eq!(told(early), (Refusal::HadToWait, 0, 2, vec![u64::MAX, 1 << 63]));
    assert_eq!(told(judge.event_with_owing(7, &signal(1 << 63))), (Refusal::Over, 0, 0, vec![]));
    assert_eq!(judge.event(7, &signal(1 << 63)), Err(Refusal::Over));
    Ok(())
}

#[test]
fn of_many_the_first_are_named() -> Result<(), Refusal> {
    let mut judge = Judge::new()?;
    judge.event_with_owing(7, &make(0, MODE, &[]))?;
    for child in 1..=17 {
        judge.event_with_owing(7, &register(0, child, MODE))?;
    }
    for task in 0..=17 {
        judge.event_with_owing(7, &signal(task))?;
    }
    judge.event_with_owing(7, &pass(0))?;
    judge.event_with_owing(7, &signal(0))?;
    let early = judge.event_with_owing(7, &pass(0)).unwrap_err();
    let words = "Phase 1 isn't signalled by task 1, 2, 3, 4, 5, 6, 7, 8, 9, 10, 11, 12, 13, 14, 15, 16, and by 1 more.";
    assert!(early.to_string().ends_with(words), "{early}");
    assert_eq!(told(Err(early)), (Refusal::HadToWait, 1, 17, (1..=16).collect()));
    Ok(())
}

#[test]
fn a_signal_and_a_single_wait_for_nobody_by_name() -> Result<(), Refusal> {
    let mut judge = Judge::new()?; // by the bound of 2 a third signal has to wait until task 1 passes
    judge.event_with_owing(7, &make(1, MODE, &[]))?;
    judge.event_with_owing(7, &register(1, 2, Mode::Sig))?;
    for _ in 0..2 {
        judge.event_with_owing(7, &signal(2))?;
        judge.event_with_owing(7, &pass(2))?; // it waits for nobody
    }
    assert_eq!(told(judge.event_with_owing(7, &signal(2))), (Refusal::HadToWait, 0, 0, vec![]));
    let mut judge = Judge::new()?; // task 2 claims the single of phase 0, and hasn't done it
    judge.event_with_owing(7, &make(1, Mode::Single, &[]))?;
    judge.event_with_owing(7, &register(1, 2, Mode::Single))?;
    for task in [1, 2] {
        judge.event_with_owing(7, &JudgedEvent::Signal { task, single: Some(9) })?;
    }
    judge.event_with_owing(7, &JudgedEvent::Claim { task: 2 })?;
    let early = judge.event_with_owing(7, &pass(1)).unwrap_err();
    assert_eq!(early.to_string(), Refusal::HadToWait.to_string());
    assert_eq!(told(Err(early)), (Refusal::HadToWait, 0, 0, vec![]));
    Ok(())
}

#[test]
fn numbers_are_used_again() {
    let events = [
        make(1, MODE, &[]),
        register(1, 2, MODE),
        leave(2),
        register(1, 2, Mode::Wait),
        leave(1),
        leave(2),
        make(2, Mode::Sig, &[]),
    ];
    let totals = Totals { events: 7, made: 2, there: 1, registrations: 4, drops: 3, ..Totals::default() };
    assert_eq!(judged(7, &events), (Ok(()), totals));
    assert_eq!(refused(&[make(1, MODE, &[]), make(2, MODE, &[])]), (1, Refusal::MadeAlready));
    assert_eq!(refused(&[make(1, MODE, &[]), register(1, 1, MODE)]), (1, Refusal::RegisteredAlready));
    assert_eq!(refused(&[make(1, MODE, &[]), leave(1), signal(1)]), (2, Refusal::NotMade));
    assert_eq!(refused(&[make(1, MODE, &[]), signal(2)]), (1, Refusal::NotRegistered));
    assert_eq!(refused(&[make(1, MODE, &[]), signal(1), signal(1)]), (2, Refusal::AlreadySignalled));
}

#[test]
fn singles() {
    let propose = |task| JudgedEvent::Signal { task, single: Some(u32::MAX) };
    let claim = |task| JudgedEvent::Claim { task };
    let mut events = vec![make(1, Mode::Single, &[]), register(1, 2, Mode::Single), propose(1), propose(2)];
    events.extend([claim(2), JudgedEvent::SingleDone { task: 2 }, pass(1), claim(2)]);
    assert_eq!(refused(&events), (7, Refusal::PassesInstead));
    assert_eq!(refused(&[make(1, Mode::Single, &[]), propose(1), pass(1)]), (2, Refusal::ClaimsInstead));
}

#[test]
fn values() {
    let send = JudgedEvent::Send { task: 1, accumulator: 0, value: i32::MIN };
    let look = |accumulator, saw| JudgedEvent::Look { task: 1, accumulator, saw };
    let operators = [Operator::Sum, Operator::Least];
    let mut events = vec![make(1, MODE, &operators), send.clone(), send, signal(1), pass(1)];
    events.extend([look(0, Look::Value(-(1 << 32))), look(1, Look::Nothing)]);
    let totals = Totals {
        events: 7,
        made: 1,
        there: 1,
        registrations: 1,
        signals: 1,
        passes: 1,
        sends: 2,
        ..Totals::default()
    };
    assert_eq!(judged(7, &events), (Ok(()), totals));
    events.push(look(0, Look::Nothing));
    assert_eq!(refused(&events), (7, Refusal::SawOther));
    assert_eq!(refused(&[make(1, MODE, &operators), signal(1), pass(1), look(2, Look::Nothing)]), (3, Refusal::NoAccumulator));
}

#[test]
fn numbers_that_are_none_change_nothing() -> Result<(), Refusal> {
    let mut judge = Judge::new()?;
    let bound = |bound| JudgedEvent::Make { task: 1, mode: MODE, operators: vec![], bound };
    assert_eq!(judge.event(7, &make(1, MODE, &[Operator::Sum; 5])), Err(Refusal::BadOperators));
    assert_eq!(judge.event(7, &bound(Some(0))), Err(Refusal::BadBound));
    assert_eq!(judge.event(7, &bound(Some(65_537))), Err(Refusal::BadBound));
    assert!(!judge.is_over());
    assert_eq!(judge.totals(), Totals::default());
    judge.event(7, &make(1, MODE, &[Operator::Sum; 4]))?;
    judge.event(8, &bound(None))
}

/// Threads at a barrier of the standard library, whose events go through a channel to a judge in a thread of its own.
#[test]
fn a_program_judges_itself_while_it_runs() {
    const THREADS: u64 = 4;
    const PHASES: u64 = 100;
    let (sender, receiver) = sync_channel(16);
    let judging = thread::spawn(move || {
        let mut judge = Judge::new()?;
        receiver.iter().try_for_each(|event| judge.event(7, &event))?;
        Ok::<_, Refusal>(judge.totals())
    });
    sender.send(make(0, MODE, &[])).unwrap();
    (1..THREADS).for_each(|child| sender.send(register(0, child, MODE)).unwrap());
    let (barrier, lock) = (Arc::new(Barrier::new(THREADS as usize)), Arc::new(Mutex::new(sender)));
    let work = |me| {
        let (barrier, lock) = (barrier.clone(), lock.clone());
        let note = move |event| lock.lock().unwrap().send(event).unwrap();
        thread::spawn(move || {
            for _ in 0..PHASES {
                note(signal(me));
                barrier.wait();
                note(pass(me));
            }
            note(leave(me));
        })
    };
    let threads: Vec<_> = (0..THREADS).map(work).collect();
    threads.into_iter().for_each(|thread| thread.join().unwrap());
    drop(lock);
    let turns = THREADS * PHASES;
    let totals = Totals {
        events: 1 + (THREADS - 1) + 2 * turns + THREADS,
        made: 1,
        registrations: THREADS,
        signals: turns,
        passes: turns,
        drops: THREADS,
        ..Totals::default()
    };
    assert_eq!(judging.join().unwrap(), Ok(totals));
}
