//! The worked examples of one phaser, call by call, through the Rust crate.
use paldwosk::{events, Limits, Look, Mode, Operator, Passing, PhaserState, Refusal, Signalling};
use std::sync::Mutex;
use std::thread;

#[test]
fn lines_may_be_longer_than_the_first_room() {
    // 1,000 calls of 3 bytes each, `ok` with its newline, are less than the first room, and 2,000 are more.
    for calls in [1_000, 2_000] {
        let sends = r#",["send",0,0,1]"#.repeat(calls - 1);
        let file = format!(r#"{{"accs":["sum"],"calls":[["make",0,"SIG_WAIT"]{sends}]}}"#);
        assert_eq!(events(file.as_bytes()), Ok("ok\n".repeat(calls)));
    }
}

/// `two_tasks_turn` of the worked examples.
#[test]
fn two_tasks_turn() -> Result<(), Refusal> {
    let mut phaser = PhaserState::new(Limits::default(), &[], None)?;
    phaser.make(0, Mode::SigWait)?;
    phaser.register(0, 1, Mode::SigWait)?;
    assert_eq!(phaser.signal(0, None)?, Signalling::Signalled);
    assert_eq!(phaser.pass(0)?, Passing::NotYet);
    assert!(!phaser.is_closed(0));
    assert_eq!(phaser.signal(1, None)?, Signalling::Signalled);
    assert!(phaser.is_closed(0));
    assert_eq!(phaser.pass(0)?, Passing::Passed(0));
    assert_eq!(phaser.pass(1)?, Passing::Passed(0));
    assert_eq!(phaser.event_count(), 6);
    Ok(())
}

/// `single_statement`, up to the first task's turn.
#[test]
fn single_statement() -> Result<(), Refusal> {
    let mut phaser = PhaserState::new(Limits::default(), &[], None)?;
    phaser.make(0, Mode::Single)?;
    phaser.register(0, 1, Mode::Single)?;
    phaser.register(0, 2, Mode::Single)?;
    assert_eq!(phaser.signal(0, Some(7))?, Signalling::Signalled);
    assert_eq!(phaser.signal(1, Some(7))?, Signalling::Signalled);
    assert_eq!(phaser.signal(2, Some(8)), Err(Refusal::SingleMismatch));
    assert_eq!(phaser.pass(0)?, Passing::NotYet);
    assert_eq!(phaser.signal(2, Some(7))?, Signalling::Signalled);
    assert_eq!(phaser.drop_task(0), Err(Refusal::NotNow));
    assert_eq!(phaser.pass(0)?, Passing::Claimed(7));
    assert_eq!(phaser.pass(1)?, Passing::NotYet);
    assert_eq!(phaser.single_done(1), Err(Refusal::NotNow));
    phaser.single_done(0)?;
    assert_eq!(phaser.pass(1)?, Passing::Passed(0));
    Ok(())
}

/// `extreme_values`, and the fold of the phase.
#[test]
fn extreme_values() -> Result<(), Refusal> {
    let operators = [Operator::Sum, Operator::Least, Operator::Greatest];
    let mut phaser = PhaserState::new(Limits::default(), &operators, None)?;
    phaser.make(0, Mode::SigWait)?;
    phaser.send(0, 0, i32::MIN)?;
    phaser.send(0, 0, i32::MIN)?;
    phaser.send(0, 1, i32::MIN)?;
    assert_eq!(phaser.look(0, 0), Err(Refusal::NoPhaseYet));
    assert_eq!(phaser.signal(0, None)?, Signalling::Signalled);
    assert_eq!(phaser.pass(0)?, Passing::Passed(0));
    assert_eq!(phaser.look(0, 0)?, Look::Value(-4_294_967_296));
    assert_eq!(phaser.look(0, 1)?, Look::Value(-2_147_483_648));
    assert_eq!(phaser.look(0, 2)?, Look::Nothing);
    assert_eq!(phaser.fold_at(0, 0), Some(Look::Value(-4_294_967_296)));
    assert_eq!(phaser.fold_at(3, 0), None);
    assert!(phaser.compared() <= 9);
    Ok(())
}

/// `bounded_signaller`: with the bound 1 the second signal waits for the waiter's turn.
#[test]
fn bounded_signaller() -> Result<(), Refusal> {
    let mut phaser = PhaserState::new(Limits::default(), &[], Some(1))?;
    phaser.make(0, Mode::SigWait)?;
    phaser.register(0, 1, Mode::Sig)?;
    phaser.register(0, 2, Mode::Wait)?;
    phaser.drop_task(0)?;
    assert_eq!(phaser.signal(1, None)?, Signalling::Signalled);
    assert_eq!(phaser.pass(1)?, Passing::Passed(0));
    assert_eq!(phaser.signal(1, None)?, Signalling::NotYet);
    assert_eq!(phaser.pass(2)?, Passing::Passed(0));
    assert_eq!(phaser.signal(1, None)?, Signalling::Signalled);
    Ok(())
}

#[test]
fn what_is_wrong_is_refused() {
    let few = Limits { history: 3, ..Limits::default() };
    assert_eq!(PhaserState::new(few, &[], None).err(), Some(Refusal::BadLimits));
    assert_eq!(PhaserState::new(Limits::default(), &[Operator::Sum; 5], None).err(), Some(Refusal::BadOperators));
    assert_eq!(PhaserState::new(Limits::default(), &[], Some(0)).err(), Some(Refusal::BadBound));
    assert_eq!(PhaserState::new(Limits::default(), &[], Some(65_537)).err(), Some(Refusal::BadBound));
    let text = "refused 9 NoAccumulator: The phaser has no accumulator of that index. \
        Name its operator when you make the phaser (the first has index 0).";
    assert_eq!(Refusal::NoAccumulator.to_string(), text);
}

/// `history_full`, and the text of that history.
#[test]
fn history_is_told() -> Result<(), Refusal> {
    let mut phaser = PhaserState::new(Limits { history: 4, ..Limits::default() }, &[], None)?;
    phaser.make(0, Mode::SigWait)?;
    assert_eq!(phaser.signal(0, None)?, Signalling::Signalled);
    assert_eq!(phaser.pass(0)?, Passing::Passed(0));
    assert!(phaser.is_full());
    assert_eq!(phaser.signal(0, None), Err(Refusal::HistoryFull));
    phaser.drop_task(0)?;
    assert_eq!(phaser.history_text(2, &[1, 2, 3]), Err(Refusal::BadTickets));
    let text = concat!(
        r#"{"events":[[1,"p",2,"make",0,"SIG_WAIT",[],null],[3,"p",2,"sig",0],[4,"p",2,"pass",0],[6,"p",2,"drop",0]],"#,
        r#""limits":{"acts":4096,"finishes":64,"history":4,"phasers":64,"regs":256,"tasks":256},"version":2}"#
    );
    assert_eq!(phaser.history_text(2, &[1, 3, 4, 6])?, text);
    Ok(())
}

/// Threads share a phaser behind a lock: 4 tasks send their number in each of 50 phases, and see the sum.
#[test]
fn threads_share_a_phaser_behind_a_lock() -> Result<(), Refusal> {
    let mut phaser = PhaserState::new(Limits::default(), &[Operator::Sum], None)?;
    phaser.make(0, Mode::SigWait)?;
    for task in 1..4 {
        phaser.register(0, task, Mode::SigWait)?;
    }
    let phaser = Mutex::new(phaser);
    let turns = |task: u32| -> Result<(), Refusal> {
        for phase in 0..50 {
            let mut held = phaser.lock().unwrap();
            held.send(task, 0, task as i32)?;
            assert_eq!(held.signal(task, None)?, Signalling::Signalled);
            drop(held);
            while phaser.lock().unwrap().pass(task)? != Passing::Passed(phase) {
                thread::yield_now();
            }
            assert_eq!(phaser.lock().unwrap().look(task, 0)?, Look::Value(6));
        }
        Ok(())
    };
    thread::scope(|scope| {
        let threads: Vec<_> = (0..4).map(|task| scope.spawn({ let turns = &turns; move || turns(task) })).collect();
        threads.into_iter().try_for_each(|it| it.join().unwrap())
    })
}
