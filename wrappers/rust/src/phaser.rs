//! A phaser for threads that wait.
use crate::answers::{Look, Mode, Operator, Refusal};
use crate::shared::{Call, Member, Outcome, Shared};
use std::fmt;
use std::panic::resume_unwind;
use std::sync::Arc;
use std::time::Duration;

/// A barrier for threads that wait. Tasks may join and leave, and it lives as long as its program.
///
/// Each thread takes part with a [`Task`] of its own. [`make`](Phaser::make) makes the first, and [`join`](Task::join) of a
/// task makes another, which begins where that task stands. A task goes on when every task that signals has signalled. A task
/// leaves when it is dropped. The thread that makes the phaser takes part in it, or drops its task once the others have joined.
/// [`scope`](Phaser::scope) does that by itself.
///
/// # When a turn takes no lock
///
/// While all tasks are of mode `SigWait`, and stand in one phase, a [`next`](Task::next) takes no lock. Each thread that comes is
/// counted, and the last has the turns of all made. A [`send`](Task::send) or a [`look`](Task::look) mostly takes none either.
/// Tasks may join in mode `SigWait` and leave meanwhile.
///
/// A `signal`, a `wait`, a call with a time, a task of another mode and [`missing`](Phaser::missing) change that: from then on
/// each call takes a lock. It is as before once all stand in one phase again. If such calls come often that takes some phases
/// more. A [`traced`](Phaser::traced) phaser always takes its lock. The answers are the same.
///
/// ```
/// use paldwosk::{Look, Mode, Operator, Phaser, Refusal};
/// use std::thread;
///
/// fn main() -> Result<(), Refusal> {
///     let phaser = Phaser::new(2, &[Operator::Sum])?;
///     let mut maker = phaser.make(Mode::SigWait)?;
///     let threads: Vec<_> = (1..4)
///         .map(|value| {
///             let mut task = maker.join(Mode::SigWait)?;
///             Ok(thread::spawn(move || {
///                 task.send(0, value)?;
///                 task.next()?; // waits for all four
///                 task.look(0)
///             }))
///         })
///         .collect::<Result<_, Refusal>>()?;
///     maker.send(0, 4)?;
///     assert_eq!(maker.next()?, 0);
///     assert_eq!(maker.look(0)?, Look::Value(1 + 2 + 3 + 4));
///     for thread in threads {
///         assert_eq!(thread.join().unwrap()?, Look::Value(10));
///     }
///     Ok(())
/// }
/// ```
#[must_use = "threads take part in a phaser by tasks: call `make` or `scope`"]
pub struct Phaser {
    shared: Arc<Shared>,
}

impl Phaser {
    /// A phaser without tasks, with an accumulator for each of at most four operators, and a bound of 1 to 65,536 phases: a
    /// signal waits while a waiting task is so many phases behind. If all tasks signal and wait, a bound of 2 adds no wait; for
    /// producers and consumers it is the length of the queue. All memory that it will ever need is taken here.
    /// `BadOperators`, `BadBound`, `Memory`.
    pub fn new(bound: u32, operators: &[Operator]) -> Result<Phaser, Refusal> {
        Ok(Phaser { shared: Shared::new(bound, operators, false)? })
    }

    /// The same, and its run is traced: [`trace`](Phaser::trace) gives it as a text that [`replay`](crate::replay) judges.
    /// Each call costs somewhat more by that, and the phaser takes 1 MB more.
    ///
    /// ```
    /// # use paldwosk::{replay, Mode, Phaser, Refusal};
    /// # fn main() -> Result<(), Refusal> {
    /// let phaser = Phaser::traced(2, &[])?;
    /// let mut maker = phaser.make(Mode::SigWait)?;
    /// maker.next()?;
    /// maker.leave();
    /// let report = replay(phaser.trace().as_bytes()).unwrap();
    /// assert!(report.starts_with("phaser 0 phases 1\ntask 0 ended\n"));
    /// # Ok(())
    /// # }
    /// ```
    pub fn traced(bound: u32, operators: &[Operator]) -> Result<Phaser, Refusal> {
        Ok(Phaser { shared: Shared::new(bound, operators, true)? })
    }

    /// Makes the phaser: its first task, in this mode, in phase 0. `NotNow` if it was made before.
    pub fn make(&self, mode: Mode) -> Result<Task, Refusal> {
        Ok(Task { member: self.shared.make(mode)?, mode, phase: 0, unfinished: None })
    }

    /// Who keeps others waiting: the numbers of these tasks, the least first. Such a task hasn't signalled a phase that others
    /// wait for, or it runs a single. Or the bound holds back a signal until this task has waited. A task that waits itself
    /// isn't among them, and nobody is if nobody waits. The call looks at all tasks: it is for finding a fault, not for each
    /// phase.
    ///
    /// A program that is run with `PALDWOSK_WATCH=5` in its environment tells the same by itself: a thread that waits for more
    /// than 5 seconds writes a line to standard error. Threads don't spin then.
    ///
    /// ```
    /// # use paldwosk::{Mode, Phaser, Refusal};
    /// # fn main() -> Result<(), Refusal> {
    /// let phaser = Phaser::new(2, &[])?;
    /// let mut maker = phaser.make(Mode::SigWait)?;
    /// let _late = maker.join(Mode::SigWait)?;
    /// assert_eq!(phaser.missing(), []);
    /// assert_eq!(maker.try_next(), Ok(None));
    /// assert_eq!(phaser.missing(), [1]);
    /// # Ok(())
    /// # }
    /// ```
    #[must_use]
    pub fn missing(&self) -> Vec<u64> {
        self.shared.missing()
    }

    /// The text of the run so far, as a whole run: the maker is task 0, the root, which makes phaser 0, and each task that
    /// joins is a child of its parent. Of a phaser that isn't traced it is empty.
    ///
    /// A run has an end, and so has its text: the tasks that haven't left yet end in it. A turn that is signalled and not
    /// passed is told as a `signal`; a single that isn't done, as claimed, done and passed. These last events are told by the
    /// text alone, and all before them are those that were made, each in its order. The end of a task that is still there is
    /// a refusal that no call is answered: a report has `task 1 refused 21 NoFinish` for it, in place of `task 1 ended`.
    pub fn trace(&self) -> String {
        self.shared.trace()
    }

    /// Whether the trace has ended before the run, since it has room for 60,000 events of the phaser, and for tasks of numbers
    /// below 4,096. The run goes on all the same; the text is that of the run up to there.
    pub fn trace_has_ended(&self) -> bool {
        self.shared.trace_has_ended()
    }
}

impl fmt::Debug for Phaser {
    fn fmt(&self, f: &mut fmt::Formatter<'_>) -> fmt::Result {
        f.debug_struct("Phaser").finish_non_exhaustive()
    }
}

/// What one thread has of a [`Phaser`]: a task that is registered on it, in a mode that says what it may do. It leaves when it
/// is dropped, so a thread that panics holds nobody up; one that is forgotten ([`std::mem::forget`]) never leaves.
///
/// A task goes from thread to thread, and is in one call at a time: it can neither be copied nor be used by two threads.
///
/// ```compile_fail,E0599
/// # use paldwosk::{Mode, Phaser};
/// let task = Phaser::new(2, &[]).unwrap().make(Mode::SigWait).unwrap();
/// let twin = task.clone();
/// ```
///
/// ```compile_fail,E0499
/// # use paldwosk::{Mode, Phaser};
/// let mut task = Phaser::new(2, &[]).unwrap().make(Mode::SigWait).unwrap();
/// std::thread::scope(|scope| {
///     scope.spawn(|| task.next());
///     scope.spawn(|| task.next());
/// });
/// ```
///
/// A call that is refused changes nothing. Only a `next` or `single` whose pass is refused has signalled.
/// `HistoryFull` comes after 2^62 events.
///
/// # Calls with a time
///
/// The calls `.._timeout` wait for some time at most, and the calls `try_..` don't wait. If the time is over and the call
/// isn't, they return `Ok(None)` or `Ok(false)`. Nothing is taken back: a call that has to wait can't be withdrawn. It goes on
/// without its thread. A `next` has signalled, or does so once the bound lets it, and the others go on by that. The task's next
/// call of the same name, with a time or without, waits for the same answer, and doesn't signal once more. Until then each
/// other `signal`, `wait`, `next` and `single` of the task is refused by `NotNow`. It may send, look, join and leave.
///
/// A time is counted in whole milliseconds: a part of one counts as one.
///
/// A `single` has no form with a time, because a task can't leave a single behind that it has proposed.
///
/// ```
/// use paldwosk::{Mode, Phaser, Refusal};
/// use std::time::Duration;
///
/// # fn main() -> Result<(), Refusal> {
/// let mut maker = Phaser::new(2, &[])?.make(Mode::SigWait)?;
/// let mut late = maker.join(Mode::SigWait)?;
/// assert_eq!(maker.next_timeout(Duration::from_millis(10))?, None); // it has signalled
/// assert_eq!(maker.signal(), Err(Refusal::NotNow));
/// assert_eq!(late.try_next()?, Some(0)); // so the phase is over
/// assert_eq!(maker.next()?, 0);
/// # Ok(())
/// # }
/// ```
///
/// ```
/// use paldwosk::{Mode, Phaser, Refusal};
///
/// # fn main() -> Result<(), Refusal> {
/// let mut maker = Phaser::new(2, &[])?.make(Mode::SigWait)?;
/// let mut child = maker.join(Mode::SigWait)?;
/// child.signal()?; // goes on at once
/// assert_eq!(maker.next()?, 0); // the child has signalled: nobody else is waited for
/// assert_eq!(child.wait()?, 0);
/// child.leave();
/// assert_eq!(maker.next()?, 1);
/// # Ok(())
/// # }
/// ```
#[must_use = "a task that is dropped leaves its phaser at once"]
pub struct Task {
    member: Member,
    mode: Mode,
    phase: u64,
    unfinished: Option<Unfinished>,
}

/// A call whose time is over, and whose answer its task hasn't been given.
struct Unfinished {
    call: Call,
    /// The answer, if it was asked for meanwhile and has come.
    outcome: Option<Outcome>,
}

impl Task {
    /// The number of the task. No other task of the phaser has it or had it.
    #[must_use]
    pub fn number(&self) -> u64 {
        self.member.number()
    }

    /// The mode in which the task was made or joined. It stays the same.
    ///
    /// ```
    /// # use paldwosk::{Mode, Phaser, Refusal};
    /// # fn main() -> Result<(), Refusal> {
    /// let mut maker = Phaser::new(2, &[])?.make(Mode::SigWait)?;
    /// let producer = maker.join(Mode::Sig)?;
    /// assert_eq!([maker.mode(), producer.mode()], [Mode::SigWait, Mode::Sig]);
    /// # Ok(())
    /// # }
    /// ```
    #[must_use]
    pub fn mode(&self) -> Mode {
        self.mode
    }

    /// The phase that the task is in, from 0: the one that it passes next. It rises by one with each turn that the task ends,
    /// and not with a signal alone. A task that joins begins with its parent's.
    ///
    /// ```
    /// # use paldwosk::{Mode, Phaser, Refusal};
    /// # fn main() -> Result<(), Refusal> {
    /// let mut maker = Phaser::new(2, &[])?.make(Mode::SigWait)?;
    /// assert_eq!(maker.phase(), 0);
    /// assert_eq!(maker.next()?, 0);
    /// assert_eq!([maker.phase(), maker.join(Mode::Sig)?.phase()], [1, 1]);
    /// # Ok(())
    /// # }
    /// ```
    #[must_use]
    pub fn phase(&self) -> u64 {
        self.phase
    }

    /// The task has ended a turn, and goes on with the phase after it.
    fn passed(&mut self, outcome: Outcome) -> Outcome {
        if let Ok(phase) = outcome {
            self.phase = phase + 1;
        }
        outcome
    }

    /// A new task, in a mode within this one's. It begins where this one stands: in its phase, and with its signal if it has
    /// signalled. `MoreThanParent`, `RegsFull` if there are 256 tasks, `HistoryFull`.
    pub fn join(&mut self, mode: Mode) -> Result<Task, Refusal> {
        loop {
            let phase = self.stands_in();
            let child = Task { member: self.member.join(mode)?, mode, phase, unfinished: None };
            if self.stands_in() == phase {
                return Ok(child);
            }
            // A turn that goes on has ended meanwhile. Nobody knows in which phase the child has joined: it leaves for another.
        }
    }

    /// The phase in which the task stands, also if a turn that goes on has ended, and it hasn't been told.
    fn stands_in(&mut self) -> u64 {
        let Some(unfinished) = self.unfinished.as_mut().filter(|it| it.call != Call::Signal) else { return self.phase };
        let member = &mut self.member;
        let outcome = unfinished.outcome.or_else(|| member.call_for(unfinished.call, Duration::ZERO));
        unfinished.outcome = outcome;
        outcome.and_then(Result::ok).map_or(self.phase, |phase| phase + 1)
    }

    /// Makes a call.
    fn call(&mut self, call: Call) -> Outcome {
        match self.answered(call)? {
            Some(outcome) => outcome,
            None => self.member.call(call),
        }
    }

    /// The same, but it waits for so long at most: None if the time is over, once more.
    fn call_in_time(&mut self, call: Call, most: Duration) -> Option<Outcome> {
        let outcome = match self.answered(call) {
            Ok(outcome) => outcome.or_else(|| self.member.call_for(call, most)),
            Err(refusal) => return Some(Err(refusal)),
        };
        self.unfinished = outcome.is_none().then_some(Unfinished { call, outcome: None });
        outcome
    }

    /// The answer of the call that goes on, if it is this one and has its answer. `NotNow` if it is another.
    fn answered(&mut self, call: Call) -> Result<Option<Outcome>, Refusal> {
        match self.unfinished.take() {
            Some(other) if other.call != call => {
                self.unfinished = Some(other);
                Err(Refusal::NotNow)
            }
            unfinished => Ok(unfinished.and_then(|it| it.outcome)),
        }
    }

    /// Signals, and waits until every task that signals has signalled: the end of a turn, as at a barrier. Returns the phase
    /// that it passed. A task that only signals waits for the bound alone. `NoSignal`, `AlreadySignalled`, `HistoryFull`.
    #[allow(clippy::should_implement_trait)] // a phaser's own word, and no iterator's
    pub fn next(&mut self) -> Result<u64, Refusal> {
        let outcome = self.call(Call::Next);
        self.passed(outcome)
    }

    /// The same, but it waits for so long at most: `None` if the time is over. Then the task has signalled, or does so once the
    /// bound lets it, and its next `next` waits for the same answer ([more](Task#calls-with-a-time)). Besides, `NotNow` if
    /// another call goes on.
    ///
    /// ```
    /// # use paldwosk::{Mode, Phaser, Refusal};
    /// # use std::time::Duration;
    /// # fn main() -> Result<(), Refusal> {
    /// # let mut task = Phaser::new(2, &[])?.make(Mode::SigWait)?;
    /// let phase = loop {
    ///     match task.next_timeout(Duration::from_secs(1))? {
    ///         Some(phase) => break phase,
    ///         None => println!("others are late"),
    ///     }
    /// };
    /// assert_eq!(phase, 0);
    /// # Ok(())
    /// # }
    /// ```
    pub fn next_timeout(&mut self, timeout: Duration) -> Result<Option<u64>, Refusal> {
        self.call_in_time(Call::Next, timeout).map(|outcome| self.passed(outcome)).transpose()
    }

    /// The same, but it doesn't wait: `None` if it would have to.
    pub fn try_next(&mut self) -> Result<Option<u64>, Refusal> {
        self.next_timeout(Duration::ZERO)
    }

    /// Signals its phase, and goes on. It waits for the bound alone. `NoSignal`, `AlreadySignalled`, `HistoryFull`.
    pub fn signal(&mut self) -> Result<(), Refusal> {
        self.call(Call::Signal).map(|_| ())
    }

    /// The same, but it waits for so long at most. Whether it has signalled; if it hasn't, it does so once the bound lets it,
    /// and its next `signal` waits for that ([more](Task#calls-with-a-time)). Besides, `NotNow` if another call goes on.
    pub fn signal_timeout(&mut self, timeout: Duration) -> Result<bool, Refusal> {
        Ok(self.call_in_time(Call::Signal, timeout).transpose()?.is_some())
    }

    /// The same, but it doesn't wait. Whether it has signalled.
    pub fn try_signal(&mut self) -> Result<bool, Refusal> {
        self.signal_timeout(Duration::ZERO)
    }

    /// Waits until every task that signals, itself first, has signalled the phase. Returns the phase that it passed. A task
    /// that only signals doesn't wait, and ends its turn. `NotSignalled`, `HistoryFull`.
    pub fn wait(&mut self) -> Result<u64, Refusal> {
        let outcome = self.call(Call::Wait);
        self.passed(outcome)
    }

    /// The same, but it waits for so long at most: `None` if the time is over. Then its next `wait` waits for the same answer
    /// ([more](Task#calls-with-a-time)). Besides, `NotNow` if another call goes on.
    pub fn wait_timeout(&mut self, timeout: Duration) -> Result<Option<u64>, Refusal> {
        self.call_in_time(Call::Wait, timeout).map(|outcome| self.passed(outcome)).transpose()
    }

    /// The same, but it doesn't wait: the phase if it is over, else `None`.
    pub fn try_wait(&mut self) -> Result<Option<u64>, Refusal> {
        self.wait_timeout(Duration::ZERO)
    }

    /// Signals, proposes the statement of this number, and waits. One of the tasks that propose it runs its statement, alone,
    /// before any waiting task goes on. Returns the phase that it passed. `NoSignal`, `NoSingle`, `AlreadySignalled`,
    /// `SingleMismatch` if another number is proposed in this phase, `HistoryFull`.
    ///
    /// The statement runs without any lock held, and may use whatever else it likes, other phasers too. If it panics, the turn
    /// ends as if it were done: the others go on, and aren't told.
    pub fn single(&mut self, number: u32, statement: impl FnOnce()) -> Result<u64, Refusal> {
        if self.unfinished.is_some() {
            return Err(Refusal::NotNow);
        }
        let (outcome, panic) = self.member.single(number, statement);
        let outcome = self.passed(outcome);
        match panic {
            None => outcome,
            Some(panic) => resume_unwind(panic),
        }
    }

    /// Sends a value to an accumulator. It counts for the phase that the task hasn't signalled yet. `NoSignal`,
    /// `NoAccumulator`, `HistoryFull`.
    pub fn send(&mut self, accumulator: u8, value: i32) -> Result<(), Refusal> {
        self.member.send(accumulator, value)
    }

    /// What an accumulator holds of the phase before the task's own. `NoWait`, `NoAccumulator`, `NoPhaseYet`, `HistoryFull`;
    /// `TooGreat` if it isn't within an `i64`.
    pub fn look(&mut self, accumulator: u8) -> Result<Look, Refusal> {
        self.member.look(accumulator)
    }

    /// Leaves: no task waits for this one any more. What it sent still counts.
    pub fn leave(self) {
        drop(self);
    }
}

impl fmt::Debug for Task {
    fn fmt(&self, f: &mut fmt::Formatter<'_>) -> fmt::Result {
        f.debug_struct("Task").field("number", &self.number()).finish_non_exhaustive()
    }
}
