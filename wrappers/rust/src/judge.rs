//! A judge of the events of phasers, as they come.
use crate::answers::{Look, Mode, Operator, Refusal};
use crate::archive::*;
use std::error::Error;
use std::fmt;
use std::ptr::null_mut;

/// What happened at a phaser. Tasks go by whatever numbers the program gives them. Accumulators are numbered from 0.
///
/// ```
/// use paldwosk::JudgedEvent;
///
/// let signal = JudgedEvent::Signal { task: u64::MAX, single: None };
/// assert_eq!(signal.clone(), signal);
/// ```
#[derive(Clone, Debug, PartialEq, Eq)]
pub enum JudgedEvent {
    /// The task made the phaser, with an accumulator for each of at most four operators and a bound of 1 to 65,536 phases, if
    /// it has one. It was registered in this mode. The judge takes 272 bytes for each phase of the bound, and 18 megabytes
    /// without one: then it judges by a bound of 65,536. At a barrier a bound of 2 says the same as none.
    Make {
        /// The task's number.
        task: u64,
        /// How it takes part.
        mode: Mode,
        /// What each accumulator does with the values of a phase: at most four.
        operators: Vec<Operator>,
        /// How many phases the signals may run ahead of the waits: 1 to 65,536, or none.
        bound: Option<u32>,
    },
    /// The parent registered the child.
    Register {
        /// The number of the task that registered.
        parent: u64,
        /// The number of the new task.
        child: u64,
        /// How the child takes part.
        mode: Mode,
    },
    /// The task signalled its phase; with a number it proposed the single of that number.
    Signal {
        /// The task's number.
        task: u64,
        /// The number of the single that it proposed, if it did.
        single: Option<u32>,
    },
    /// The task claimed the single of its phase, to run it.
    Claim {
        /// The task's number.
        task: u64,
    },
    /// The task reported the single done that it had claimed.
    SingleDone {
        /// The task's number.
        task: u64,
    },
    /// The task ended its turn.
    Pass {
        /// The task's number.
        task: u64,
    },
    /// The task sent a value to an accumulator.
    Send {
        /// The task's number.
        task: u64,
        /// The accumulator's index, 0 to 3.
        accumulator: u8,
        /// What was sent.
        value: i32,
    },
    /// The task looked at an accumulator, and saw this.
    Look {
        /// The task's number.
        task: u64,
        /// The accumulator's index, 0 to 3.
        accumulator: u8,
        /// What the values of the phase before fold to.
        saw: Look,
    },
    /// The task left the phaser. With its last task the phaser is gone, and its number is free again.
    Drop {
        /// The task's number.
        task: u64,
    },
}

/// What an event has where its kind has nothing.
const BLANK: GivenEvent = GivenEvent {
    phaser: 0,
    task: 0,
    child: 0,
    seen: 0,
    value: 0,
    single: 0,
    kind: 0,
    mode: 0,
    accumulator: 0,
    bound: 0,
    operator_count: 0,
    operators: [0; 4],
};

/// The totals of no event.
const NO_TOTALS: GivenTotals = GivenTotals {
    events: 0,
    made: 0,
    there: 0,
    registrations: 0,
    signals: 0,
    passes: 0,
    drops: 0,
    sends: 0,
    over: 0,
};

/// Nobody for whom an event had to wait.
const NOBODY: GivenWhy = GivenWhy { phase: 0, count: 0, tasks: [0; MOST_NAMED] };

/// The making of a phaser, as the archive takes it.
fn given_make(task: u64, mode: Mode, operators: &[Operator], bound: Option<u32>) -> GivenEvent {
    let bound = match bound {
        None => 0,
        Some(0) => u32::MAX,
        Some(phases) => phases,
    };
    let operator_count = u32::try_from(operators.len()).unwrap_or(u32::MAX);
    let mut given = GivenEvent { kind: 0, task, mode: mode as u32, bound, operator_count, ..BLANK };
    for (number, operator) in given.operators.iter_mut().zip(operators) {
        *number = *operator as u32;
    }
    given
}

/// What is looked at and seen, as the archive takes it.
fn given_look(task: u64, accumulator: u8, saw: Look) -> GivenEvent {
    let accumulator = u32::from(accumulator);
    match saw {
        Look::Value(seen) => GivenEvent { kind: 8, task, accumulator, seen, ..BLANK },
        Look::Nothing => GivenEvent { kind: 9, task, accumulator, ..BLANK },
    }
}

impl JudgedEvent {
    /// The event at this phaser, as the archive takes it.
    fn given(&self, phaser: u64) -> GivenEvent {
        let given = match *self {
            JudgedEvent::Make { task, mode, ref operators, bound } => given_make(task, mode, operators, bound),
            JudgedEvent::Register { parent, child, mode } => {
                GivenEvent { kind: 1, task: parent, child, mode: mode as u32, ..BLANK }
            }
            JudgedEvent::Signal { task, single: None } => GivenEvent { kind: 2, task, ..BLANK },
            JudgedEvent::Signal { task, single: Some(single) } => GivenEvent { kind: 3, task, single, ..BLANK },
            JudgedEvent::Claim { task } => GivenEvent { kind: 4, task, ..BLANK },
            JudgedEvent::SingleDone { task } => GivenEvent { kind: 5, task, ..BLANK },
            JudgedEvent::Pass { task } => GivenEvent { kind: 6, task, ..BLANK },
            JudgedEvent::Send { task, accumulator, value } => {
                GivenEvent { kind: 7, task, accumulator: u32::from(accumulator), value, ..BLANK }
            }
            JudgedEvent::Look { task, accumulator, saw } => given_look(task, accumulator, saw),
            JudgedEvent::Drop { task } => GivenEvent { kind: 10, task, ..BLANK },
        };
        GivenEvent { phaser, ..given }
    }
}

/// What a judge counted of the events that it accepted. A count stays at `u64::MAX` if it would be more.
///
/// ```
/// use paldwosk::{Judge, Refusal, Totals};
///
/// # fn main() -> Result<(), Refusal> {
/// assert_eq!(Judge::new()?.totals(), Totals::default());
/// # Ok(())
/// # }
/// ```
#[derive(Clone, Copy, Debug, Default, PartialEq, Eq)]
pub struct Totals {
    /// Events that were accepted, of all kinds.
    pub events: u64,
    /// Phasers that were made.
    pub made: u64,
    /// Phasers that are there now. Of a judge that is over it says nothing.
    pub there: u64,
    /// Registrations, those of the makers among them.
    pub registrations: u64,
    /// Signals, with a single or without.
    pub signals: u64,
    /// Turns that tasks ended.
    pub passes: u64,
    /// Tasks that left a phaser.
    pub drops: u64,
    /// Values that were sent.
    pub sends: u64,
}

/// Why an event was refused, and for whom its task had to wait: what [`Judge::event_with_owing`] answers.
///
/// ```
/// use paldwosk::{Judge, JudgedEvent, JudgeRefusal, Refusal};
///
/// # fn main() -> Result<(), Refusal> {
/// let unmade = Judge::new()?.event_with_owing(7, &JudgedEvent::Pass { task: 1 });
/// let JudgeRefusal { refusal, tasks, .. } = unmade.unwrap_err();
/// assert_eq!((refusal, tasks), (Refusal::NotMade, vec![]));
/// # Ok(())
/// # }
/// ```
#[derive(Clone, Debug, PartialEq, Eq)]
#[non_exhaustive]
pub struct JudgeRefusal {
    /// Why the event can't be.
    pub refusal: Refusal,
    /// If a pass or a claim had to wait, the phase at which its task stands; else 0.
    pub phase: u64,
    /// How many tasks are registered, can signal, and haven't signalled that phase. If there are none, its single isn't done.
    pub count: u64,
    /// The first 16 of these tasks, in the order of their registration.
    pub tasks: Vec<u64>,
}

impl JudgeRefusal {
    /// What the archive answered, and told.
    fn of(number: u32, why: &GivenWhy) -> JudgeRefusal {
        let named = usize::try_from(why.count).unwrap_or(MOST_NAMED).min(MOST_NAMED);
        let (refusal, tasks) = (Refusal::of(number), why.tasks[..named].to_vec());
        JudgeRefusal { refusal, phase: why.phase, count: why.count, tasks }
    }
}

impl fmt::Display for JudgeRefusal {
    fn fmt(&self, f: &mut fmt::Formatter<'_>) -> fmt::Result {
        write!(f, "{}", self.refusal)?;
        if self.count == 0 {
            return Ok(());
        }
        let named: Vec<String> = self.tasks.iter().map(u64::to_string).collect();
        write!(f, " Phase {} isn't signalled by task {}", self.phase, named.join(", "))?;
        match self.count.saturating_sub(self.tasks.len() as u64) {
            0 => write!(f, "."),
            more => write!(f, ", and by {more} more."),
        }
    }
}

impl Error for JudgeRefusal {}

impl From<JudgeRefusal> for Refusal {
    fn from(refused: JudgeRefusal) -> Refusal {
        refused.refusal
    }
}

/// A judge of the events of any number of phasers, which are handed over one after the other. It stores none of them: its
/// memory is that of the phasers that are there and of the tasks registered on them, however long they live. So a program
/// judges its own phasers and barriers while it runs, from a channel or a ring of events.
///
/// Under one lock for all events, note a pass, a look and a claim just after they are done, and each other event just before.
/// Then none comes before one that made it possible, unless signals wait by a bound: of such a phaser note each event under the
/// lock under which it is done.
///
/// ```
/// use paldwosk::{Judge, JudgedEvent, Mode, Refusal};
///
/// # fn main() -> Result<(), Refusal> {
/// let (mode, phaser) = (Mode::SigWait, 7);
/// let mut judge = Judge::new()?;
/// judge.event(phaser, &JudgedEvent::Make { task: 1, mode, operators: vec![], bound: Some(2) })?;
/// judge.event(phaser, &JudgedEvent::Register { parent: 1, child: 2, mode })?;
/// judge.event(phaser, &JudgedEvent::Signal { task: 1, single: None })?;
/// let early = judge.event(phaser, &JudgedEvent::Pass { task: 1 }); // task 2 hasn't signalled
/// assert_eq!(early, Err(Refusal::HadToWait));
/// assert_eq!(judge.totals().events, 3);
/// assert!(judge.is_over());
/// # Ok(())
/// # }
/// ```
#[must_use = "a judge that is dropped has judged nothing"]
pub struct Judge {
    handle: Handle,
}

// SAFETY: what the handle leads to is this judge's alone, and the library proves of it that it may go to another thread.
unsafe impl Send for Judge {}

// SAFETY of all calls here: the handle is this judge's alone, and is lent to nobody else while a call has it; what a call
// writes to are places of this function.
impl Judge {
    /// A judge that has judged no event. `Memory`.
    pub fn new() -> Result<Judge, Refusal> {
        let mut judge = Judge { handle: Handle { held: null_mut() } };
        unsafe { phaser_c_abi_1() };
        match unsafe { phaser_c_judge_new(&mut judge.handle) } {
            0 => Ok(judge),
            number => Err(Refusal::of(number)),
        }
    }

    /// Judges one event more: `Ok` if it can be after those before it. `BadOperators`, `BadBound` and `Memory` change nothing;
    /// after `Memory` the event may be handed over again. After any other refusal the judge is over, and answers `Over` to each
    /// event. Why the event can't be is one of `NotMade` to `SawOther`, or what a phaser answers to the call, as
    /// `AlreadySignalled`. Of the tasks on a phaser 256 may be there at once, and one more is `RegsFull`.
    pub fn event(&mut self, phaser: u64, event: &JudgedEvent) -> Result<(), Refusal> {
        match unsafe { phaser_c_judge_event(&mut self.handle, &event.given(phaser)) } {
            0 => Ok(()),
            number => Err(Refusal::of(number)),
        }
    }

    /// The same as [`event`](Judge::event), and tells for whom the event had to wait, if it did. `Memory` also if there is none to
    /// tell it by.
    ///
    /// ```
    /// use paldwosk::{Judge, JudgedEvent, Mode, Refusal};
    ///
    /// # fn main() -> Result<(), Refusal> {
    /// let (mode, phaser) = (Mode::SigWait, 7);
    /// let mut judge = Judge::new()?;
    /// judge.event(phaser, &JudgedEvent::Make { task: 1, mode, operators: vec![], bound: Some(2) })?;
    /// for child in [2, 3] {
    ///     judge.event(phaser, &JudgedEvent::Register { parent: 1, child, mode })?;
    /// }
    /// judge.event(phaser, &JudgedEvent::Signal { task: 1, single: None })?;
    /// let early = judge.event_with_owing(phaser, &JudgedEvent::Pass { task: 1 }).unwrap_err();
    /// assert_eq!((early.refusal, early.phase, early.tasks.as_slice()), (Refusal::HadToWait, 0, &[2, 3][..]));
    /// assert!(early.to_string().ends_with(" Phase 0 isn't signalled by task 2, 3."));
    /// # Ok(())
    /// # }
    /// ```
    pub fn event_with_owing(&mut self, phaser: u64, event: &JudgedEvent) -> Result<(), JudgeRefusal> {
        let mut why = NOBODY;
        match unsafe { phaser_c_judge_event_with_owing(&mut self.handle, &event.given(phaser), &mut why) } {
            0 => Ok(()),
            number => Err(JudgeRefusal::of(number, &why)),
        }
    }

    /// What the archive tells of the judge.
    fn told(&mut self) -> GivenTotals {
        let mut told = NO_TOTALS;
        unsafe { phaser_c_judge_totals(&mut self.handle, &mut told) };
        told
    }

    /// What the judge counted of the events that it accepted.
    pub fn totals(&mut self) -> Totals {
        let GivenTotals { events, made, there, registrations, signals, passes, drops, sends, over: _ } = self.told();
        Totals { events, made, there, registrations, signals, passes, drops, sends }
    }

    /// Whether an event was refused that can't be.
    pub fn is_over(&mut self) -> bool {
        self.told().over == 1
    }
}

impl Drop for Judge {
    fn drop(&mut self) {
        unsafe { phaser_c_judge_free(&mut self.handle) }
    }
}
