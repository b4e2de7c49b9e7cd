//! What a call is answered.
use std::error::Error;
use std::fmt;

/// What a task may do on a phaser. A task has another join in a mode that does no more than its own.
///
/// ```
/// use paldwosk::{Mode, Phaser, Refusal};
///
/// # fn main() -> Result<(), Refusal> {
/// let mut maker = Phaser::new(2, &[])?.make(Mode::SigWait)?;
/// let mut producer = maker.join(Mode::Sig)?;
/// let mut consumer = maker.join(Mode::Wait)?;
/// maker.leave();
/// producer.signal()?; // waits for no consumer, up to the bound
/// assert_eq!(consumer.wait()?, 0);
/// assert_eq!(consumer.signal(), Err(Refusal::NoSignal));
/// assert_eq!(consumer.join(Mode::SigWait).err(), Some(Refusal::MoreThanParent));
/// # Ok(())
/// # }
/// ```
#[derive(Clone, Copy, Debug, PartialEq, Eq)]
pub enum Mode {
    /// Signals, and waits for nobody.
    Sig = 0,
    /// Waits, and nobody waits for it.
    Wait = 1,
    /// Signals and waits, as at a barrier.
    SigWait = 2,
    /// Signals and waits, and may run a statement alone between two phases.
    Single = 3,
}

/// How an accumulator folds the values of a phase.
///
/// ```
/// use paldwosk::{Look, Mode, Operator, Phaser, Refusal};
///
/// # fn main() -> Result<(), Refusal> {
/// let mut task = Phaser::new(2, &[Operator::Sum, Operator::Greatest])?.make(Mode::SigWait)?;
/// for value in [3, 5] {
///     task.send(0, value)?;
///     task.send(1, value)?;
/// }
/// task.next()?;
/// assert_eq!([task.look(0)?, task.look(1)?], [Look::Value(3 + 5), Look::Value(5)]);
/// # Ok(())
/// # }
/// ```
#[derive(Clone, Copy, Debug, PartialEq, Eq)]
pub enum Operator {
    /// Their sum, 0 for none.
    Sum = 0,
    /// The least of them.
    Least = 1,
    /// The greatest of them.
    Greatest = 2,
}

/// How a [`signal`](crate::PhaserState::signal) of a `PhaserState` ended.
///
/// ```
/// use paldwosk::{Limits, Mode, Passing, PhaserState, Refusal, Signalling};
///
/// # fn main() -> Result<(), Refusal> {
/// let mut phaser = PhaserState::new(Limits::default(), &[], Some(1))?;
/// phaser.make(0, Mode::SigWait)?;
/// phaser.register(0, 1, Mode::Sig)?;
/// assert_eq!(phaser.signal(1, None)?, Signalling::Signalled);
/// assert_eq!(phaser.pass(1)?, Passing::Passed(0));
/// assert_eq!(phaser.signal(1, None)?, Signalling::NotYet); // by the bound task 0 has to end its turn first
/// # Ok(())
/// # }
/// ```
#[must_use = "on `NotYet` nothing was signalled: ask again after another task's call"]
#[derive(Clone, Copy, Debug, PartialEq, Eq)]
pub enum Signalling {
    /// The task has signalled its phase.
    Signalled,
    /// The task is too far ahead of a waiter: it asks again after another's call.
    NotYet,
}

/// How a [`pass`](crate::PhaserState::pass) of a `PhaserState` ended.
///
/// ```
/// use paldwosk::{Limits, Mode, Passing, PhaserState, Refusal, Signalling};
///
/// # fn main() -> Result<(), Refusal> {
/// let mut phaser = PhaserState::new(Limits::default(), &[], None)?;
/// phaser.make(0, Mode::Single)?;
/// phaser.register(0, 1, Mode::SigWait)?;
/// assert_eq!(phaser.signal(0, Some(7))?, Signalling::Signalled);
/// assert_eq!(phaser.pass(0)?, Passing::NotYet); // task 1 hasn't signalled
/// assert_eq!(phaser.signal(1, None)?, Signalling::Signalled);
/// assert_eq!(phaser.pass(0)?, Passing::Claimed(7));
/// phaser.single_done(0)?;
/// assert_eq!(phaser.pass(0)?, Passing::Passed(0));
/// # Ok(())
/// # }
/// ```
#[must_use = "on `NotYet` the turn isn't ended: ask again; on `Claimed` run the single and report it done"]
#[derive(Clone, Copy, Debug, PartialEq, Eq)]
pub enum Passing {
    /// The turn of this phase is ended.
    Passed(u32),
    /// The task runs the single of this number, reports it done, and asks to pass again.
    Claimed(u32),
    /// The task asks again after another's call.
    NotYet,
}

/// What is seen of an accumulator.
///
/// ```
/// use paldwosk::{Look, Mode, Operator, Phaser, Refusal};
///
/// # fn main() -> Result<(), Refusal> {
/// let mut task = Phaser::new(2, &[Operator::Sum, Operator::Least])?.make(Mode::SigWait)?;
/// task.next()?; // a phase in which nobody sends
/// assert_eq!([task.look(0)?, task.look(1)?], [Look::Value(0), Look::Nothing]);
/// # Ok(())
/// # }
/// ```
#[must_use = "a look changes nothing: it is made for what it sees"]
#[derive(Clone, Copy, Debug, PartialEq, Eq)]
pub enum Look {
    /// The fold.
    Value(i64),
    /// There is no least and no greatest of no values.
    Nothing,
}

/// The refusals, each with its name, its number, and the sentences that its page and its text have of it.
macro_rules! refusals {
    ($($name:ident = $number:literal, $meaning:literal;)+) => {
        /// Why a call was refused. It changed nothing; only a [`Judge`](crate::Judge) is over once it has refused an event.
        /// `docs/rules.md` of the repository has the rules.
        ///
        /// Its text says what it means and what to do:
        ///
        /// ```
        /// use paldwosk::{Phaser, Refusal};
        ///
        /// let refusal = Phaser::new(0, &[]).unwrap_err();
        /// assert_eq!(refusal, Refusal::BadBound);
        /// let text = "refused 71 BadBound: The bound isn't one of 1 to 65,536 phases. \
        ///     Take 2 if each task signals and waits.";
        /// assert_eq!(refusal.to_string(), text);
        /// ```
        #[derive(Clone, Copy, Debug, PartialEq, Eq)]
        #[non_exhaustive]
        pub enum Refusal {
            $(#[doc = $meaning] $name = $number,)+
        }

        impl Refusal {
            /// The refusal of this number. The archive's contracts have no other for one phaser.
            pub(crate) fn of(number: u32) -> Refusal {
                match number {
                    $($number => Refusal::$name,)+
                    _ => unreachable!("the archive answered {number}, which it doesn't answer by its contract"),
                }
            }

            fn meaning(self) -> &'static str {
                match self {
                    $(Refusal::$name => $meaning,)+
                }
            }
        }
    };
}

refusals! {
    NotRegistered = 1, "The task isn't registered, or it has left. Join it first.";
    NoSignal = 2, "The task's mode can't signal. Join the task with `Sig`, `SigWait` or `Single`, or have it wait.";
    NoWait = 3, "The task's mode can't wait, so it can't look either. \
        Join the task with `Wait`, `SigWait` or `Single`.";
    NoSingle = 4, "The task's mode isn't `Single`. Join the task with `Single`, or propose no single.";
    AlreadySignalled = 5, "The task has signalled since its last turn. End the turn before you signal again.";
    NotSignalled = 6, "The task can signal, and hasn't done so since its last turn. Signal before you end the turn.";
    SingleMismatch = 7, "Another number is proposed in this phase. Propose that number, or signal without one.";
    NoAccumulator = 9, "The phaser has no accumulator of that index. \
        Name its operator when you make the phaser (the first has index 0).";
    NoPhaseYet = 10, "The task hasn't finished a turn yet. Look after its first turn.";
    MoreThanParent = 11, "The child's mode isn't within the parent's. Take a mode that does less, or another parent.";
    RegisteredTwice = 13, "The child was registered there before, or is named twice. \
        Name it once, by a number that no task has or had.";
    RegsFull = 14, "As many tasks are registered as the limits allow. Let one leave first.";
    HistoryFull = 15, "The history has no room for the event. Raise its limit, or make a new phaser.";
    TasksFull = 17, "The task number is at the limit or above. Raise the limit, or use smaller numbers.";
    NotNow = 22, "The wrong moment: this isn't possible right now. \
        Make a phaser once, leave after a single is done, go on with a call whose time is over.";
    Memory = 23, "Memory was refused. Free some, or ask for less.";
    TooGreat = 36, "The fold isn't within 64 bits: it takes 2^32 values in one phase. Go on without it, or send fewer.";
    BadLimits = 69, "A limit isn't between its least and its greatest. Begin with the default limits.";
    BadOperators = 70, "There are more than four operators, or no operator has one of the numbers. \
        Take at most four, of sum, least and greatest.";
    BadBound = 71, "The bound isn't one of 1 to 65,536 phases. Take 2 if each task signals and waits.";
    BadTickets = 72, "There aren't as many tickets as events. Draw one for each event.";
    NotMade = 80, "The event's phaser isn't made, or its last task has left it. \
        See that its make is handed over first.";
    MadeAlready = 81, "The event makes a phaser that is there. \
        See that its last drop is handed over before its number is used again.";
    RegisteredAlready = 82, "The event registers a task that is registered there. \
        See that its drop is handed over before its number is used again.";
    HadToWait = 83, "The event came before those that the task had to wait for. \
        See who hadn't signalled, or had a single to do, or was behind by the bound.";
    ClaimsInstead = 84, "The task passed, but it had the single of its phase to run. See who ran the single, and when.";
    PassesInstead = 85, "The task claimed a single, but its phase had none left to run. \
        See whether the single ran twice.";
    SawOther = 86, "The look saw another value than was sent to the phase before. \
        See which send is lost or counted twice.";
    Over = 87, "The judge refused an event before, and judges no more. Look at that event, and make a new judge.";
}

impl fmt::Display for Refusal {
    fn fmt(&self, f: &mut fmt::Formatter<'_>) -> fmt::Result {
        write!(f, "refused {} {self:?}: {}", *self as u32, self.meaning())
    }
}

impl Error for Refusal {}
