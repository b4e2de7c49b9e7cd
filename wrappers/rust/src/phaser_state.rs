//! One phaser, for one thread at a time.
use crate::answers::{Look, Mode, Operator, Passing, Refusal, Signalling};
use crate::archive::*;
use std::ptr::null_mut;

/// How much a run may have of each thing. A phaser alone looks at `history`, `regs` and `tasks`.
///
/// ```
/// use paldwosk::{Limits, Mode, PhaserState, Refusal};
///
/// # fn main() -> Result<(), Refusal> {
/// let limits = Limits { regs: 1, ..Limits::default() };
/// let mut phaser = PhaserState::new(limits, &[], None)?;
/// phaser.make(0, Mode::SigWait)?;
/// assert_eq!(phaser.register(0, 1, Mode::SigWait), Err(Refusal::RegsFull));
/// # Ok(())
/// # }
/// ```
#[derive(Clone, Copy, Debug, PartialEq, Eq)]
pub struct Limits {
    /// Acts of a task: 1 to 65,536.
    pub acts: u32,
    /// Finishes of a run: 1 to 1,024.
    pub finishes: u32,
    /// Events in a phaser's history: 4 to 65,536.
    pub history: u32,
    /// Phasers of a run: 1 to 64.
    pub phasers: u32,
    /// Registrations on a phaser at once: 1 to 256.
    pub regs: u32,
    /// Tasks of a run; their numbers are below it: 1 to 4,096.
    pub tasks: u32,
}

impl Default for Limits {
    fn default() -> Limits {
        Limits { acts: 4_096, finishes: 64, history: 4_096, phasers: 64, regs: 256, tasks: 256 }
    }
}

/// A phaser for one thread at a time, which keeps its history. No call waits: on `NotYet` ask again after another task's
/// call. Threads may share one behind a `Mutex`; the calls of [`Phaser`](crate::Phaser) wait.
///
/// ```
/// use paldwosk::{Limits, Mode, Passing, PhaserState, Refusal, Signalling};
///
/// # fn main() -> Result<(), Refusal> {
/// let mut phaser = PhaserState::new(Limits::default(), &[], None)?;
/// phaser.make(0, Mode::SigWait)?;
/// phaser.register(0, 1, Mode::SigWait)?;
/// assert_eq!(phaser.signal(0, None)?, Signalling::Signalled);
/// assert_eq!(phaser.pass(0)?, Passing::NotYet); // task 1 hasn't signalled
/// assert_eq!(phaser.signal(1, None)?, Signalling::Signalled);
/// assert_eq!(phaser.pass(0)?, Passing::Passed(0));
/// assert_eq!(phaser.pass(1)?, Passing::Passed(0));
/// # Ok(())
/// # }
/// ```
#[must_use = "a phaser that is dropped is gone, with its history"]
pub struct PhaserState {
    handle: Handle,
}

// SAFETY: what the handle leads to is this phaser's alone, and the library proves of it that it may go to another thread.
unsafe impl Send for PhaserState {}

/// Done, or refused.
fn done(number: u32) -> Result<(), Refusal> {
    match number {
        0 => Ok(()),
        _ => Err(Refusal::of(number)),
    }
}

// SAFETY of all calls here: the handle is this phaser's alone, and is lent to nobody else while a call has it; what a call
// writes to are places of this function; the pointers and lengths are those of slices and lists.
impl PhaserState {
    /// A phaser without tasks, with an accumulator for each of at most four operators, and its bound of 1 to 65,536 phases, if
    /// it has one. `BadLimits`, `BadOperators`, `BadBound`, `Memory`.
    pub fn new(limits: Limits, operators: &[Operator], bound: Option<u32>) -> Result<PhaserState, Refusal> {
        let Limits { acts, finishes, history, phasers, regs, tasks } = limits;
        let limits = GivenLimits { acts, finishes, history, phasers, regs, tasks };
        let numbers: Vec<u32> = operators.iter().map(|it| *it as u32).collect();
        let bound = match bound {
            None => 0,
            Some(0) => u32::MAX,
            Some(phases) => phases,
        };
        let mut phaser = PhaserState { handle: Handle { held: null_mut() } };
        unsafe { phaser_c_abi_1() };
        done(unsafe { phaser_c_new(&mut phaser.handle, &limits, numbers.as_ptr(), numbers.len(), bound) })?;
        Ok(phaser)
    }

    /// The task makes the phaser, and is registered on it.
    pub fn make(&mut self, task: u32, mode: Mode) -> Result<(), Refusal> {
        done(unsafe { phaser_c_make(&mut self.handle, task, mode as u32) })
    }

    /// The parent registers the child at its own phase.
    pub fn register(&mut self, parent: u32, child: u32, mode: Mode) -> Result<(), Refusal> {
        done(unsafe { phaser_c_register(&mut self.handle, parent, child, mode as u32) })
    }

    /// The task signals its phase; with a number it proposes the single of that number.
    pub fn signal(&mut self, task: u32, single: Option<u32>) -> Result<Signalling, Refusal> {
        let number = match single {
            None => unsafe { phaser_c_signal(&mut self.handle, task) },
            Some(number) => unsafe { phaser_c_signal_single(&mut self.handle, task, number) },
        };
        match number {
            0 => Ok(Signalling::Signalled),
            32 => Ok(Signalling::NotYet),
            _ => Err(Refusal::of(number)),
        }
    }

    /// The task asks to end its turn.
    pub fn pass(&mut self, task: u32) -> Result<Passing, Refusal> {
        let mut given = 0;
        match unsafe { phaser_c_pass(&mut self.handle, task, &mut given) } {
            0 => Ok(Passing::Passed(given)),
            32 => Ok(Passing::NotYet),
            33 => Ok(Passing::Claimed(given)),
            number => Err(Refusal::of(number)),
        }
    }

    /// The task reports the single done that it claimed.
    pub fn single_done(&mut self, task: u32) -> Result<(), Refusal> {
        done(unsafe { phaser_c_single_done(&mut self.handle, task) })
    }

    /// The task sends a value to an accumulator.
    pub fn send(&mut self, task: u32, accumulator: u8, value: i32) -> Result<(), Refusal> {
        done(unsafe { phaser_c_send(&mut self.handle, task, accumulator, value) })
    }

    /// What an accumulator holds of the phase before the task's own.
    pub fn look(&mut self, task: u32, accumulator: u8) -> Result<Look, Refusal> {
        let mut value = 0;
        match unsafe { phaser_c_look(&mut self.handle, task, accumulator, &mut value) } {
            0 => Ok(Look::Value(value)),
            34 => Ok(Look::Nothing),
            number => Err(Refusal::of(number)),
        }
    }

    /// The task is dropped from the phaser.
    pub fn drop_task(&mut self, task: u32) -> Result<(), Refusal> {
        done(unsafe { phaser_c_drop(&mut self.handle, task) })
    }

    /// Whether each task that is registered and can signal has signalled the phase.
    pub fn is_closed(&mut self, phase: u32) -> bool {
        let mut closed = 0;
        unsafe { phaser_c_is_closed(&mut self.handle, phase, &mut closed) };
        closed == 1
    }

    /// Whether an event that registers nobody and proposes nothing has no room in the history.
    pub fn is_full(&mut self) -> bool {
        let mut full = 0;
        unsafe { phaser_c_is_full(&mut self.handle, &mut full) };
        full == 1
    }

    /// The fold of the values sent to an accumulator for a closed phase; `None` if there is no such accumulator, or the phase
    /// is too great, or its fold is given up.
    pub fn fold_at(&mut self, accumulator: u8, phase: u32) -> Option<Look> {
        let mut value = 0;
        match unsafe { phaser_c_fold_at(&mut self.handle, accumulator, phase, &mut value) } {
            0 => Some(Look::Value(value)),
            34 => Some(Look::Nothing),
            _ => None,
        }
    }

    /// How many comparisons of task numbers the last call made that changes the phaser.
    pub fn compared(&mut self) -> u32 {
        let mut count = 0;
        unsafe { phaser_c_compared(&mut self.handle, &mut count) };
        count
    }

    /// How many events the history has.
    pub fn event_count(&mut self) -> u32 {
        let mut count = 0;
        unsafe { phaser_c_event_count(&mut self.handle, &mut count) };
        count
    }

    /// The history as the text of a trace that has this phaser's events alone, under this number, with these tickets, one
    /// for each event. `BadTickets`, `Memory`.
    pub fn history_text(&mut self, number: u32, tickets: &[u64]) -> Result<String, Refusal> {
        let (mut room, mut written) = (vec![0; 256 + 64 * tickets.len()], 0);
        loop {
            let answer = unsafe {
                phaser_c_history_text(
                    &mut self.handle,
                    number,
                    tickets.as_ptr(),
                    tickets.len(),
                    room.as_mut_ptr(),
                    room.len(),
                    &mut written,
                )
            };
            match answer {
                0 => return Ok(String::from_utf8_lossy(&room[..written]).into_owned()),
                67 => room.resize(written, 0),
                _ => return Err(Refusal::of(answer)),
            }
        }
    }
}

impl Drop for PhaserState {
    fn drop(&mut self) {
        unsafe { phaser_c_free(&mut self.handle) }
    }
}
