//! The calls of a barrier in C, which a phaser and its tasks share: `include/paldwosk_barrier.h`, compiled into the archive.
//!
//! What C asks of its callers, the types uphold. The memory of a barrier isn't moved, and is freed after its last task. A task
//! is lent to one call at a time.
use crate::answers::{Look, Mode, Operator, Refusal};
use crate::archive::*;
use std::any::Any;
use std::ffi::c_void;
use std::panic::{catch_unwind, AssertUnwindSafe};
use std::ptr::{null_mut, slice_from_raw_parts_mut};
use std::sync::Arc;
use std::time::Duration;

const DONE: u32 = 0;
const NOTHING: u32 = 34;
const NOT_KEPT: u32 = 35;
const TIMED_OUT: u32 = 48;
const CLOSED: u32 = 65;
const SHORT: u32 = 67;

/// What is answered that isn't `DONE`.
fn refusal(answer: u32) -> Refusal {
    assert!(answer != CLOSED, "a fork has left this phaser to its parent: a child makes phasers of its own");
    Refusal::of(answer)
}

fn done(answer: u32) -> Result<(), Refusal> {
    match answer {
        DONE => Ok(()),
        _ => Err(refusal(answer)),
    }
}

/// A call that may have to wait.
#[derive(Clone, Copy, Debug, PartialEq, Eq)]
pub(crate) enum Call {
    Signal,
    Wait,
    Next,
}

/// How a call came out, once it has ended: a turn with its phase. Of a signal the number says nothing.
pub(crate) type Outcome = Result<u64, Refusal>;

/// A barrier in C.
pub(crate) struct Shared {
    barrier: *mut GivenBarrier,
    /// As many of these as its memory has.
    length: usize,
}

/// A barrier asks for memory that is aligned as this is: by 16.
type Piece = u128;

// SAFETY: the calls in C may be made by any threads at once.
unsafe impl Send for Shared {}
unsafe impl Sync for Shared {}

// SAFETY of all calls here: the barrier is there as long as the value, and each place that is lent is the function's own.
impl Shared {
    pub(crate) fn new(bound: u32, operators: &[Operator], is_traced: bool) -> Result<Arc<Shared>, Refusal> {
        let numbers: Vec<u32> = operators.iter().map(|it| *it as u32).collect();
        let length = unsafe { paldwosk_so_barrier_size() }.div_ceil(size_of::<Piece>());
        let memory: Box<[Piece]> = vec![0; length].into_boxed_slice();
        // From here on it is C's, which keeps pointers to it.
        let shared = Shared { barrier: Box::into_raw(memory).cast(), length };
        let make = if is_traced { paldwosk_so_barrier_new_traced } else { paldwosk_so_barrier_new };
        done(unsafe { make(shared.barrier, bound, numbers.as_ptr(), numbers.len()) })?;
        Ok(Arc::new(shared))
    }

    pub(crate) fn make(self: &Arc<Shared>, mode: Mode) -> Result<Member, Refusal> {
        let mut task = NO_TASK;
        done(unsafe { paldwosk_so_barrier_make(self.barrier, mode as u32, &mut task) })?;
        Ok(Member::new(self, task))
    }

    pub(crate) fn missing(&self) -> Vec<u64> {
        let (mut tasks, mut count) = (vec![0; MOST_TASKS], 0);
        let answer = unsafe { paldwosk_so_barrier_missing(self.barrier, tasks.as_mut_ptr(), tasks.len(), &mut count) };
        done(answer).unwrap_or_else(|refusal| unreachable!("{refusal}"));
        tasks.truncate(count);
        tasks
    }

    /// The trace so far; of a phaser that isn't traced none.
    pub(crate) fn trace(&self) -> String {
        let (mut text, mut length) = (Vec::new(), 0);
        loop {
            let room = text.len();
            match unsafe { paldwosk_so_barrier_trace(self.barrier, text.as_mut_ptr(), room, &mut length) } {
                DONE => {
                    text.truncate(length);
                    return String::from_utf8_lossy(&text).into_owned();
                }
                // It may have grown until the next call.
                SHORT => text.resize(length + length / 8, 0),
                NOT_KEPT => return String::new(),
                answer => unreachable!("{}", refusal(answer)),
            }
        }
    }

    pub(crate) fn trace_has_ended(&self) -> bool {
        unsafe { paldwosk_so_barrier_trace_ended(self.barrier) != 0 }
    }
}

impl Drop for Shared {
    fn drop(&mut self) {
        // SAFETY: no task is left, so no call is under way. The memory is that which `new` has given away.
        unsafe {
            let answer = paldwosk_so_barrier_free(self.barrier);
            debug_assert!(matches!(answer, DONE | CLOSED), "{answer}");
            drop(Box::from_raw(slice_from_raw_parts_mut(self.barrier.cast::<Piece>(), self.length)));
        }
    }
}

const NO_TASK: GivenTask = GivenTask { barrier: null_mut(), number: 0, seat: 0 };

/// A task of a barrier in C, which leaves when this is dropped. It is no copy of another.
pub(crate) struct Member {
    shared: Arc<Shared>,
    number: u64,
    seat: u32,
}

// SAFETY of all calls here: as above. Besides, one thread at a time makes calls for a task, since a call has this value alone.
impl Member {
    fn new(shared: &Arc<Shared>, task: GivenTask) -> Member {
        Member { shared: shared.clone(), number: task.number, seat: task.seat }
    }

    fn given(&self) -> GivenTask {
        GivenTask { barrier: self.shared.barrier, number: self.number, seat: self.seat }
    }

    pub(crate) fn number(&self) -> u64 {
        self.number
    }

    pub(crate) fn join(&mut self, mode: Mode) -> Result<Member, Refusal> {
        let mut task = NO_TASK;
        done(unsafe { paldwosk_so_barrier_join(&self.given(), mode as u32, &mut task) })?;
        Ok(Member::new(&self.shared, task))
    }

    /// Makes a call, and waits until it has ended.
    pub(crate) fn call(&mut self, call: Call) -> Outcome {
        let (task, mut phase) = (self.given(), 0);
        let answer = unsafe {
            match call {
                Call::Signal => paldwosk_so_barrier_signal(&task),
                Call::Wait => paldwosk_so_barrier_wait(&task, &mut phase),
                Call::Next => paldwosk_so_barrier_next(&task, &mut phase),
            }
        };
        done(answer).map(|()| phase)
    }

    /// The same, but it waits for so long at most: None if the time is over. Then the call goes on, and so does the next of the
    /// same name.
    pub(crate) fn call_for(&mut self, call: Call, most: Duration) -> Option<Outcome> {
        let mut left = most.as_nanos().div_ceil(1_000_000);
        loop {
            let now = u32::try_from(left).unwrap_or(u32::MAX);
            let outcome = self.call_for_milliseconds(call, now);
            left -= u128::from(now);
            if outcome.is_some() || left == 0 {
                return outcome;
            }
        }
    }

    fn call_for_milliseconds(&mut self, call: Call, most: u32) -> Option<Outcome> {
        let (task, mut phase) = (self.given(), 0);
        let answer = unsafe {
            match call {
                Call::Signal => paldwosk_so_barrier_signal_for(&task, most),
                Call::Wait => paldwosk_so_barrier_wait_for(&task, most, &mut phase),
                Call::Next => paldwosk_so_barrier_next_for(&task, most, &mut phase),
            }
        };
        (answer != TIMED_OUT).then(|| done(answer).map(|()| phase))
    }

    /// A turn that proposes a statement; and with what that panicked, if this task ran it. Its panic doesn't go through C, which
    /// has the turn end as if it were done.
    pub(crate) fn single<F: FnOnce()>(&mut self, number: u32, statement: F) -> (Outcome, Option<Panic>) {
        let (task, mut phase) = (self.given(), 0);
        let mut statement = Statement { is_to_run: Some(statement), panic: None };
        let data: *mut Statement<F> = &mut statement;
        let answer = unsafe { paldwosk_so_barrier_single(&task, number, run::<F>, data.cast(), &mut phase) };
        (done(answer).map(|()| phase), statement.panic)
    }

    pub(crate) fn send(&mut self, accumulator: u8, value: i32) -> Result<(), Refusal> {
        done(unsafe { paldwosk_so_barrier_send(&self.given(), accumulator.into(), value) })
    }

    pub(crate) fn look(&mut self, accumulator: u8) -> Result<Look, Refusal> {
        let mut value = 0;
        match unsafe { paldwosk_so_barrier_look(&self.given(), accumulator.into(), &mut value) } {
            DONE => Ok(Look::Value(value)),
            NOTHING => Ok(Look::Nothing),
            answer => Err(refusal(answer)),
        }
    }
}

impl Drop for Member {
    fn drop(&mut self) {
        // It is registered, and none of its singles is open: so it is never refused, but to a child of a fork. A call that goes
        // on ends by it.
        let answer = unsafe { paldwosk_so_barrier_leave(&self.given()) };
        debug_assert!(matches!(answer, DONE | CLOSED), "{answer}");
    }
}

/// What a thread panics with.
pub(crate) type Panic = Box<dyn Any + Send>;

/// A statement that C has run, in the thread of its task, or not.
struct Statement<F> {
    is_to_run: Option<F>,
    panic: Option<Panic>,
}

extern "C" fn run<F: FnOnce()>(data: *mut c_void) {
    // SAFETY: it is the statement that `single` lends to its call, which runs this once at most.
    let statement = unsafe { &mut *data.cast::<Statement<F>>() };
    if let Some(body) = statement.is_to_run.take() {
        statement.panic = catch_unwind(AssertUnwindSafe(body)).err();
    }
}
