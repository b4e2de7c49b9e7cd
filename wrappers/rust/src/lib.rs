//! The checked core of Paldwosk, from Rust: phasers and barriers for threads that wait, a phaser for one thread at a time, a
//! checker of traces, and a judge of events.
//!
//! - [`Phaser`] and its [`Task`]s: a barrier whose set of tasks may change, with modes, a bound, accumulators and single
//!   statements. Its calls wait, and it lives as long as its program. It may leave a trace.
//! - [`Scope`]: threads with a task each, which [`Phaser::scope`] starts and joins.
//! - [`Barrier`]: the same in the form of `std::sync::Barrier`.
//! - [`PhaserState`]: a phaser for one thread at a time, which keeps its history; no call waits.
//! - [`replay`] and [`events`]: the checker.
//! - [`Judge`]: it says of the events of phasers, as they come, whether they can be. So a program judges itself while it runs.
//!
//! In the repository `docs/rules.md` has the rules, and `docs/barrier.md` what is asked of `malloc`.
//!
//! # What is proved, and what isn't
//!
//! The crate links the static library of Paldwosk. Its exports are proved to answer what the library's calls answer. For
//! threads that wait that is: what a call is answered, which tasks it frees and with which answer, and that each task that
//! stays parked still has to wait. So no task is forgotten.
//!
//! A [`Phaser`] and a [`Barrier`] call these exports by the barrier in C, `include/paldwosk_barrier.h`, which is compiled into
//! the library. It has threads spin, yield and sleep, and wakes them. It locks the calls, and notes a
//! trace and which tasks are missing. Its head says what of this is proved. The rest is tested, from C and from here.
//!
//! Nothing in this crate itself is proved; it is tested. It hands each call on. The `unsafe` code passes on what Rust's own types
//! promise: slices and places that nothing else has, and a task that is lent to one call at a time. The memory of a barrier
//! isn't moved, and is freed after its last task.
//!
//! # Forks and signals
//!
//! In a child of `fork` each call on a [`Phaser`] of its parent or on its tasks panics, and a [`Task`] that is dropped does
//! nothing. The child makes no call on a [`Barrier`] of its parent, because threads that it doesn't have may hold the places. It
//! may make its own. A child of `_Fork` isn't known as one: it makes no call. Nor does a signal handler.
#![deny(missing_docs, unsafe_op_in_unsafe_fn)]

mod answers;
mod barrier;
mod checker;
mod judge;
mod phaser;
mod phaser_state;
mod scope;
mod shared;

use paldwosk_sys as archive;

pub use answers::{Look, Mode, Operator, Passing, Refusal, Signalling};
pub use barrier::{Barrier, BarrierWaitResult};
pub use checker::{events, replay, Refused};
pub use judge::{Judge, JudgeRefusal, JudgedEvent, Totals};
pub use phaser::{Phaser, Task};
pub use phaser_state::{Limits, PhaserState};
pub use scope::{Scope, ScopedThread};
