//! The functions of Paldwosk's static library, as its headers declare them. The crate `paldwosk` has safe ones over them. What a
//! caller has to uphold, and what each function answers, stands in the header: of `phaser_c_..` in `include/paldwosk.h`, of
//! `paldwosk_so_barrier_..` in `include/paldwosk_barrier.h`, which has them as `paldwosk_barrier_..`.
//!
//! ```
//! let file = br#"{"accs":["sum"],"calls":[["make",0,"SIG_WAIT"],["send",0,0,1]]}"#;
//! let (mut lines, mut length) = ([0; 64], 0);
//! // SAFETY: the pointers and lengths are those of two arrays, of which nobody else has the second.
//! let status = unsafe {
//!     paldwosk_sys::phaser_c_events(file.as_ptr(), file.len(), lines.as_mut_ptr(), lines.len(), &mut length)
//! };
//! assert_eq!((status, &lines[..length]), (0, &b"ok\nok\n"[..]));
//! ```
//!
//! Nothing compares the declarations with those of `crates/phaser_c` and of `packaging/paldwosk_shared.c`: a change to one needs
//! the same change to the other.
#![deny(missing_docs)]
#![no_std]

use core::ffi::c_void;

/// What the library keeps of a phaser or of a judge: a pointer, null while there is none.
#[repr(C)]
pub struct Handle {
    /// The library's alone.
    pub held: *mut c_void,
}

/// `paldwosk_limits`.
#[repr(C)]
pub struct GivenLimits {
    /// Acts of a task: 1 to 65,536.
    pub acts: u32,
    /// Finishes of a run: 1 to 1,024.
    pub finishes: u32,
    /// Events in a phaser's history: 4 to 65,536.
    pub history: u32,
    /// Phasers of a run: 1 to 64.
    pub phasers: u32,
    /// Registrations on a phaser at once: 1 to 256.
    pub regs: u32,
    /// Tasks of a run, whose numbers are below it: 1 to 4,096.
    pub tasks: u32,
}

/// `paldwosk_barrier`. Its memory is zeroed, aligned to 16, and as long as `paldwosk_so_barrier_size` says.
#[repr(C)]
pub struct GivenBarrier {
    held: [u8; 0],
}

/// `paldwosk_task`: a task of a barrier.
#[repr(C)]
#[derive(Clone, Copy)]
pub struct GivenTask {
    /// Where its barrier is.
    pub barrier: *mut GivenBarrier,
    /// The task's number.
    pub number: u64,
    /// The library's alone.
    pub seat: u32,
}

/// `paldwosk_judged_event`: an event of a phaser, for a judge.
#[repr(C)]
#[derive(Clone, Copy)]
pub struct GivenEvent {
    /// Any number.
    pub phaser: u64,
    /// The task that acts, of a registration the parent: any number.
    pub task: u64,
    /// Of a registration: any number.
    pub child: u64,
    /// Of a look: what was seen.
    pub seen: i64,
    /// Of a send: what was sent.
    pub value: i32,
    /// Of a signal with a single: its number.
    pub single: u32,
    /// `paldwosk_judged_kind`.
    pub kind: u32,
    /// Of making and registering: `paldwosk_mode`.
    pub mode: u32,
    /// Of a send and a look: its index, from 0.
    pub accumulator: u32,
    /// Of making: 1 to 65,536 phases, or 0 for none.
    pub bound: u32,
    /// Of making: how many operators there are, 0 to 4.
    pub operator_count: u32,
    /// Of making: the first so many, each a `paldwosk_operator`.
    pub operators: [u32; 4],
}

/// `paldwosk_judged_totals`: what a judge counted.
#[repr(C)]
#[derive(Clone, Copy)]
pub struct GivenTotals {
    /// Events that were accepted, of all kinds.
    pub events: u64,
    /// Phasers that were made.
    pub made: u64,
    /// Phasers that are there now. Of a judge that is over it says nothing.
    pub there: u64,
    /// Registrations, those of the makers among them.
    pub registrations: u64,
    /// Signals, with a single or without.
    pub signals: u64,
    /// Turns that tasks ended.
    pub passes: u64,
    /// Tasks that left a phaser.
    pub drops: u64,
    /// Values that were sent.
    pub sends: u64,
    /// 1 if the judge is over, else 0.
    pub over: u32,
}

/// `PALDWOSK_MOST_NAMED`: how many of the tasks for which an event had to wait a `GivenWhy` names.
pub const MOST_NAMED: usize = 16;

/// `paldwosk_judged_why`: for whom an event had to wait.
#[repr(C)]
#[derive(Clone, Copy)]
pub struct GivenWhy {
    /// Of a pass and a claim, the phase at which their task stands; else 0.
    pub phase: u64,
    /// How many tasks owe it: 0 to 256.
    pub count: u64,
    /// The first of them, in the order of their registration. Behind fewer stand zeros.
    pub tasks: [u64; MOST_NAMED],
}

/// How many tasks a barrier has at most.
pub const MOST_TASKS: usize = 256;

// Each of the others is the function of that name in `include/paldwosk.h`, or without its `so_` in
// `include/paldwosk_barrier.h`. The header says what it answers.
#[allow(missing_docs)]
unsafe extern "C" {
    /// The form in which the archive and these declarations hand values to each other. With an archive of another form a
    /// program that calls this doesn't link, and the linker names it.
    pub fn phaser_c_abi_1() -> u32;
    pub fn phaser_c_replay(
        trace: *const u8,
        length: usize,
        report: *mut u8,
        room: usize,
        written: &mut usize,
    ) -> u32;
    pub fn phaser_c_events(
        file: *const u8,
        length: usize,
        lines: *mut u8,
        room: usize,
        written: &mut usize,
    ) -> u32;
    pub fn phaser_c_judge_new(judge: &mut Handle) -> u32;
    pub fn phaser_c_judge_free(judge: &mut Handle);
    pub fn phaser_c_judge_event(judge: &mut Handle, event: &GivenEvent) -> u32;
    pub fn phaser_c_judge_event_with_owing(judge: &mut Handle, event: &GivenEvent, why: &mut GivenWhy) -> u32;
    pub fn phaser_c_judge_totals(judge: &mut Handle, totals: &mut GivenTotals) -> u32;
    pub fn phaser_c_new(
        phaser: &mut Handle,
        limits: &GivenLimits,
        operators: *const u32,
        count: usize,
        bound: u32,
    ) -> u32;
    pub fn phaser_c_free(phaser: &mut Handle);
    pub fn phaser_c_make(phaser: &mut Handle, task: u32, mode: u32) -> u32;
    pub fn phaser_c_register(phaser: &mut Handle, parent: u32, child: u32, mode: u32) -> u32;
    pub fn phaser_c_signal(phaser: &mut Handle, task: u32) -> u32;
    pub fn phaser_c_signal_single(phaser: &mut Handle, task: u32, number: u32) -> u32;
    pub fn phaser_c_pass(phaser: &mut Handle, task: u32, number: &mut u32) -> u32;
    pub fn phaser_c_single_done(phaser: &mut Handle, task: u32) -> u32;
    pub fn phaser_c_send(phaser: &mut Handle, task: u32, accumulator: u8, value: i32) -> u32;
    pub fn phaser_c_look(phaser: &mut Handle, task: u32, accumulator: u8, value: &mut i64) -> u32;
    pub fn phaser_c_drop(phaser: &mut Handle, task: u32) -> u32;
    pub fn phaser_c_is_closed(phaser: &mut Handle, phase: u32, closed: &mut u32) -> u32;
    pub fn phaser_c_is_full(phaser: &mut Handle, full: &mut u32) -> u32;
    pub fn phaser_c_fold_at(phaser: &mut Handle, accumulator: u8, phase: u32, value: &mut i64) -> u32;
    pub fn phaser_c_compared(phaser: &mut Handle, count: &mut u32) -> u32;
    pub fn phaser_c_event_count(phaser: &mut Handle, count: &mut u32) -> u32;
    pub fn phaser_c_history_text(
        phaser: &mut Handle,
        number: u32,
        tickets: *const u64,
        count: usize,
        text: *mut u8,
        room: usize,
        written: &mut usize,
    ) -> u32;

    /// How many bytes a barrier takes.
    pub fn paldwosk_so_barrier_size() -> usize;
    pub fn paldwosk_so_barrier_new(barrier: *mut GivenBarrier, bound: u32, operators: *const u32, count: usize) -> u32;
    pub fn paldwosk_so_barrier_new_traced(
        barrier: *mut GivenBarrier,
        bound: u32,
        operators: *const u32,
        count: usize,
    ) -> u32;
    pub fn paldwosk_so_barrier_free(barrier: *mut GivenBarrier) -> u32;
    pub fn paldwosk_so_barrier_make(barrier: *mut GivenBarrier, mode: u32, task: &mut GivenTask) -> u32;
    pub fn paldwosk_so_barrier_join(parent: &GivenTask, mode: u32, task: &mut GivenTask) -> u32;
    pub fn paldwosk_so_barrier_next(task: &GivenTask, phase: &mut u64) -> u32;
    pub fn paldwosk_so_barrier_next_for(task: &GivenTask, milliseconds: u32, phase: &mut u64) -> u32;
    pub fn paldwosk_so_barrier_signal(task: &GivenTask) -> u32;
    pub fn paldwosk_so_barrier_signal_for(task: &GivenTask, milliseconds: u32) -> u32;
    pub fn paldwosk_so_barrier_wait(task: &GivenTask, phase: &mut u64) -> u32;
    pub fn paldwosk_so_barrier_wait_for(task: &GivenTask, milliseconds: u32, phase: &mut u64) -> u32;
    pub fn paldwosk_so_barrier_send(task: &GivenTask, accumulator: u32, value: i32) -> u32;
    pub fn paldwosk_so_barrier_look(task: &GivenTask, accumulator: u32, value: &mut i64) -> u32;
    pub fn paldwosk_so_barrier_single(
        task: &GivenTask,
        number: u32,
        run: extern "C" fn(data: *mut c_void),
        data: *mut c_void,
        phase: &mut u64,
    ) -> u32;
    pub fn paldwosk_so_barrier_leave(task: &GivenTask) -> u32;
    pub fn paldwosk_so_barrier_missing(
        barrier: *mut GivenBarrier,
        tasks: *mut u64,
        room: usize,
        count: &mut usize,
    ) -> u32;
    pub fn paldwosk_so_barrier_trace(
        barrier: *mut GivenBarrier,
        text: *mut u8,
        room: usize,
        written: &mut usize,
    ) -> u32;
    pub fn paldwosk_so_barrier_trace_ended(barrier: *mut GivenBarrier) -> i32;
}
