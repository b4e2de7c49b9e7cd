//! A barrier of `std::sync` that leaves a trace of its run: write `use traced_barrier::Barrier` for
//! `use std::sync::Barrier`. The trace is written when the barrier is dropped. On Unix, one that isn't is written when the
//! program ends: by a return from `main`, `process::exit`, SIGINT, SIGQUIT or SIGTERM. The environment variable
//! `PHASER_TRACE` names the file, else it is trace.json; that of the program's second barrier has the ending .2, and so on.
//! Older files of these names are removed where the first barrier is made. After `PHASER_TRACE_AFTER` seconds, and at the
//! signals, standard error says who waits, and who is missing.
//!
//! If `PHASER_TRACE` is fd:N, or names a pipe, or ends in .jsonl, the log is written line by line as it comes, for
//! `phaser_run judge`: all barriers in one log, of any length. So a run is judged while it goes on:
//! `mkfifo log; phaser_run judge log & PHASER_TRACE=log ./program`. See `Lines`.
//!
//! Each call draws a ticket before it arrives, and one after its wait: so in the order of tickets an arrival never stands
//! after a pass that it let go. The log is an array by ticket. Which task of the trace a call is, is settled when the
//! trace is written. What can't be told changes nothing in the program: there is no trace then, and it is said. The one
//! `unsafe` code is the module `system`, for what the end of the program and a log by lines need.
#![allow(dead_code, unreachable_pub, unsafe_code)]

use std::fmt::{self, Write as _};
use std::sync::atomic::{AtomicBool, AtomicU32, AtomicU64, AtomicUsize, Ordering::*};
use std::sync::{self, Arc, BarrierWaitResult, Mutex, MutexGuard, OnceLock, TryLockError};
use std::{collections::BTreeMap, env, ffi::OsString, fs, io, io::Write as _, path::Path, path::PathBuf, process, thread, time::Duration};

const VERSION: u32 = 2;
const UNBOUNDED: &str = ",null"; // the last item of a make, since version 2
const BOUND: &str = ",2"; // the same in lines: nobody is further ahead, and a judge needs less room
const MOST_PARTIES: usize = 255;
const MOST_EVENTS: usize = 65_536;
const CHUNK: usize = 1_024;
const PATIENCE: usize = 1_000; // milliseconds
const CROWDED: &str = "more threads than parties are at the barrier at once";

// What an entry is of. Its other bits are the thread's number, or the ticket of the arrival that is passed.
const ARRIVE: u32 = 1;
const PASS: u32 = 2;
const MAKE: u32 = 3; // of lines alone, as the next; the other bits are how many parties there are
const CLOSE: u32 = 4;

static LOGS: Mutex<Vec<Arc<Log>>> = Mutex::new(Vec::new());
static TRACE: OnceLock<OsString> = OnceLock::new();
static BARRIERS: AtomicUsize = AtomicUsize::new(1);
static THREADS: AtomicU64 = AtomicU64::new(1);
static LINES: OnceLock<Option<Lines>> = OnceLock::new();

thread_local! {
    static NUMBER: u64 = THREADS.fetch_add(1, Relaxed);
}

/// As `std::sync::Barrier`, which it calls.
pub struct Barrier {
    pub real: sync::Barrier,
    log: Logged,
}

/// Where a barrier's entries go: into a trace of its own, or by its number into the log by lines.
enum Logged {
    Whole(Arc<Log>),
    ByLines(&'static Lines, u64),
}

impl Logged {
    fn draw(&self, kind: u32, of: u64) -> u64 {
        match self {
            Logged::Whole(log) => log.draw(kind, of as u32).into(),
            Logged::ByLines(lines, number) => lines.draw(*number, kind, of),
        }
    }
}

impl Barrier {
    /// As that of `std::sync`: a barrier of none is one of one.
    pub fn new(parties: usize) -> Barrier {
        let log = match Lines::asked() {
            Some(lines) => Logged::ByLines(lines, lines.made(parties.max(1))),
            None => Logged::Whole(Log::made(parties.max(1))),
        };
        Barrier { real: sync::Barrier::new(parties), log }
    }

    /// As that of `std::sync`.
    pub fn wait(&self) -> BarrierWaitResult {
        let arrival = self.log.draw(ARRIVE, NUMBER.try_with(|number| *number).unwrap_or(0));
        let result = self.real.wait();
        self.log.draw(PASS, arrival);
        result
    }
}

impl fmt::Debug for Barrier {
    fn fmt(&self, out: &mut fmt::Formatter<'_>) -> fmt::Result {
        self.real.fmt(out)
    }
}

impl Drop for Barrier {
    fn drop(&mut self) {
        let Logged::Whole(own) = &self.log else {
            self.log.draw(CLOSE, 0);
            return;
        };
        own.write(false);
        if let Some(mut logs) = locked(&LOGS) {
            logs.retain(|log| !Arc::ptr_eq(log, own));
        }
    }
}

/// The lock, where it is got in some time: a handler of a signal may have interrupted who has it.
fn locked<T>(lock: &Mutex<T>) -> Option<MutexGuard<'_, T>> {
    for _ in 0..PATIENCE {
        match lock.try_lock() {
            Ok(guard) => return Some(guard),
            Err(TryLockError::Poisoned(guard)) => return Some(guard.into_inner()),
            Err(TryLockError::WouldBlock) => thread::sleep(Duration::from_millis(1)),
        }
    }
    None
}

/// What all threads write stands on a cache line of its own.
#[repr(align(64))]
struct Drawn(AtomicU64);

struct Log {
    path: PathBuf,
    parties: usize,
    room: usize,
    process: u32,
    drawn: Drawn,
    entries: Vec<OnceLock<Box<[AtomicU32]>>>,
    reading: Mutex<Reading>,
}

/// What is found while a log is read; it is made before, since a handler of a signal can't have memory.
struct Reading {
    parties: Vec<Party>,
    passed: Vec<bool>, // by the ticket of an arrival
    is_early: bool,
    is_full: bool,
    untold: Option<&'static str>, // why there is no trace
}

/// A party of the barrier: task 1 is the first.
#[derive(Clone, Copy, Default)]
struct Party {
    owner: u64, // the thread that it is
    last: u64, // its last arrival
    signals: usize,
    passes: usize,
}

/// The party that an arrival of this thread is: its own, else one that waits for none and has taken fewest turns.
fn chosen(parties: &[Party], who: u64) -> Option<usize> {
    let is_idle = |party: &Party| party.signals == party.passes || parties.len() == 1;
    let own = parties.iter().position(|party| party.owner == who && is_idle(party));
    let fewest = |at: &usize| (parties[*at].signals, parties[*at].owner != 0);
    own.or_else(|| (0..parties.len()).filter(|at| is_idle(&parties[*at])).min_by_key(fewest))
}

/// The party whose arrival this pass ends; none where a later arrival of it said already that the phase was over.
fn passing(parties: &[Party], arrival: u64) -> Option<usize> {
    parties.iter().position(|party| party.last == arrival && party.signals > party.passes)
}

impl Log {
    fn made(parties: usize) -> Arc<Log> {
        let name = TRACE.get_or_init(begin);
        let number = BARRIERS.fetch_add(1, Relaxed);
        let untold = if parties > MOST_PARTIES { Some("a trace has room for 255 parties") } else { None };
        let parties = if untold.is_some() { 0 } else { parties };
        let room = if untold.is_some() { 0 } else { MOST_EVENTS - 2 * parties - 2 };
        let reading = Reading {
            parties: vec![Party::default(); parties],
            passed: vec![false; room],
            is_early: false,
            is_full: false,
            untold,
        };
        let log = Arc::new(Log {
            path: path_of(name, number),
            parties,
            room,
            process: process::id(),
            drawn: Drawn(AtomicU64::new(0)),
            entries: (0..MOST_EVENTS / CHUNK).map(|_| OnceLock::new()).collect(),
            reading: Mutex::new(reading),
        });
        remove(&log.path);
        if let Some(mut logs) = locked(&LOGS) {
            logs.push(log.clone());
        }
        log
    }

    fn draw(&self, kind: u32, of: u32) -> u32 {
        let ticket = self.drawn.0.fetch_add(1, Relaxed).min(self.room as u64) as usize;
        if ticket < self.room {
            let chunk = self.entries[ticket / CHUNK].get_or_init(|| (0..CHUNK).map(|_| AtomicU32::new(0)).collect());
            chunk[ticket % CHUNK].store(of << 2 | kind, Release);
        }
        ticket as u32
    }

    /// The entry of a ticket; 0 where it isn't stored yet.
    fn entry(&self, ticket: usize) -> u32 {
        self.entries[ticket / CHUNK].get().map_or(0, |chunk| chunk[ticket % CHUNK].load(Acquire))
    }

    /// The trace so far. What was drawn and isn't stored yet is waited for.
    fn write(&self, says_who: bool) {
        if self.process != process::id() {
            return; // a forked child writes no trace of its parent's barriers
        }
        let Some(mut reading) = locked(&self.reading) else {
            remove(&self.path); // half of it may be there
            return say(format_args!("{}: no trace is written: the program ends in its writing", self.path.display()));
        };
        let drawn = self.drawn.0.load(Acquire);
        let end = drawn.min(self.room as u64) as usize;
        let (mut stored, mut waits) = (0, 0);
        while stored < end && waits < PATIENCE {
            if self.entry(stored) != 0 {
                stored += 1;
            } else {
                waits += 1;
                thread::sleep(Duration::from_millis(1));
            }
        }
        if (stored..end).any(|ticket| self.entry(ticket) != 0) {
            reading.untold = Some("a thread was stopped while it logged");
        }
        reading.is_full = drawn > self.room as u64;
        reading.is_early = false;
        reading.passed.iter_mut().for_each(|passed| *passed = false);
        let told = self.read(&mut reading, stored, None);
        if says_who && reading.untold.is_none() && !reading.is_full {
            say_who(format_args!("{}", self.path.display()), &reading.parties);
        }
        // A pass that was early before what can't be told is told all the same.
        if let (Some(why), false) = (reading.untold, reading.is_early) {
            remove(&self.path);
            return say(format_args!("{}: no trace is written: {why}", self.path.display()));
        }
        let mut out = Out { file: fs::File::create(&self.path).ok(), length: 0, text: [0; 4096] };
        if out.file.is_none() || self.events(&mut reading, told, &mut out).is_err() || out.flush().is_err() {
            say(format_args!("{}: the trace can't be written", self.path.display()));
        } else if reading.is_full {
            say(format_args!("{}: the log was full: the trace ends before the run", self.path.display()));
        }
    }

    /// Reads entries up to the end, or the first that can't be told; writes their events after those of the making, where
    /// there is a file. The first time `passed` is found, which the second needs. How many were read.
    fn read(&self, reading: &mut Reading, end: usize, mut out: Option<(&mut Out, &mut u64)>) -> usize {
        let mut left = MOST_EVENTS - 2 * self.parties - 2;
        reading.parties.iter_mut().for_each(|party| *party = Party::default());
        for at in 0..end {
            let (kind, of) = (self.entry(at) & 3, self.entry(at) >> 2);
            let is_pass = kind == PASS;
            let chosen = if is_pass {
                match passing(&reading.parties, of.into()) {
                    Some(chosen) => chosen,
                    None => continue,
                }
            } else if let Some(chosen) = chosen(&reading.parties, of.into()) {
                chosen
            } else {
                reading.untold = Some(CROWDED);
                return at;
            };
            let (party, task) = (reading.parties[chosen], chosen + 1);
            let passes = is_pass || party.signals > party.passes;
            if left < usize::from(passes) + usize::from(!is_pass) {
                reading.is_full = true;
                return at;
            }
            left -= usize::from(passes) + usize::from(!is_pass);
            if is_pass {
                reading.is_early |= reading.parties.iter().any(|other| other.signals <= party.passes);
            }
            if passes {
                reading.passed[party.last as usize] = true;
                reading.parties[chosen].passes += 1;
            }
            if !is_pass {
                let signals = party.signals + 1;
                reading.parties[chosen] = Party { owner: of.into(), last: at as u64, signals, ..reading.parties[chosen] };
            }
            if let Some((out, ticket)) = out.as_mut() {
                let act = if reading.passed[at] { "next" } else { "signal" };
                let mut event = |form: fmt::Arguments<'_>| {
                    let _ = writeln!(out, "[{ticket},{form}],"); // a fault stays in `out`
                    **ticket += 1;
                };
                if passes {
                    event(format_args!(r#""p",0,"pass",{task}"#));
                }
                if !is_pass {
                    event(format_args!(r#""t",{task},"begin",["{act}"]"#));
                    event(format_args!(r#""p",0,"sig",{task}"#));
                }
            }
        }
        end
    }

    /// The making of the barrier, the turns, and the leaving of all threads.
    fn events(&self, reading: &mut Reading, end: usize, out: &mut Out) -> fmt::Result {
        let mut ticket = 3 * self.parties as u64 + 4;
        writeln!(out, "{{\"events\":[\n[1,\"p\",0,\"make\",0,\"SIG_WAIT\",[]{UNBOUNDED}],")?;
        for task in 1..=self.parties {
            writeln!(out, r#"[{},"t",0,"begin",["async",{task},[[0,"SIG_WAIT"]]]],"#, 3 * task - 1)?;
            writeln!(out, r#"[{},"p",0,"reg",0,{task},"SIG_WAIT"],"#, 3 * task)?;
            writeln!(out, r#"[{},"f",0,"spawned",{task}],"#, 3 * task + 1)?;
        }
        writeln!(out, r#"[{},"t",0,"begin",["end"]],"#, ticket - 2)?;
        writeln!(out, r#"[{},"p",0,"drop",0],"#, ticket - 1)?;
        self.read(reading, end, Some((out, &mut ticket)));
        for task in 1..=self.parties {
            writeln!(out, r#"[{ticket},"t",{task},"begin",["end"]],"#)?;
            writeln!(out, r#"[{},"p",0,"drop",{task}],"#, ticket + 1)?;
            writeln!(out, r#"[{},"f",0,"ended",{task}],"#, ticket + 2)?;
            ticket += 3;
        }
        let limits = r#"],"limits":{"acts":65536,"history":65536}"#;
        writeln!(out, r#"[{ticket},"f",0,"shut"]{limits},"version":{VERSION}}}"#)
    }

}

/// Who waits in the least phase in which somebody does, and who is missing there.
fn say_who(name: fmt::Arguments<'_>, parties: &[Party]) {
    let waiting = parties.iter().filter(|party| party.signals > party.passes);
    let Some(phase) = waiting.map(|party| party.passes).min() else { return };
    let mut out = Out { file: None, length: 0, text: [0; 4096] };
    let parties = || parties.iter().zip(1..);
    let _ = write!(out, "{name}: tasks that wait in phase {phase}:");
    for (_, task) in parties().filter(|(party, _)| party.signals > party.passes && party.passes == phase) {
        let _ = write!(out, " {task}");
    }
    let mut missing = parties().filter(|(party, _)| party.signals <= phase).peekable();
    let _ = out.write_str(if missing.peek().is_some() { "; missing:" } else { "; nobody is missing" });
    for (party, task) in missing {
        let _ = write!(out, " {task}{}", if party.owner == 0 { " (nobody yet)" } else { "" });
    }
    say(format_args!("{}", String::from_utf8_lossy(&out.text[..out.length])));
}

const SLOTS: usize = 65_536;
const PIECE: usize = 4_096; // bytes that a pipe takes at once: so a line is never cut
const LINE: usize = 128; // bytes at most
const MOST_AT_ONCE: usize = 256; // tasks on a phaser
const NEVER: u64 = u64::MAX; // no ticket

/// The log line by line. An entry is put into a ring by ticket, which is drawn as for a trace. A thread of its own empties
/// the ring in order, and tells the entries as events. If the ring is full the program waits for the reader; if the reader
/// is gone it goes on without a log.
struct Lines {
    name: String,
    slots: Vec<Slot>,
    drawn: Drawn,
    told: Drawn, // how many slots were emptied
    barriers: AtomicU64,
    is_on: AtomicBool,
    is_ending: AtomicBool,
    says_who: AtomicBool,
}

/// `filled` is one more than the ticket that the slot was filled for.
#[derive(Default)]
struct Slot {
    filled: AtomicU64,
    number: AtomicU64, // of the barrier
    entry: AtomicU64,
}

impl Lines {
    /// The log, where the name asks for one by lines. One that can't be written is off.
    fn asked() -> Option<&'static Lines> {
        LINES.get_or_init(Lines::begun).as_ref()
    }

    fn begun() -> Option<Lines> {
        let name = env::var_os("PHASER_TRACE")?.to_string_lossy().into_owned();
        let number = name.strip_prefix("fd:").and_then(|number| number.parse().ok());
        if number.is_none() && !name.ends_with(".jsonl") && !system::is_pipe(Path::new(&name)) {
            return None;
        }
        let file = number.map_or_else(|| fs::File::create(&name), system::file_of);
        let started = file.and_then(|file| {
            system::begin_lines(&file);
            let write = move || Lines::asked().map_or((), |lines| lines.write(file));
            thread::Builder::new().name("traced_barrier".into()).spawn(write)
        });
        if let Err(fault) = &started {
            say(format_args!("{name}: the log can't be written: {fault}"));
        }
        begin_ends();
        Some(Lines {
            name,
            slots: (0..SLOTS).map(|_| Slot::default()).collect(),
            drawn: Drawn(AtomicU64::new(0)),
            told: Drawn(AtomicU64::new(0)),
            barriers: AtomicU64::new(0),
            is_on: AtomicBool::new(started.is_ok()),
            is_ending: AtomicBool::new(false),
            says_who: AtomicBool::new(false),
        })
    }

    /// The number of a barrier that is made.
    fn made(&self, parties: usize) -> u64 {
        let number = self.barriers.fetch_add(1, Relaxed);
        if parties > MOST_AT_ONCE {
            say(format_args!("{}, phaser {number}: it isn't logged: a phaser has room for 256 tasks", self.name));
        } else {
            self.draw(number, MAKE, parties as u64);
        }
        number
    }

    fn draw(&self, number: u64, kind: u32, of: u64) -> u64 {
        if !self.is_on.load(Relaxed) {
            return NEVER;
        }
        let ticket = self.drawn.0.fetch_add(1, Relaxed);
        while ticket - self.told.0.load(Acquire) >= SLOTS as u64 {
            if !self.is_on.load(Acquire) {
                return NEVER;
            }
            thread::sleep(Duration::from_millis(1));
        }
        let slot = &self.slots[ticket as usize % SLOTS];
        slot.number.store(number, Relaxed);
        slot.entry.store(of << 3 | u64::from(kind), Relaxed);
        slot.filled.store(ticket + 1, Release);
        ticket
    }

    /// What the writer does, each some milliseconds, until the end of the program, or of the log.
    fn write(&self, file: fs::File) {
        system::take_no_signal();
        let text = format!("{{\"version\":{VERSION}}}\n");
        let mut writer = Writer { lines: self, file, text, written: 0, there: BTreeMap::new() };
        let (mut end, mut pause) = (NEVER, 1); // what was drawn when the program ended; milliseconds
        let mut open = 0; // milliseconds for which a slot that was drawn wasn't filled
        let mut why = None;
        while why.is_none() && self.told.0.load(Relaxed) < end && self.is_on.load(Relaxed) {
            if end == NEVER && self.is_ending.load(Acquire) {
                end = self.drawn.0.load(Acquire);
            }
            let (says_who, drawn) = (self.says_who.load(Acquire), self.drawn.0.load(Acquire));
            let wrote = writer.empty();
            let told = self.told.0.load(Relaxed);
            if says_who && told >= drawn.min(end) {
                self.says_who.store(false, Release);
                writer.say_who();
            }
            pause = if matches!(wrote, Ok(true)) { 1 } else { (2 * pause).min(16) };
            open = if told >= drawn || matches!(wrote, Ok(true)) { 0 } else { open + pause };
            let patience = PATIENCE as u64 * if end == NEVER { 10 } else { 1 };
            why = match wrote {
                Err(fault) if fault.kind() == io::ErrorKind::BrokenPipe => Some("its reader is gone".into()),
                Err(fault) => Some(fault.to_string()),
                Ok(_) if open > patience => Some("a thread was stopped while it logged".into()),
                Ok(_) => None,
            };
            if why.is_none() && told < end {
                thread::sleep(Duration::from_millis(pause));
            }
        }
        if let Some(why) = why {
            say(format_args!("{}: the log ends: {why}", self.name));
        }
        self.is_on.store(false, Release);
    }

    /// Has all written that was drawn. At a signal it doesn't wait for a reader that takes nothing.
    fn end(&self, is_signal: bool) {
        self.says_who.fetch_or(is_signal, AcqRel);
        self.is_ending.store(true, Release);
        let (mut told, mut waits) = (0, 0);
        while self.is_on.load(Acquire) && !(is_signal && waits > 2 * PATIENCE) {
            let now = self.told.0.load(Acquire);
            waits = if now == told { waits + 1 } else { 0 };
            told = now;
            thread::sleep(Duration::from_millis(1));
        }
    }
}

/// What the writer has: the parties of each barrier, and lines that aren't written yet.
struct Writer<'a> {
    lines: &'a Lines,
    file: fs::File,
    text: String,
    written: u64, // lines, which their tickets count
    there: BTreeMap<u64, Vec<Party>>,
}

impl Writer<'_> {
    /// Writes what stands in the ring, up to the first slot that isn't filled. Whether it was anything.
    fn empty(&mut self) -> io::Result<bool> {
        let first = self.lines.told.0.load(Relaxed);
        let mut told = first;
        loop {
            let slot = &self.lines.slots[told as usize % SLOTS];
            if slot.filled.load(Acquire) != told + 1 {
                break;
            }
            let entry = slot.entry.load(Relaxed);
            self.tell(slot.number.load(Relaxed), (entry & 7) as u32, entry >> 3, told)?;
            told += 1;
            if told % 1024 == 0 {
                self.lines.told.0.store(told, Release);
            }
        }
        self.flush()?;
        self.lines.told.0.store(told, Release);
        Ok(told != first)
    }

    fn tell(&mut self, number: u64, kind: u32, of: u64, at: u64) -> io::Result<()> {
        if kind == MAKE {
            self.there.insert(number, vec![Party::default(); of as usize]);
            self.line(number, format_args!(r#""make",1,"SIG_WAIT",[]{BOUND}"#))?;
            return (2..=of).try_for_each(|task| self.line(number, format_args!(r#""reg",1,{task},"SIG_WAIT""#)));
        }
        let Some(parties) = self.there.get_mut(&number) else { return Ok(()) };
        if kind == CLOSE {
            let tasks = parties.len();
            self.there.remove(&number);
            return (1..=tasks).try_for_each(|task| self.line(number, format_args!(r#""drop",{task}"#)));
        }
        let found = if kind == PASS { passing(parties, of) } else { chosen(parties, of) };
        let Some(found) = found else {
            if kind == ARRIVE {
                self.there.remove(&number);
                say(format_args!("{}, phaser {number}: its log ends: {CROWDED}", self.lines.name));
            }
            return Ok(());
        };
        let (party, task) = (&mut parties[found], found + 1);
        let passes = party.signals > party.passes; // an arrival passes first what its party hasn't passed
        party.passes += usize::from(passes);
        if kind == ARRIVE {
            *party = Party { owner: of, last: at, signals: party.signals + 1, ..*party };
        }
        if passes {
            self.line(number, format_args!(r#""pass",{task}"#))?;
        }
        if kind == ARRIVE {
            self.line(number, format_args!(r#""sig",{task}"#))?;
        }
        Ok(())
    }

    fn line(&mut self, number: u64, event: fmt::Arguments<'_>) -> io::Result<()> {
        if self.text.len() + LINE > PIECE {
            self.flush()?;
        }
        self.written += 1;
        let _ = writeln!(self.text, r#"[{},"p",{number},{event}]"#, self.written);
        Ok(())
    }

    fn flush(&mut self) -> io::Result<()> {
        let mut text = self.text.as_bytes();
        while !text.is_empty() {
            match self.file.write(text) {
                Ok(0) => return Err(io::ErrorKind::WriteZero.into()),
                Ok(wrote) => text = &text[wrote..],
                Err(fault) if fault.kind() == io::ErrorKind::Interrupted => {}
                Err(fault) if fault.kind() == io::ErrorKind::WouldBlock => thread::sleep(Duration::from_millis(1)),
                Err(fault) => return Err(fault),
            }
        }
        self.text.clear();
        Ok(())
    }

    fn say_who(&self) {
        for (number, parties) in &self.there {
            say_who(format_args!("{}, phaser {number}", self.lines.name), parties);
        }
    }
}

/// Writes into a file by pieces, without memory; without a file it keeps one piece.
struct Out {
    file: Option<fs::File>,
    length: usize,
    text: [u8; 4096],
}

impl Out {
    fn flush(&mut self) -> fmt::Result {
        let length = std::mem::take(&mut self.length);
        let Some(file) = &mut self.file else { return Err(fmt::Error) };
        if file.write_all(&self.text[..length]).is_err() {
            self.file = None;
            return Err(fmt::Error);
        }
        Ok(())
    }
}

impl fmt::Write for Out {
    fn write_str(&mut self, text: &str) -> fmt::Result {
        for letter in text.bytes() {
            if self.length == self.text.len() {
                self.flush()?;
            }
            self.text[self.length] = letter;
            self.length += 1;
        }
        Ok(())
    }
}

fn say(line: fmt::Arguments<'_>) {
    let mut out = Out { file: None, length: 0, text: [0; 4096] };
    let _ = writeln!(out, "traced_barrier: {line}");
    system::say(&out.text[..out.length]);
}

fn path_of(name: &OsString, number: usize) -> PathBuf {
    let mut name = name.clone();
    if number > 1 {
        name.push(format!(".{number}"));
    }
    PathBuf::from(name)
}

/// Removes what an earlier run left; a device or a pipe stays. Whether there was a file.
fn remove(path: &PathBuf) -> bool {
    let is_file = fs::metadata(path).map_or(false, |is| is.is_file()) && !path.starts_with("/dev");
    if is_file && fs::remove_file(path).is_err() && fs::File::create(path).is_err() {
        say(format_args!("{}: an older trace can't be removed", path.display()));
    }
    is_file
}

/// What is done once, by the first barrier: the name of its trace.
fn begin() -> OsString {
    let name = env::var_os("PHASER_TRACE").unwrap_or_else(|| "trace.json".into());
    let name = env::current_dir().map_or(name.clone(), |folder| folder.join(name).into_os_string());
    let mut number = 1;
    while remove(&path_of(&name, number)) || number < 100 {
        number += 1;
    }
    begin_ends();
    name
}

/// Has the log written at the end of the program, and who waits said after some seconds.
fn begin_ends() {
    system::begin();
    let after = env::var("PHASER_TRACE_AFTER").ok().and_then(|seconds| seconds.parse::<f64>().ok());
    if let Some(seconds) = after.filter(|seconds| *seconds > 0.0 && *seconds < 1e9) {
        let watch = move || {
            thread::sleep(Duration::from_secs_f64(seconds));
            match LINES.get() {
                Some(Some(lines)) => lines.says_who.store(true, Release),
                _ => write_all(true),
            }
        };
        let _ = thread::Builder::new().spawn(watch); // where there can be no thread, nobody watches
    }
}

fn write_all(says_who: bool) {
    if let Some(Some(lines)) = LINES.get() {
        return lines.end(says_who);
    }
    if let Some(logs) = locked(&LOGS) {
        logs.iter().for_each(|log| log.write(says_who));
    }
}

#[cfg(unix)]
mod system {
    use std::os::fd::{AsRawFd, FromRawFd};
    use std::os::unix::fs::FileTypeExt;
    use std::sync::atomic::{AtomicI32, Ordering::*};
    use std::{fs::File, io, mem::ManuallyDrop, path::Path};

    unsafe extern "C" {
        fn close(file: i32) -> i32;
        fn sigfillset(signals: *mut u64) -> i32;
        fn pthread_sigmask(how: i32, signals: *const u64, old: *mut u64) -> i32;
        fn pthread_atfork(before: Option<extern "C" fn()>, parent: Option<extern "C" fn()>, child: Option<extern "C" fn()>) -> i32;
        fn atexit(call: extern "C" fn()) -> i32;
        fn raise(number: i32) -> i32;
        fn sigaction(number: i32, new: *const u64, old: *mut u64) -> i32;
        fn signal(number: i32, handler: usize) -> usize;
        fn write(file: i32, text: *const u8, length: usize) -> isize;
    }

    const DEFAULT: usize = 0;

    extern "C" fn at_exit() {
        super::write_all(false);
    }

    extern "C" fn at_signal(number: i32) {
        super::write_all(true);
        unsafe {
            signal(number, DEFAULT);
            raise(number);
        }
    }

    static FILE: AtomicI32 = AtomicI32::new(-1); // of the log by lines

    pub(super) fn is_pipe(path: &Path) -> bool {
        path.metadata().is_ok_and(|is| is.file_type().is_fifo())
    }

    /// A file of this number, for the log alone: its reader sees the end of the log, also before that of the program.
    pub(super) fn file_of(number: i32) -> io::Result<File> {
        let given = unsafe { ManuallyDrop::new(File::from_raw_fd(number)) };
        let file = given.try_clone()?;
        if number > 2 {
            drop(ManuallyDrop::into_inner(given));
        }
        Ok(file)
    }

    /// Has this thread get no signal: no SIGPIPE of its own either.
    pub(super) fn take_no_signal() {
        let block = if cfg!(any(target_os = "linux", target_os = "android")) { 0 } else { 1 };
        let mut all = [0; 64]; // more than any system's sigset_t
        unsafe {
            sigfillset(all.as_mut_ptr());
            pthread_sigmask(block, all.as_ptr(), std::ptr::null_mut());
        }
    }

    /// A forked child logs nothing.
    extern "C" fn in_child() {
        if let Some(Some(lines)) = super::LINES.get() {
            if lines.is_on.swap(false, AcqRel) {
                unsafe { close(FILE.load(Relaxed)) };
            }
        }
    }

    pub(super) fn begin_lines(file: &File) {
        FILE.store(file.as_raw_fd(), Relaxed);
        unsafe { pthread_atfork(None, None, Some(in_child)) };
    }

    /// A signal that the program handles itself, or has ignored, is left as it was.
    pub(super) fn begin() {
        unsafe {
            atexit(at_exit);
            for number in [2, 3, 15] {
                let mut old = [0; 64]; // more than any system's struct sigaction
                let is_told = sigaction(number, std::ptr::null(), old.as_mut_ptr()) == 0;
                if is_told && signal(number, at_signal as *const () as usize) != DEFAULT {
                    sigaction(number, old.as_ptr(), std::ptr::null_mut());
                }
            }
        }
    }

    /// On standard error, whose lock the interrupted thread may have.
    pub(super) fn say(line: &[u8]) {
        unsafe { write(2, line.as_ptr(), line.len()) };
    }
}

#[cfg(not(unix))]
mod system {
    use std::{fs::File, io, path::Path};

    pub(super) fn is_pipe(_: &Path) -> bool {
        false
    }

    pub(super) fn file_of(_: i32) -> io::Result<File> {
        Err(io::ErrorKind::Unsupported.into())
    }

    pub(super) fn begin_lines(_: &File) {}

    pub(super) fn take_no_signal() {}

    pub(super) fn begin() {}

    pub(super) fn say(line: &[u8]) {
        eprint!("{}", String::from_utf8_lossy(line));
    }
}
