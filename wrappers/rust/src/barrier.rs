//! A barrier of the form of `std::sync::Barrier`.
//!
//! It has a place for each thread that it is for, with a task of one phaser. A thread that comes takes a free place, and has its
//! task turn. More threads may come than there are places: the others wait until one is free. So a phase ends as soon as so many
//! threads have come, each with a task of its own.
use crate::answers::{Mode, Refusal};
use crate::shared::{Call, Member, Shared};
use std::cell::Cell;
use std::fmt;
use std::panic::RefUnwindSafe;
use std::sync::atomic::{fence, AtomicUsize, Ordering::*};
use std::sync::{Condvar, Mutex, MutexGuard, PoisonError, TryLockError};

/// As `std::sync::Barrier`, over a phaser: any so many threads may meet at it, again and again. A program takes it by one
/// changed line, `use paldwosk::Barrier`, but for a `static`: [`Barrier::new`] takes memory, so there it stands in a
/// [`LazyLock`](std::sync::LazyLock).
///
/// Each thread that comes to [`wait`](Barrier::wait) is counted. It waits for no lock, unless more threads come than the barrier
/// is for. The last thread has the phaser make the whole phase by one call. Then it lets the others go.
///
/// ```
/// use paldwosk::Barrier;
/// use std::thread;
///
/// let barrier = Barrier::new(3);
/// let leaders = thread::scope(|scope| {
///     let threads: Vec<_> = (0..3).map(|_| scope.spawn(|| barrier.wait().is_leader())).collect();
///     threads.into_iter().filter_map(|thread| thread.join().ok()).filter(|leads| *leads).count()
/// });
/// assert_eq!(leaders, 1);
/// ```
#[must_use = "threads meet at a barrier by calling `wait`"]
pub struct Barrier {
    places: Box<[Place]>,
    /// How many threads look for a free place, or sleep until there is one.
    seekers: AtomicUsize,
    /// Held by one of them while it looks.
    seeking: Mutex<()>,
    is_free: Condvar,
}

/// A task, for the thread that has locked the place. Each place has a line of memory of its own.
#[repr(align(128))]
struct Place(Mutex<Member>);

// No code of a caller's runs while a thread has a place.
impl RefUnwindSafe for Barrier {}

/// The number of a thread that has none yet.
static THREADS: AtomicUsize = AtomicUsize::new(0);

thread_local! {
    /// Where this thread looks for a free place first: where it was last.
    static FIRST: Cell<usize> = Cell::new(THREADS.fetch_add(1, Relaxed));
}

/// What [`Barrier::wait`] returns.
///
/// ```
/// let result = paldwosk::Barrier::new(1).wait();
/// assert!(result.is_leader()); // nobody else comes
/// ```
#[derive(Debug)]
pub struct BarrierWaitResult {
    is_leader: bool,
}

impl BarrierWaitResult {
    /// Whether this thread is the one leader of its generation.
    #[must_use]
    pub fn is_leader(&self) -> bool {
        self.is_leader
    }
}

/// Tasks of one phaser, all in phase 0. By the bound 2 none of them ever waits for more than the others' signals.
fn places(threads: usize) -> Result<Box<[Place]>, Refusal> {
    let mut maker = Shared::new(2, &[], false)?.make(Mode::SigWait)?;
    let mut tasks = (1..threads).map(|_| maker.join(Mode::SigWait)).collect::<Result<Vec<_>, _>>()?;
    tasks.push(maker);
    Ok(tasks.into_iter().map(|task| Place(Mutex::new(task))).collect())
}

impl Barrier {
    /// A barrier for so many threads; for none it is as for one.
    ///
    /// # Panics
    ///
    /// For more than 256 threads, and if there is no memory.
    pub fn new(threads: usize) -> Barrier {
        let threads = threads.max(1);
        assert!(threads <= 256, "a paldwosk::Barrier has room for 256 threads, and {threads} are asked for");
        let places = match places(threads) {
            Ok(places) => places,
            Err(refusal) => panic!("a paldwosk::Barrier for {threads} threads: {refusal}"),
        };
        Barrier { places, seekers: AtomicUsize::new(0), seeking: Mutex::new(()), is_free: Condvar::new() }
    }

    /// Waits until as many threads have come as the barrier is for.
    pub fn wait(&self) -> BarrierWaitResult {
        let mut taken = self.free_place().unwrap_or_else(|| self.awaited_place());
        if let Err(refusal) = taken.task.call(Call::Next) {
            unreachable!("the archive has refused a round of a barrier: {refusal}")
        }
        BarrierWaitResult { is_leader: taken.at == 0 }
    }

    /// Takes a free place, if there is one.
    fn free_place(&self) -> Option<Taken<'_>> {
        let (first, count) = (FIRST.get(), self.places.len());
        self.taken(first).or_else(|| (0..count).find_map(|more| self.taken((first % count + more) % count)))
    }

    /// Takes this place, if it is there and free.
    fn taken(&self, at: usize) -> Option<Taken<'_>> {
        let task = unlocked(&self.places.get(at)?.0)?;
        FIRST.set(at);
        Some(Taken { at, task, _tells: Tells(self) })
    }

    /// Waits until a place is free, and takes it. A thread that frees one looks for seekers then: so either it sees this thread,
    /// or this thread sees the place.
    fn awaited_place(&self) -> Taken<'_> {
        let mut looks = self.seeking.lock().unwrap_or_else(PoisonError::into_inner);
        self.seekers.fetch_add(1, Relaxed);
        loop {
            fence(SeqCst);
            if let Some(taken) = self.free_place() {
                self.seekers.fetch_sub(1, Relaxed);
                return taken;
            }
            looks = self.is_free.wait(looks).unwrap_or_else(PoisonError::into_inner);
        }
    }

    /// A place is free again.
    fn tell_seeker(&self) {
        fence(SeqCst);
        if self.seekers.load(Relaxed) > 0 {
            drop(self.seeking.lock());
            self.is_free.notify_one();
        }
    }
}

/// What the lock has, if nobody holds it.
fn unlocked<T>(lock: &Mutex<T>) -> Option<MutexGuard<'_, T>> {
    match lock.try_lock() {
        Ok(held) => Some(held),
        Err(TryLockError::Poisoned(held)) => Some(held.into_inner()),
        Err(TryLockError::WouldBlock) => None,
    }
}

/// A place that a thread has. Its parts are dropped in this order: it is freed, and then a seeker is told.
struct Taken<'a> {
    at: usize,
    task: MutexGuard<'a, Member>,
    _tells: Tells<'a>,
}

struct Tells<'a>(&'a Barrier);

impl Drop for Tells<'_> {
    fn drop(&mut self) {
        self.0.tell_seeker();
    }
}

impl fmt::Debug for Barrier {
    fn fmt(&self, f: &mut fmt::Formatter<'_>) -> fmt::Result {
        f.debug_struct("Barrier").finish_non_exhaustive()
    }
}
