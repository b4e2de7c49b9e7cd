//! Threads with a task each, which end before their scope does.
use crate::answers::{Mode, Refusal};
use crate::phaser::{Phaser, Task};
use std::cell::RefCell;
use std::fmt;
use std::thread::{self, ScopedJoinHandle};

/// Where threads are started with a task each: what [`Phaser::scope`] lends to its body.
///
/// ```
/// use paldwosk::{Mode, Phaser, Refusal};
/// use std::sync::atomic::{AtomicU32, Ordering::Relaxed};
///
/// # fn main() -> Result<(), Refusal> {
/// let (came, phaser) = (AtomicU32::new(0), Phaser::new(2, &[])?);
/// phaser.scope(|scope| {
///     for _ in 0..3 {
///         scope.spawn(Mode::SigWait, |mut task| {
///             came.fetch_add(1, Relaxed);
///             assert_eq!(task.next(), Ok(0));
///             assert_eq!(came.load(Relaxed), 3); // nobody goes on before all have come
///         })?;
///     }
///     Ok(())
/// })?;
/// # Ok(())
/// # }
/// ```
pub struct Scope<'scope, 'env: 'scope> {
    threads: &'scope thread::Scope<'scope, 'env>,
    /// The task by which the others join, until it leaves.
    maker: RefCell<Option<Task>>,
}

impl<'scope> Scope<'scope, '_> {
    /// Starts a thread that runs `body`, with a new task in this mode. The task begins in phase 0, and leaves when `body`
    /// drops it, also by a panic.
    ///
    /// `RegsFull` if there are 255 others; `NotRegistered` after [`leave`](Scope::leave) or a
    /// [`join`](ScopedThread::join); `HistoryFull`. Then no thread is started.
    ///
    /// # Panics
    ///
    /// If the system starts no thread, as [`std::thread::spawn`] does.
    ///
    /// ```
    /// # use paldwosk::{Mode, Phaser, Refusal};
    /// # fn main() -> Result<(), Refusal> {
    /// let phases = Phaser::new(2, &[])?.scope(|scope| {
    ///     let one = scope.spawn(Mode::SigWait, |mut task| task.next())?;
    ///     let other = scope.spawn(Mode::SigWait, |mut task| task.next())?;
    ///     Ok([one.join().unwrap()?, other.join().unwrap()?])
    /// })?;
    /// assert_eq!(phases, [0, 0]);
    /// # Ok(())
    /// # }
    /// ```
    pub fn spawn<T: Send + 'scope>(
        &self,
        mode: Mode,
        body: impl FnOnce(Task) -> T + Send + 'scope,
    ) -> Result<ScopedThread<'_, 'scope, T>, Refusal> {
        let task = self.maker.borrow_mut().as_mut().ok_or(Refusal::NotRegistered)?.join(mode)?;
        Ok(ScopedThread { thread: self.threads.spawn(move || body(task)), maker: &self.maker })
    }

    /// The maker's task leaves, so that phases end from now on. Call it if the body has other work to do once all threads are
    /// started, such as to receive what they send. The end of the body does the same.
    ///
    /// ```
    /// # use paldwosk::{Mode, Phaser, Refusal};
    /// # use std::sync::mpsc::channel;
    /// # fn main() -> Result<(), Refusal> {
    /// let (gives, given) = channel();
    /// Phaser::new(2, &[])?.scope(|scope| {
    ///     scope.spawn(Mode::SigWait, move |mut task| gives.send(task.next()))?;
    ///     scope.leave();
    ///     assert_eq!(given.recv().unwrap(), Ok(0));
    ///     Ok(())
    /// })?;
    /// # Ok(())
    /// # }
    /// ```
    pub fn leave(&self) {
        drop(self.maker.take());
    }
}

impl fmt::Debug for Scope<'_, '_> {
    fn fmt(&self, f: &mut fmt::Formatter<'_>) -> fmt::Result {
        f.debug_struct("Scope").finish_non_exhaustive()
    }
}

/// A thread of a [`Scope`]. The scope joins it, also if this is dropped.
///
/// ```
/// use paldwosk::{Mode, Phaser, Refusal};
///
/// # fn main() -> Result<(), Refusal> {
/// Phaser::new(2, &[])?.scope(|scope| {
///     let waits = scope.spawn(Mode::SigWait, |mut task| task.next())?;
///     let panics = scope.spawn(Mode::SigWait, |_task| panic!("its task leaves"))?;
///     assert!(panics.join().is_err());
///     assert_eq!(waits.join().unwrap(), Ok(0));
///     Ok(())
/// })?;
/// # Ok(())
/// # }
/// ```
pub struct ScopedThread<'a, 'scope, T> {
    thread: ScopedJoinHandle<'scope, T>,
    maker: &'a RefCell<Option<Task>>,
}

impl<T> ScopedThread<'_, '_, T> {
    /// Waits for the end of the thread: what it returned, or what it panicked with. The maker's task leaves first, else a thread
    /// that waits would never end.
    pub fn join(self) -> thread::Result<T> {
        drop(self.maker.take());
        self.thread.join()
    }
}

impl<T> fmt::Debug for ScopedThread<'_, '_, T> {
    fn fmt(&self, f: &mut fmt::Formatter<'_>) -> fmt::Result {
        f.debug_struct("ScopedThread").finish_non_exhaustive()
    }
}

impl Phaser {
    /// Makes the phaser, lends `body` a [`Scope`] in which it starts threads with a task each, and joins all of them. The
    /// threads may borrow what lives longer than the scope. Returns what `body` does.
    ///
    /// The maker's own task, of mode `Single` and number 0, is there for the others to join by. It leaves when `body` ends, or
    /// joins a thread, or panics. No phase ends before, so all threads have phase 0 in common. `NotNow` if the phaser was made
    /// before; then `body` isn't run.
    ///
    /// # Panics
    ///
    /// If `body` panics, or a thread does that `body` didn't join; all threads have ended then. A task leaves by a panic, so
    /// the others go on.
    ///
    /// ```
    /// use paldwosk::{Look, Mode, Operator, Phaser, Refusal};
    ///
    /// fn main() -> Result<(), Refusal> {
    ///     let phaser = Phaser::new(2, &[Operator::Sum])?;
    ///     phaser.scope(|scope| {
    ///         for value in 1..=4 {
    ///             scope.spawn(Mode::SigWait, move |mut task| {
    ///                 task.send(0, value).unwrap();
    ///                 task.next().unwrap(); // waits for all four
    ///                 assert_eq!(task.look(0), Ok(Look::Value(1 + 2 + 3 + 4)));
    ///             })?;
    ///         }
    ///         Ok(())
    ///     })
    /// }
    /// ```
    pub fn scope<'env, T>(
        &self,
        body: impl for<'scope> FnOnce(&Scope<'scope, 'env>) -> Result<T, Refusal>,
    ) -> Result<T, Refusal> {
        let maker = self.make(Mode::Single)?;
        // The scope is dropped with the maker's task before std joins the threads, also if the body panics.
        thread::scope(|threads| body(&Scope { threads, maker: RefCell::new(Some(maker)) }))
    }
}
