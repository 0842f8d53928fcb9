//! A run driven to its end by several threads.
//!
//! Why this is allowed. The laws of crates/threads (`own-once`, `writes_own`, `reads_own`, and `call_writes_own` and `call_reads_own` for a
//! whole call) show: no place of a lent list is written by two chunks of a stage, and whatever stands at the places that other chunks of
//! the stage write, a chunk call answers the same and leaves the same at its own places. They rest on a sound state and on row starts that
//! never fall. An accepted opening has shown both; for a loaded run `Run::load` has tested that the library takes the state, and that the
//! starts never fall.
//!
//! What they do not show, and what is seen to here: one chunk is never called by two threads at once (the board hands each number out
//! once), and no chunk call runs beside a closing (the driving thread closes alone, after every chunk that was handed out has come back).
//! Nor do they show which loads the compiled code makes: they are about what a call's result depends on. That the bits are the same for
//! any number of threads is tried by the script same_bits. Each thread makes its calls in the default floating-point environment
//! (src/arithmetic.rs), whatever it has from the thread that started it.

use std::ops::ControlFlow;
use std::sync::{Condvar, Mutex, MutexGuard, PoisonError};
use std::thread;

use crate::ffi::State;
use crate::memory::Lists;
use crate::{Progress, Refusal, Run};

/// Why a drive came back.
#[derive(Clone, Copy, Debug, PartialEq, Eq)]
pub enum Driven {
    /// The run has ended.
    Ended,
    /// `on_progress` asked to stop; the run stands before a stage and may be saved, or driven on.
    Stopped,
}

impl Run<'_> {
    /// Does the rest of the run with so many threads, this one among them: the same seed, state and memory as with one. 0 is taken for
    /// 1, and there are never more threads than chunks. With one thread, or one chunk, no thread is started.
    ///
    /// After each closed stage `on_progress` is called, from this thread; it may ask to stop by `ControlFlow::Break(())`. Should it panic,
    /// the threads end, and the run stands where a stop would have left it.
    ///
    /// A run that was opened here meets no refusal. A forged save may meet 16.
    ///
    /// ```
    /// use std::ops::ControlFlow;
    /// use threshcinch::{Driven, Graph, Params, Run};
    /// let graph = Graph::new(&[0, 1, 2], &[1, 0], &[1.0, 1.0]);
    /// let mut run = Run::open(&graph, 1, Params::new())?;
    /// let driven = run.drive(2, |progress| {
    ///     eprintln!("{} of about {}", progress.accepted, progress.accepted + progress.owed);
    ///     ControlFlow::Continue(())
    /// })?;
    /// assert_eq!(driven, Driven::Ended);
    /// # Ok::<(), threshcinch::Refusal>(())
    /// ```
    pub fn drive(&mut self, threads: usize, on_progress: impl FnMut(Progress) -> ControlFlow<()>) -> Result<Driven, Refusal> {
        let helpers = threads.min(self.chunk_count()).saturating_sub(1);
        if helpers == 0 {
            return self.stages(Run::stage_alone, on_progress);
        }
        let board = Board::new(self);
        thread::scope(|scope| {
            // Dropped before the scope waits for its threads, also where on_progress panics: they would wait for ever.
            let _dismiss = Dismiss(&board);
            for _ in 0..helpers {
                // A machine that starts no more threads gets the work done with those that it has.
                let _ = thread::Builder::new().spawn_scoped(scope, || board.help());
            }
            self.stages(|run| board.stage(run), on_progress)
        })
    }

    /// Stage after stage: its chunks by `stage`, then closing, then a word to the caller.
    fn stages(
        &mut self,
        mut stage: impl FnMut(&mut Self) -> Result<(), Refusal>,
        mut on_progress: impl FnMut(Progress) -> ControlFlow<()>,
    ) -> Result<Driven, Refusal> {
        while self.is_open() {
            stage(self)?;
            self.close()?;
            if on_progress(self.progress()).is_break() {
                return Ok(Driven::Stopped);
            }
        }
        Ok(Driven::Ended)
    }

    fn stage_alone(&mut self) -> Result<(), Refusal> {
        self.chunks_left().into_iter().try_for_each(|number| self.chunk(number))
    }
}

/// Where the driving thread lays out the chunks of a stage, and every thread takes one when it is free. Threads live for the whole drive,
/// as stages are many and short. A board and not a barrier: a barrier would wait at each stage for threads that found no chunk left.
struct Board {
    turn: Mutex<Turn>,
    laid_out: Condvar,
    all_back: Condvar,
}

/// The stage at hand.
struct Turn {
    lists: Lists,
    state: State,
    /// Chunks that nobody has taken, the next one last.
    chunks: Vec<usize>,
    /// Chunks that were taken and have not come back.
    taken: usize,
    /// The first refusal that a chunk met.
    refused: Option<Refusal>,
    /// No stage will follow.
    over: bool,
}

/// A chunk to be done.
struct Task {
    lists: Lists,
    state: State,
    number: usize,
}

impl Board {
    /// A board with nothing on it.
    fn new(run: &mut Run<'_>) -> Board {
        let turn = Turn { lists: run.lists(), state: *run.state(), chunks: Vec::new(), taken: 0, refused: None, over: false };
        Board { turn: Mutex::new(turn), laid_out: Condvar::new(), all_back: Condvar::new() }
    }

    /// The driving thread's part of a stage: lays its chunks out, does what it gets of them, and waits for the rest. When it is back
    /// nobody holds a chunk, so that the run is the driving thread's alone again.
    fn stage(&self, run: &mut Run<'_>) -> Result<(), Refusal> {
        self.lay_out(run);
        while let Some(task) = self.task() {
            self.do_task(task);
        }
        self.wait_for_all()
    }

    /// Another thread's part of a whole drive.
    fn help(&self) {
        while let Some(task) = self.wait_for_task() {
            self.do_task(task);
        }
    }

    fn lay_out(&self, run: &mut Run<'_>) {
        let mut chunks = run.chunks_left();
        chunks.reverse();
        let mut turn = self.lock();
        turn.lists = run.lists();
        turn.state = *run.state();
        turn.chunks = chunks;
        self.laid_out.notify_all();
    }

    /// Does a chunk that this thread has taken, and gives it back.
    fn do_task(&self, task: Task) {
        // SAFETY: the laws of crates/threads (above) let chunk calls of one stage run at once if each has another number: this one left the
        // board for this task alone. The driving thread is in `stage` with the run borrowed, and leaves it only when this task is back: so
        // the lists stay where they are, nothing else touches them, and closing happens alone, afterwards.
        let answer = unsafe { task.lists.chunk(&task.state, task.number) };
        let mut turn = self.lock();
        if let Err(refusal) = Refusal::check(answer.verdict) {
            // No more chunks are handed out; those that are out come back first.
            turn.refused.get_or_insert(refusal);
            turn.chunks.clear();
        }
        turn.taken -= 1;
        if turn.taken == 0 && turn.chunks.is_empty() {
            self.all_back.notify_one();
        }
    }

    /// A function of its own, as a lock taken in a loop's head would be held in its body.
    fn task(&self) -> Option<Task> {
        self.lock().next_task()
    }

    fn wait_for_task(&self) -> Option<Task> {
        let idle = |turn: &mut Turn| turn.chunks.is_empty() && !turn.over;
        let mut turn = self.laid_out.wait_while(self.lock(), idle).unwrap_or_else(PoisonError::into_inner);
        turn.next_task()
    }

    fn wait_for_all(&self) -> Result<(), Refusal> {
        let mut turn = self.all_back.wait_while(self.lock(), |turn| turn.taken != 0).unwrap_or_else(PoisonError::into_inner);
        match turn.refused.take() {
            Some(refusal) => Err(refusal),
            None => Ok(()),
        }
    }

    /// Nothing panics with the board locked, so a poisoned lock holds what a sound one does.
    fn lock(&self) -> MutexGuard<'_, Turn> {
        self.turn.lock().unwrap_or_else(PoisonError::into_inner)
    }
}

impl Turn {
    fn next_task(&mut self) -> Option<Task> {
        let number = self.chunks.pop()?;
        self.taken += 1;
        Some(Task { lists: self.lists, state: self.state, number })
    }
}

/// Sends the other threads home when it goes.
struct Dismiss<'a>(&'a Board);

impl Drop for Dismiss<'_> {
    fn drop(&mut self) {
        self.0.lock().over = true;
        self.0.laid_out.notify_all();
    }
}
