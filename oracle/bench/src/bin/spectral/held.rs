//! The held run: by several threads at once, and by one with a clock beside each call.

use crate::library::{Counts, Lists, Params, State, chunk_count};
use judge::clock::now;
use std::cell::UnsafeCell;
use std::sync::atomic::{AtomicUsize, Ordering::*};
use std::time::Duration;

/// A stage that threads work on together. Whoever finishes last closes it and lets the others go on.
struct Stage {
    state: UnsafeCell<State>,
    /// The next chunk that nobody has taken.
    next: AtomicUsize,
    finished: AtomicUsize,
    /// How many stages are closed.
    closed: AtomicUsize,
}

// SAFETY: the state is written only by the thread that finished last, while the others wait for `closed`, and read after that.
unsafe impl Sync for Stage {}

impl Stage {
    /// Takes chunks until none is left.
    fn take_chunks(&self, lists: &Lists, chunks: usize) {
        loop {
            let number = self.next.fetch_add(1, Relaxed);
            if number >= chunks {
                return;
            }
            // SAFETY: each number is taken once in a stage, and nobody closes before every taker has finished. What chunks of one stage
            // read none of them writes: `reads_own` and `writes_own` of crates/threads.
            unsafe { lists.chunk(&*self.state.get(), number) };
        }
    }

    /// Ends this thread's part of the stage, and returns when the stage is closed.
    fn finish(&self, lists: &Lists, threads: usize) {
        let closed = self.closed.load(Acquire);
        if self.finished.fetch_add(1, AcqRel) + 1 == threads {
            // SAFETY: every other thread has finished its chunks and waits.
            unsafe {
                let state = self.state.get();
                *state = lists.close(&*state);
            }
            self.finished.store(0, Relaxed);
            self.next.store(0, Relaxed);
            self.closed.store(closed + 1, Release);
            return;
        }
        let mut turns = 0;
        while self.closed.load(Acquire) == closed {
            turns += 1;
            if turns < 4_000 { std::hint::spin_loop() } else { std::thread::yield_now() }
        }
    }

    fn work(&self, lists: &Lists, chunks: usize, threads: usize) {
        // SAFETY: the state changes only within `finish`, and this thread's has returned.
        while unsafe { (*self.state.get()).is_open() } {
            self.take_chunks(lists, chunks);
            self.finish(lists, threads);
        }
    }
}

/// A whole run by that many threads, or by one a chunk if there are fewer chunks.
pub fn by_threads(d: usize, params: Params, rows: usize, lists: &Lists, threads: usize) -> Counts {
    let chunks = chunk_count(rows);
    let threads = threads.min(chunks);
    let stage = Stage {
        state: UnsafeCell::new(lists.open(d, params)),
        next: AtomicUsize::new(0),
        finished: AtomicUsize::new(0),
        closed: AtomicUsize::new(0),
    };
    std::thread::scope(|scope| {
        for _ in 1..threads {
            scope.spawn(|| stage.work(lists, chunks, threads));
        }
        stage.work(lists, chunks, threads);
    });
    stage.state.into_inner().counts
}

/// What of a stage was timed.
#[derive(Clone, Copy, PartialEq)]
pub enum Part {
    Opening,
    Chunks(usize),
    Closing(usize),
}

/// A whole run by one thread, call by call: how long each part took.
pub fn timed(d: usize, params: Params, rows: usize, lists: &Lists) -> Vec<(Part, Duration)> {
    let chunks = chunk_count(rows);
    let mut spent = Vec::new();
    let mut last = now();
    let mut lap = |part: Part| {
        let read = now();
        spent.push((part, read - last));
        last = read;
    };
    let mut state = lists.open(d, params);
    lap(Part::Opening);
    while state.is_open() {
        let stage = state.progress.stage;
        // SAFETY: this thread alone calls.
        (0..chunks).for_each(|h| unsafe { lists.chunk(&state, h) });
        lap(Part::Chunks(stage));
        // SAFETY: as above.
        state = unsafe { lists.close(&state) };
        lap(Part::Closing(stage));
    }
    spent
}
