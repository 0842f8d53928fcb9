//! Child module of the timed copy of document 000: the inserted lines call it at the end of each stage.
//!
//! The laps are kept per thread because the solver's serial part stays on the thread that called it; what rayon's threads do for a stage
//! falls within that stage's lap.

use std::cell::RefCell;
use std::sync::OnceLock;
use std::sync::atomic::{AtomicBool, Ordering::Relaxed};
use std::time::{Duration, Instant};

use super::*;

static BY_PROCESSOR: AtomicBool = AtomicBool::new(false);

/// From here on `now` tells the processor time of the thread that asks, for a machine that does other work besides.
pub fn by_processor() {
    BY_PROCESSOR.store(true, Relaxed);
}

#[repr(C)]
struct Timespec {
    seconds: i64,
    nanoseconds: i64,
}

// Linux with 64 bits.
unsafe extern "C" {
    fn clock_gettime(clock: i32, time: *mut Timespec) -> i32;
}

const CLOCK_THREAD_CPUTIME_ID: i32 = 3;

fn processor_time() -> Duration {
    let mut time = Timespec { seconds: 0, nanoseconds: 0 };
    // SAFETY: the record is this function's own.
    let failed = unsafe { clock_gettime(CLOCK_THREAD_CPUTIME_ID, &mut time) };
    assert_eq!(failed, 0, "this thread's processor time cannot be read");
    Duration::new(time.seconds as u64, time.nanoseconds as u32)
}

/// The time since some moment: by the clock, or by the processor of this thread.
pub fn now() -> Duration {
    static BEGUN: OnceLock<Instant> = OnceLock::new();
    if BY_PROCESSOR.load(Relaxed) { processor_time() } else { BEGUN.get_or_init(Instant::now).elapsed() }
}

/// Document 01's number of the stage whose time a lap is. A number stands for all that its comment names.
pub const DEGREES: usize = 1; // degrees, inverse weights, and v0 (3)
pub const EDGES: usize = 2;
pub const START: usize = 4;
pub const FILTER: usize = 5;
pub const NORM: usize = 6; // the norms before and after (11)
pub const DOTS: usize = 7; // both times (9)
pub const SUBTRACT: usize = 8; // both times (10)
pub const WRITE: usize = 12;
pub const PLAIN: usize = 13;
pub const PRODUCTS: usize = 14;
pub const ROTATE: usize = 15; // with the multiplication by the inverse weights
pub const CENTRE: usize = 16; // the sums, and the means subtracted (17)
pub const SCALE: usize = 18; // the squares, and the scaling (19)
/// Symmetrize, Jacobi and the Ritz order: document 01 has them in the closing of the products, which has no number of its own.
pub const RITZ: usize = 0;

/// The laps in the order they ended, each with its stage's number above, and the Ritz values of each round in document 000's order. On the
/// same request the stages come in the same order every time.
#[derive(Clone, Debug, Default)]
pub struct Laps {
    pub laps: Vec<(usize, Duration)>,
    pub ritz: Vec<Vec<f64>>,
}

struct Watch {
    last: Duration,
    laps: Laps,
}

thread_local! {
    static WATCH: RefCell<Watch> = RefCell::new(Watch { last: Duration::ZERO, laps: Laps::default() });
}

/// Hands out the laps of this thread.
pub fn take() -> Laps {
    WATCH.with_borrow_mut(|watch| std::mem::take(&mut watch.laps))
}

pub(super) fn begin() {
    WATCH.with_borrow_mut(|watch| *watch = Watch { last: now(), laps: Laps::default() });
}

pub(super) fn lap(stage: usize) {
    WATCH.with_borrow_mut(|watch| {
        let now = now();
        watch.laps.laps.push((stage, now - watch.last));
        watch.last = now;
    });
}

pub(super) fn on_round<T: Float>(ritz: impl Iterator<Item = T>) {
    let values = ritz.map(|x| x.to_f64().unwrap_or(f64::NAN)).collect();
    WATCH.with_borrow_mut(|watch| watch.laps.ritz.push(values));
}
