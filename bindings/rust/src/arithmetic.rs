//! The floating-point environment of a call.
//!
//! The proofs of the library speak of IEEE 754 arithmetic that rounds to nearest and keeps subnormal numbers. A thread of x86-64 can have it
//! otherwise by its control register MXCSR: another rounding direction, or subnormal numbers flushed to zero, as a library that was linked
//! with `-ffast-math` sets it for a whole process when it is loaded. A new thread begins with its maker's. So each call of the library is
//! made in here, in the thread that makes it.

use std::arch::asm;
use std::ptr::from_mut;

/// MXCSR's default: round to nearest, keep subnormal numbers, no exception traps and none was raised.
const DEFAULT: u32 = 0x1f80;

/// Work to be done, and what it answered.
struct Job<W, T> {
    work: Option<W>,
    answer: Option<T>,
}

/// Does the work with MXCSR at its default. The whole register comes back as it was found, with the flags of exceptions raised before.
///
/// It is set, the work is called and it is put back in one block of assembly, as Rust asks for (and has deprecated `_mm_setcsr` for): no
/// arithmetic of the caller's can move in between, and none of the work's out.
pub(crate) fn in_default<W: FnOnce() -> T, T>(work: W) -> T {
    let mut job = Job { work: Some(work), answer: None };
    let mut registers = [DEFAULT, 0];
    // SAFETY: `registers` has room for the default and, four bytes further, for what is found. r12, which holds its address, is kept by the
    // function that is called. That is `run` for this very kind of job: it takes the job's address in rdi, cannot unwind, as it is
    // extern "C", and changes what C's convention lets it change. The stack is aligned for a call, since the block does not say nostack.
    unsafe {
        asm!(
            "stmxcsr [r12 + 4]",
            "ldmxcsr [r12]",
            "call {run}",
            "ldmxcsr [r12 + 4]",
            run = sym run::<W, T>,
            in("r12") registers.as_mut_ptr(),
            in("rdi") from_mut(&mut job),
            clobber_abi("C"),
        );
    }
    job.answer.expect("run has left an answer")
}

/// Does the job's work.
extern "C" fn run<W: FnOnce() -> T, T>(job: &mut Job<W, T>) {
    job.answer = job.work.take().map(|work| work());
}
