//! What is measured besides time: what the Rust asks of its allocator, and how deep the library's stack goes.

use std::alloc::{GlobalAlloc, Layout, System};
use std::ffi::{c_int, c_void};
use std::sync::atomic::{AtomicBool, AtomicIsize, Ordering::Relaxed};

/// The system's allocator, which counts while it is told to: counting costs a little time.
struct Counting;

static COUNTS: AtomicBool = AtomicBool::new(false);
static LIVE: AtomicIsize = AtomicIsize::new(0);
static PEAK: AtomicIsize = AtomicIsize::new(0);

fn add(bytes: isize) {
    if COUNTS.load(Relaxed) {
        let live = LIVE.fetch_add(bytes, Relaxed) + bytes;
        PEAK.fetch_max(live, Relaxed);
    }
}

// SAFETY: every call is the system allocator's.
unsafe impl GlobalAlloc for Counting {
    unsafe fn alloc(&self, layout: Layout) -> *mut u8 {
        add(layout.size() as isize);
        unsafe { System.alloc(layout) }
    }

    unsafe fn alloc_zeroed(&self, layout: Layout) -> *mut u8 {
        add(layout.size() as isize);
        unsafe { System.alloc_zeroed(layout) }
    }

    unsafe fn dealloc(&self, address: *mut u8, layout: Layout) {
        add(-(layout.size() as isize));
        unsafe { System.dealloc(address, layout) }
    }

    unsafe fn realloc(&self, address: *mut u8, layout: Layout, size: usize) -> *mut u8 {
        // The old memory and the new one may be there together; the system moves large ones in place.
        add(size as isize - layout.size() as isize);
        unsafe { System.realloc(address, layout, size) }
    }
}

#[global_allocator]
static ALLOCATOR: Counting = Counting;

/// The most bytes that were allocated at once during the work, beside those from before it; 0 where they are not to be counted.
pub fn peak_if<R>(counted: bool, work: impl FnOnce() -> R) -> (R, usize) {
    LIVE.store(0, Relaxed);
    PEAK.store(0, Relaxed);
    COUNTS.store(counted, Relaxed);
    let result = work();
    COUNTS.store(false, Relaxed);
    (result, PEAK.load(Relaxed).max(0) as usize)
}

// glibc's, on x86-64: an attribute record has 56 bytes, a thread is a number.
unsafe extern "C" {
    fn pthread_attr_init(attributes: *mut [u64; 7]) -> c_int;
    fn pthread_attr_setstack(attributes: *mut [u64; 7], lowest: *mut c_void, size: usize) -> c_int;
    fn pthread_attr_destroy(attributes: *mut [u64; 7]) -> c_int;
    fn pthread_create(
        thread: *mut u64,
        attributes: *const [u64; 7],
        work: extern "C" fn(*mut c_void) -> *mut c_void,
        word: *mut c_void,
    ) -> c_int;
    fn pthread_join(thread: u64, answer: *mut *mut c_void) -> c_int;
}

const STACK: usize = 1 << 20;
const PAINT: u64 = 0x5041_494E_5445_4421;

extern "C" fn call(word: *mut c_void) -> *mut c_void {
    // SAFETY: `depth_of` passes the address of a closure that outlives the thread.
    let work = unsafe { &mut *word.cast::<&mut dyn FnMut()>() };
    work();
    std::ptr::null_mut()
}

/// How many bytes of a painted stack a thread writes over when it does the work; the thread's own are among them.
fn depth_of(mut work: &mut dyn FnMut()) -> usize {
    let mut stack = vec![[PAINT; 512]; STACK / 4096];
    let mut attributes = [0; 7];
    let (mut thread, mut answer) = (0, std::ptr::null_mut());
    // SAFETY: the stack, the attributes and the closure live until the thread is joined.
    unsafe {
        assert_eq!(pthread_attr_init(&mut attributes), 0);
        assert_eq!(pthread_attr_setstack(&mut attributes, stack.as_mut_ptr().cast(), STACK), 0);
        assert_eq!(pthread_create(&mut thread, &attributes, call, (&raw mut work).cast()), 0);
        assert_eq!(pthread_join(thread, &mut answer), 0);
        pthread_attr_destroy(&mut attributes);
    }
    let whole = stack.as_flattened();
    let painted = whole.iter().take_while(|&&word| word == PAINT).count();
    assert!(painted > 0, "the stack of {STACK} bytes was too small");
    8 * (whole.len() - painted)
}

/// How many bytes of stack the work takes.
pub fn stack_of(mut work: impl FnMut()) -> usize {
    depth_of(&mut work).saturating_sub(depth_of(&mut || {}))
}
