//! A call on a stack of our own, painted before: what is no longer paint afterwards was used.

use std::alloc::{alloc, dealloc, handle_alloc_error, Layout};
use std::ffi::{c_int, c_ulong, c_void};
use std::ptr::{null_mut, NonNull};

/// Far more than any call takes.
const SIZE: usize = 1 << 20;
const PAINT: u8 = 0xa5;

/// A pthread_attr_t: 56 bytes on 64-bit targets, and some to spare.
#[repr(C, align(16))]
struct Attributes([u8; 128]);

type Start = extern "C" fn(*mut c_void) -> *mut c_void;

extern "C" {
    fn pthread_attr_init(attributes: *mut Attributes) -> c_int;
    fn pthread_attr_setstack(at: *mut Attributes, lowest: *mut c_void, size: usize) -> c_int;
    fn pthread_attr_destroy(attributes: *mut Attributes) -> c_int;
    fn pthread_create(id: *mut c_ulong, at: *const Attributes, f: Start, job: *mut c_void)
        -> c_int;
    fn pthread_join(id: c_ulong, answer: *mut *mut c_void) -> c_int;
}

/// What a thread is handed, and what it leaves.
struct Job<T, F> {
    call: Option<F>,
    made: Option<T>,
    lowest: NonNull<u8>,
    used: usize,
}

/// The bytes of stack that a call takes, and what it makes. The few hundred that a thread takes to start are the least that it tells.
pub fn run<T: Send, F: FnOnce() -> T + Send>(call: F) -> (u64, T) {
    let layout = Layout::from_size_align(SIZE, 4096).expect("a stack of whole pages");
    // SAFETY: the layout is not empty.
    let Some(lowest) = NonNull::new(unsafe { alloc(layout) }) else {
        handle_alloc_error(layout)
    };
    let mut job = Job {
        call: Some(call),
        made: None,
        lowest,
        used: 0,
    };
    // SAFETY: the memory is of this size and ours; the thread has ended before it is given back.
    unsafe {
        lowest.as_ptr().write_bytes(PAINT, SIZE);
        on_stack(lowest, start::<T, F>, (&raw mut job).cast());
        dealloc(lowest.as_ptr(), layout);
    }
    let made = job.made.expect("the call was made");
    assert!(job.used < SIZE - 4096, "the stack was too small");
    (job.used as u64, made)
}

/// A thread on this stack, from its start to its end.
///
/// # Safety
/// The stack is nobody else's and has SIZE bytes; the function takes the job, which nobody else is in.
unsafe fn on_stack(lowest: NonNull<u8>, function: Start, job: *mut c_void) {
    const MADE: &str = "a thread of our own";
    let mut attributes = Attributes([0; 128]);
    let at = &raw mut attributes;
    let mut id = 0;
    // SAFETY: as the caller says; the attributes are made first and dropped last.
    unsafe {
        assert_eq!(pthread_attr_init(at), 0, "{MADE}");
        let stack = pthread_attr_setstack(at, lowest.as_ptr().cast(), SIZE);
        assert_eq!(stack, 0, "{MADE}");
        assert_eq!(pthread_create(&mut id, at, function, job), 0, "{MADE}");
        assert_eq!(pthread_join(id, null_mut()), 0, "{MADE}");
        pthread_attr_destroy(at);
    }
}

/// Where the thread starts: makes the call and looks how far down the paint is gone.
extern "C" fn start<T, F: FnOnce() -> T>(job: *mut c_void) -> *mut c_void {
    let here = 0_u8;
    let top = (&raw const here).addr();
    // SAFETY: the job that `run` hands over, which waits for this thread to end.
    let job = unsafe { &mut *job.cast::<Job<T, F>>() };
    job.made = job.call.take().map(|call| call());
    // SAFETY: all of it is the stack.
    let bare = (0..SIZE).find(|&i| unsafe { job.lowest.add(i).read_volatile() } != PAINT);
    job.used = bare.map_or(0, |i| top.saturating_sub(job.lowest.addr().get() + i));
    null_mut()
}
