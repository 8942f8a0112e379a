//! A state of an export: where it lives, and who may be in it.

use std::alloc::{alloc_zeroed, handle_alloc_error, Layout};
use std::cell::UnsafeCell;

use crate::layout::{BufferState, GroupState, SkippedState};

/// States of numbers alone: zero bytes are one.
///
/// # Safety
/// Every pattern of bytes is a value of the type.
pub(crate) unsafe trait Plain {}

// SAFETY: arrays of unsigned numbers, as layout.rs declares them.
unsafe impl Plain for BufferState {}
// SAFETY: as above.
unsafe impl Plain for GroupState {}
// SAFETY: as above.
unsafe impl Plain for SkippedState {}

/// A state on the heap, too large for a stack.
///
/// An export takes `&mut` also where it only reads, so the state lies in a cell: a method with `&self` may hand it out for the time of a
/// call. Nobody else is in it then: a cell is not `Sync`, and no export calls back. It is `Send`, having no pointers.
pub(crate) struct State<T>(Box<UnsafeCell<T>>);

impl<T: Plain> State<T> {
    pub fn zeroed() -> State<T> {
        let layout = Layout::new::<UnsafeCell<T>>();
        // SAFETY: the layout is that of the box's content and not empty; zero bytes are a value of it.
        unsafe {
            let memory = alloc_zeroed(layout).cast::<UnsafeCell<T>>();
            if memory.is_null() {
                handle_alloc_error(layout);
            }
            State(Box::from_raw(memory))
        }
    }

    /// To be handed to one export, and not kept.
    pub fn get(&self) -> *mut T {
        self.0.get()
    }
}

#[cfg(test)]
mod tests {
    use super::*;
    use crate::ffi;

    const MARK: u8 = 0xa5;

    /// A state among other memory.
    #[repr(C)]
    struct Guarded<T> {
        before: [u8; 64],
        state: T,
        after: [u8; 64],
    }

    // SAFETY: bytes beside numbers.
    unsafe impl<T: Plain> Plain for Guarded<T> {}

    /// A set-up writes every byte of a state and none beside it: so the archive's state has the size of ours.
    fn whole<T: Plain>(set_up: impl FnOnce(*mut T) -> u8) {
        let memory = State::<Guarded<T>>::zeroed();
        let size = std::mem::size_of::<T>();
        let all = std::mem::size_of::<Guarded<T>>();
        // SAFETY: the memory is ours and every pattern of bytes is a value of it; set_up takes any memory.
        let bytes = unsafe {
            memory.get().cast::<u8>().write_bytes(MARK, all);
            assert_eq!(set_up(&raw mut (*memory.get()).state), 0);
            std::slice::from_raw_parts(memory.get().cast::<u8>(), all)
        };
        assert!(bytes[..64].iter().all(|b| *b == MARK));
        assert!(bytes[64..64 + size].iter().all(|b| *b != MARK));
        assert!(bytes[64 + size..].iter().all(|b| *b == MARK));
    }

    #[test]
    fn a_set_up_writes_the_state_and_nothing_else() {
        // SAFETY: handed memory of the state's size and alignment.
        unsafe {
            whole(|b| ffi::lintelsong_buffer_set_up(b, 1024, 256));
            whole(|g| ffi::lintelsong_group_set_up(g, 64));
            whole(|s| ffi::lintelsong_skipped_set_up(s));
        }
    }
}
