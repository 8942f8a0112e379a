//! The states of the exports as the archives lay them out, and checks at compile time that this compiler does the same.
//! Written by tools/walks.py from the structs that the crates export_* declare; the offsets are those that C gives them.

use std::mem::{align_of, offset_of, size_of};

// A state is reached through the exports alone, so no field is ever named but below.
#[repr(C)]
pub struct BufferState {
    owner: [u16; 2048],
    kind: [u8; 2048],
    form: [u8; 2048],
    time: [u64; 2048],
    address: [u8; 65536],
    hash: [u8; 65536],
    accounts: [u8; 16384],
    numbers: [u64; 528],
}

#[repr(C)]
pub struct GroupState {
    number: [u16; 64],
    ints: [u8; 64],
    exts: [u8; 64],
    accounts: [u8; 32768],
    home: [u8; 1024],
    owner: [u16; 1024],
    kind: [u8; 1024],
    form: [u8; 1024],
    time: [u64; 1024],
    address: [u8; 32768],
    hash: [u8; 32768],
    buckets: [u32; 1088],
    numbers: [u64; 16],
}

#[repr(C)]
pub struct SkippedState {
    accounts: [u8; 16384],
    held: usize,
}

const _: () = assert!(size_of::<usize>() == 8);
const _: () = assert!(size_of::<BufferState>() == 176256);
const _: () = assert!(align_of::<BufferState>() == 8);
const _: () = assert!(offset_of!(BufferState, owner) == 0);
const _: () = assert!(offset_of!(BufferState, kind) == 4096);
const _: () = assert!(offset_of!(BufferState, form) == 6144);
const _: () = assert!(offset_of!(BufferState, time) == 8192);
const _: () = assert!(offset_of!(BufferState, address) == 24576);
const _: () = assert!(offset_of!(BufferState, hash) == 90112);
const _: () = assert!(offset_of!(BufferState, accounts) == 155648);
const _: () = assert!(offset_of!(BufferState, numbers) == 172032);
const _: () = assert!(size_of::<GroupState>() == 116352);
const _: () = assert!(align_of::<GroupState>() == 8);
const _: () = assert!(offset_of!(GroupState, number) == 0);
const _: () = assert!(offset_of!(GroupState, ints) == 128);
const _: () = assert!(offset_of!(GroupState, exts) == 192);
const _: () = assert!(offset_of!(GroupState, accounts) == 256);
const _: () = assert!(offset_of!(GroupState, home) == 33024);
const _: () = assert!(offset_of!(GroupState, owner) == 34048);
const _: () = assert!(offset_of!(GroupState, kind) == 36096);
const _: () = assert!(offset_of!(GroupState, form) == 37120);
const _: () = assert!(offset_of!(GroupState, time) == 38144);
const _: () = assert!(offset_of!(GroupState, address) == 46336);
const _: () = assert!(offset_of!(GroupState, hash) == 79104);
const _: () = assert!(offset_of!(GroupState, buckets) == 111872);
const _: () = assert!(offset_of!(GroupState, numbers) == 116224);
const _: () = assert!(size_of::<SkippedState>() == 16392);
const _: () = assert!(align_of::<SkippedState>() == 8);
const _: () = assert!(offset_of!(SkippedState, accounts) == 0);
const _: () = assert!(offset_of!(SkippedState, held) == 16384);
