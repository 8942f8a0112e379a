//! The original, as build.rs laid it out. It is used in part and not ours to tidy.

#![allow(dead_code, clippy::all)]

include!(concat!(env!("OUT_DIR"), "/original/root.rs"));
