//! The key under which an internal message waits in the outer queue.

pub mod queue {
    use crate::cell::HashBytes;

    #[derive(Debug, Clone, Copy, PartialEq, Eq)]
    pub struct QueueKey {
        pub lt: u64,
        pub hash: HashBytes,
    }
}
