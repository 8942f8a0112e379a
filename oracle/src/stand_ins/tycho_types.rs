//! Cells and message headers: of a cell only its hash, of a header only its
//! destination and time are ever looked at.

pub mod cell {
    use std::fmt;

    #[derive(Debug, Default, Clone, Copy, PartialEq, Eq, PartialOrd, Ord, Hash)]
    pub struct HashBytes(pub [u8; 32]);

    impl fmt::Display for HashBytes {
        fn fmt(&self, f: &mut fmt::Formatter<'_>) -> fmt::Result {
            self.0.iter().try_for_each(|byte| write!(f, "{byte:02x}"))
        }
    }

    #[derive(Debug, Clone)]
    pub struct Cell {
        hash: HashBytes,
    }

    impl Cell {
        pub fn with_hash(hash: HashBytes) -> Self {
            Self { hash }
        }

        pub fn repr_hash(&self) -> &HashBytes {
            &self.hash
        }
    }
}

pub mod models {
    use super::cell::HashBytes;

    /// The workchain is left out: the original never asks for it.
    #[derive(Debug, Clone)]
    pub struct StdAddr {
        pub address: HashBytes,
    }

    #[derive(Debug, Clone)]
    pub enum IntAddr {
        Std(StdAddr),
        /// Stands for every form that is not standard.
        Var(HashBytes),
    }

    impl IntAddr {
        pub fn as_std(&self) -> Option<&StdAddr> {
            match self {
                Self::Std(addr) => Some(addr),
                Self::Var(_) => None,
            }
        }
    }

    #[derive(Debug, Clone)]
    pub struct IntMsgInfo {
        pub dst: IntAddr,
        pub created_lt: u64,
    }

    #[derive(Debug, Clone)]
    pub struct ExtInMsgInfo {
        pub dst: IntAddr,
    }

    #[derive(Debug, Clone)]
    pub struct ExtOutMsgInfo {
        pub created_lt: u64,
    }

    #[derive(Debug, Clone)]
    pub enum MsgInfo {
        Int(IntMsgInfo),
        ExtIn(ExtInMsgInfo),
        ExtOut(ExtOutMsgInfo),
    }

    impl MsgInfo {
        pub fn is_external_in(&self) -> bool {
            matches!(self, Self::ExtIn(_))
        }
    }
}
