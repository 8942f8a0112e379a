//! The scenario's message record, and the way to the original's message and back.

use std::sync::Arc;

use crate::cell::{Cell, HashBytes};
use crate::models::{ExtInMsgInfo, ExtOutMsgInfo, IntAddr, IntMsgInfo, MsgInfo, StdAddr};
use crate::original::types::{ParsedMessage, SpecialOrigin};

#[derive(Debug, Clone)]
pub struct Record {
    pub kind: u8,
    pub special: bool,
    pub other: bool,
    pub account: u64,
    pub time: u64,
    pub hash: u64,
}

impl Record {
    /// The queue this record would join.
    pub fn queue(&self) -> HashBytes {
        if self.other {
            HashBytes::default()
        } else {
            bytes(self.account)
        }
    }

    /// None for kinds that no value of the original stands for.
    pub fn message(&self) -> Option<ParsedMessage> {
        let cell = Cell::with_hash(bytes(self.hash));
        if self.special {
            let origin = SpecialOrigin::Mint;
            return Some(ParsedMessage::from_special(self.info()?, cell, origin, 0));
        }
        Some(match self.info()? {
            MsgInfo::Int(info) => ParsedMessage::from_int(info, cell, true, None, None),
            MsgInfo::ExtIn(info) => ParsedMessage::from_ext(info, cell, true, self.time),
            info @ MsgInfo::ExtOut(_) => plain(info, cell),
        })
    }

    fn info(&self) -> Option<MsgInfo> {
        let created_lt = self.time;
        match self.kind {
            0 => Some(MsgInfo::Int(IntMsgInfo {
                dst: self.destination(),
                created_lt,
            })),
            1 => Some(MsgInfo::ExtIn(ExtInMsgInfo {
                dst: self.destination(),
            })),
            2 => Some(MsgInfo::ExtOut(ExtOutMsgInfo { created_lt })),
            _ => None,
        }
    }

    fn destination(&self) -> IntAddr {
        let address = bytes(self.account);
        if self.other {
            IntAddr::Var(address)
        } else {
            IntAddr::Std(StdAddr { address })
        }
    }
}

/// The original makes a message of any header only with a special origin; here that is
/// taken away again, so that add meets one fault and not two.
fn plain(info: MsgInfo, cell: Cell) -> ParsedMessage {
    let special = ParsedMessage::from_special(info, cell, SpecialOrigin::Mint, 0).arc();
    let mut inner = Arc::into_inner(special).expect("nobody else holds it");
    inner.special_origin.take();
    ParsedMessage::from_inner(inner)
}

/// A number as 32 bytes: big-endian in the last 8.
pub fn bytes(number: u64) -> HashBytes {
    let mut bytes = [0; 32];
    bytes[24..].copy_from_slice(&number.to_be_bytes());
    HashBytes(bytes)
}

/// The number that `bytes` was given.
pub fn number(bytes: &HashBytes) -> u64 {
    let mut last = [0; 8];
    last.copy_from_slice(&bytes.0[24..]);
    u64::from_be_bytes(last)
}
