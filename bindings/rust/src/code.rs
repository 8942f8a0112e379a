//! Why a call refuses.

use std::error::Error;
use std::fmt;

/// The code of a refused call. A refused call changes nothing, and a refused set-up leaves room for one of each.
///
/// The lowest fitting code is given, but a join tests 14, 15 and 12, in this order.
#[derive(Debug, Clone, Copy, PartialEq, Eq, Hash, PartialOrd, Ord)]
#[repr(u8)]
pub enum Code {
    /// Set-up: numbers outside their ranges.
    SetUp = 1,
    /// Add: the special mark is set.
    Special = 2,
    /// Add: the kind is neither internal nor external.
    WrongKind = 3,
    /// Add: the buffer holds as many messages as it has room for.
    Full = 4,
    /// Add: the account has no queue, and the buffer holds as many accounts as it has room for.
    Crowded = 5,
    /// Commit or rollback: no transaction is open.
    NoTransaction = 6,
    /// Begin: a transaction is open.
    InTransaction = 7,
    /// Remove: the queue of a named account holds an external.
    HoldsExternal = 8,
    /// Fill: more slots asked for than the group has room for, or a height above 16.
    TooLarge = 9,
    /// Fill: the key list has fewer rows than the buffer holds internals.
    FewKeys = 10,
    /// Fill: more than 256 skip rows, or more than 512 accounts skipped and rows that say skip.
    ManySkips = 11,
    /// Fill or join: slot numbers are used up.
    NumbersUsedUp = 12,
    /// Fill: a bucket below the height lists a slot that holds more than the height.
    Overfull = 13,
    /// Join: more slots together than the left group has room for.
    ManySlots = 14,
    /// Join: an account is in both groups.
    SharedAccount = 15,
}

impl Code {
    /// All codes, by rising number.
    pub const ALL: [Code; 15] = [
        Code::SetUp,
        Code::Special,
        Code::WrongKind,
        Code::Full,
        Code::Crowded,
        Code::NoTransaction,
        Code::InTransaction,
        Code::HoldsExternal,
        Code::TooLarge,
        Code::FewKeys,
        Code::ManySkips,
        Code::NumbersUsedUp,
        Code::Overfull,
        Code::ManySlots,
        Code::SharedAccount,
    ];

    /// Its number, 1 to 15.
    pub fn number(self) -> u8 {
        self as u8
    }

    /// The code of a number, if it has one: 0 is no refusal.
    pub fn of(number: u8) -> Option<Code> {
        let place = usize::from(number).checked_sub(1)?;
        Code::ALL.get(place).copied()
    }

    fn why(self) -> &'static str {
        match self {
            Code::SetUp => "set-up numbers outside their ranges",
            Code::Special => "the special mark is set",
            Code::WrongKind => "the kind is neither internal nor external",
            Code::Full => "no room for another message",
            Code::Crowded => "no room for another account",
            Code::NoTransaction => "no transaction is open",
            Code::InTransaction => "a transaction is open",
            Code::HoldsExternal => "a named account's queue holds an external",
            Code::TooLarge => "too many slots asked for, or too high",
            Code::FewKeys => "fewer key rows than internals",
            Code::ManySkips => "too many skip rows or skipped accounts",
            Code::NumbersUsedUp => "slot numbers are used up",
            Code::Overfull => "a slot listed below the height holds more than the height",
            Code::ManySlots => "no room for the slots of both groups",
            Code::SharedAccount => "an account is in both groups",
        }
    }
}

impl fmt::Display for Code {
    fn fmt(&self, f: &mut fmt::Formatter<'_>) -> fmt::Result {
        write!(f, "code {}: {}", self.number(), self.why())
    }
}

impl Error for Code {}

/// What a call says by its number. Of every call it is proved that the number is at most 15.
pub(crate) fn answer(number: u8) -> Result<(), Code> {
    match Code::of(number) {
        Some(code) => Err(code),
        None if number == 0 => Ok(()),
        None => unreachable!("a call answered {number}: these are not the archives of this crate"),
    }
}
