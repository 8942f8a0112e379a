//! The message record and its parts.

/// 32 bytes that name an account.
pub type Account = [u8; 32];

/// 32 bytes that name a message.
pub type Hash = [u8; 32];

/// What a message is, by its kind byte.
#[derive(Debug, Clone, Copy, PartialEq, Eq, Hash)]
pub enum Kind {
    /// Byte 0.
    Internal,
    /// Byte 1: an external that comes in.
    External,
    /// Any other byte, which an add refuses. `Kind::from(byte)` makes it.
    Refused(RefusedKind),
}

/// A kind byte from 2 on.
#[derive(Debug, Clone, Copy, PartialEq, Eq, Hash)]
pub struct RefusedKind(u8);

impl From<u8> for Kind {
    fn from(byte: u8) -> Kind {
        match byte {
            0 => Kind::Internal,
            1 => Kind::External,
            other => Kind::Refused(RefusedKind(other)),
        }
    }
}

impl From<Kind> for u8 {
    fn from(kind: Kind) -> u8 {
        match kind {
            Kind::Internal => 0,
            Kind::External => 1,
            Kind::Refused(RefusedKind(other)) => other,
        }
    }
}

/// The form of a destination.
#[derive(Debug, Clone, Copy, PartialEq, Eq, Hash, Default)]
pub enum Form {
    /// A standard address, whose 32 bytes are the account.
    #[default]
    Standard,
    /// Any other: its account is 32 zero bytes.
    Other,
}

/// A message record.
#[derive(Debug, Clone, Copy, PartialEq, Eq, Hash)]
pub struct Message {
    pub kind: Kind,
    /// An add refuses a message with this mark.
    pub special: bool,
    pub form: Form,
    /// Kept as handed over, also of another form.
    pub address: Account,
    /// created_lt of an internal, the chain time of an external.
    pub time: u64,
    pub hash: Hash,
}

impl Message {
    /// An internal to a standard address.
    pub fn internal(address: Account, time: u64, hash: Hash) -> Message {
        Message {
            kind: Kind::Internal,
            special: false,
            form: Form::Standard,
            address,
            time,
            hash,
        }
    }

    /// An external to a standard address.
    pub fn external(address: Account, time: u64, hash: Hash) -> Message {
        Message {
            kind: Kind::External,
            ..Message::internal(address, time, hash)
        }
    }

    /// The account in whose queue it waits.
    pub fn account(&self) -> Account {
        match self.form {
            Form::Standard => self.address,
            Form::Other => [0; 32],
        }
    }
}

/// The parts of a message as the walks write them: kind, mark, form and time; address; hash.
#[derive(Default)]
pub(crate) struct Parts {
    pub facts: [u64; 4],
    pub address: Account,
    pub hash: Hash,
}

impl Parts {
    pub fn message(self) -> Message {
        let [kind, special, form, time] = self.facts;
        Message {
            // It is proved that what was written is a kind byte.
            kind: Kind::from(kind as u8),
            special: special != 0,
            form: if form == 0 {
                Form::Standard
            } else {
                Form::Other
            },
            address: self.address,
            time,
            hash: self.hash,
        }
    }
}
