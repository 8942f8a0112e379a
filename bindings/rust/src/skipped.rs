//! The set of accounts that fills pass over.

use std::fmt;

use crate::ffi;
use crate::layout::SkippedState;
use crate::message::Account;
use crate::state::State;

/// A set of at most 512 accounts. Fills add to it the accounts whose skip rows say skip, and pass over those that it holds.
pub struct Skipped(State<SkippedState>);

impl Skipped {
    /// A set of no accounts.
    pub fn new() -> Skipped {
        let mut skipped = Skipped(State::zeroed());
        skipped.clear();
        skipped
    }

    /// Forgets all accounts.
    pub fn clear(&mut self) {
        // SAFETY: set_up takes any memory of a state's size, and nobody else is in it. Its answer is always 0.
        unsafe { ffi::lintelsong_skipped_set_up(self.state()) };
    }

    /// The state, for one call. It was set up before anybody could have it: `new` gives it out only after.
    pub(crate) fn state(&self) -> *mut SkippedState {
        self.0.get()
    }

    /// How many accounts it holds.
    pub fn len(&self) -> u64 {
        // SAFETY: the state is set up, and in a cell that no other thread sees: nobody else is in it.
        unsafe { ffi::lintelsong_skipped_len(self.state()) }
    }

    pub fn is_empty(&self) -> bool {
        self.len() == 0
    }

    pub fn contains(&self, account: &Account) -> bool {
        // SAFETY: as above.
        unsafe { ffi::lintelsong_skipped_contains(self.state(), account) != 0 }
    }

    /// The account at a position, in the order in which they joined.
    pub fn account_at(&self, position: u64) -> Option<Account> {
        let mut out = [0; 32];
        // SAFETY: as above.
        let found = unsafe { ffi::lintelsong_skipped_account_at(self.state(), &mut out, position) };
        (found != 0).then_some(out)
    }

    /// Its accounts, in the order in which they joined.
    pub fn accounts(&self) -> impl Iterator<Item = Account> + '_ {
        (0..).map_while(|position| self.account_at(position))
    }
}

impl Default for Skipped {
    fn default() -> Skipped {
        Skipped::new()
    }
}

impl fmt::Debug for Skipped {
    fn fmt(&self, f: &mut fmt::Formatter<'_>) -> fmt::Result {
        f.debug_set().entries(self.accounts()).finish()
    }
}
