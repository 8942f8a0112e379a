//! Small helpers the original takes from elsewhere in its own crate.

use std::fmt;

pub mod processed_upto {
    pub type BlockSeqno = u32;
}

pub trait SaturatingAddAssign {
    fn saturating_add_assign(&mut self, more: Self);
}

impl SaturatingAddAssign for u64 {
    fn saturating_add_assign(&mut self, more: Self) {
        *self = self.saturating_add(more);
    }
}

impl SaturatingAddAssign for usize {
    fn saturating_add_assign(&mut self, more: Self) {
        *self = self.saturating_add(more);
    }
}

/// Prints what an iterator gives as a list.
pub struct DisplayIter<I>(pub I);

impl<I> fmt::Display for DisplayIter<I>
where
    I: Iterator<Item: fmt::Display> + Clone,
{
    fn fmt(&self, f: &mut fmt::Formatter<'_>) -> fmt::Result {
        let items = self.0.clone().map(|item| item.to_string());
        f.debug_list().entries(items).finish()
    }
}

/// The same for items that only have a debug form.
pub struct DebugIter<I>(pub I);

impl<I> fmt::Debug for DebugIter<I>
where
    I: Iterator<Item: fmt::Debug> + Clone,
{
    fn fmt(&self, f: &mut fmt::Formatter<'_>) -> fmt::Result {
        f.debug_list().entries(self.0.clone()).finish()
    }
}
