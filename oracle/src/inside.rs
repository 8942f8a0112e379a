// Why this file: the original closes its fields. build.rs puts this text where the
// original looks for its unit tests, so that these readers stand inside its privacy.

use super::*;

/// One slot as the state lines show it.
pub struct SlotView<'a> {
    pub number: u16,
    pub ints: usize,
    pub exts: usize,
    pub accounts: &'a [HashBytes],
}

impl SlotView<'_> {
    pub fn held(&self) -> usize {
        self.ints + self.exts
    }
}

impl MessagesBuffer {
    pub fn ints(&self) -> usize {
        self.int_count
    }

    pub fn exts(&self) -> usize {
        self.ext_count
    }

    pub fn accounts(&self) -> usize {
        self.msgs.len()
    }

    pub fn queue(&self, account: &HashBytes) -> Option<&VecDeque<ParsedMessage>> {
        self.msgs.get(account)
    }

    /// Absent and present at the highest time read alike but are different states.
    pub fn minimum(&self) -> Option<u64> {
        self.min_ext_chain_time
    }

    /// For calls that must panic: they run on this, and the buffer itself stays whole.
    pub fn copy(&self) -> Self {
        let mut copy = Self::default();
        copy.msgs.clone_from(&self.msgs);
        copy.int_count = self.int_count;
        copy.ext_count = self.ext_count;
        copy.min_ext_chain_time = self.min_ext_chain_time;
        copy.tx = self.tx.as_ref().map(copy_of_transaction);
        copy
    }
}

fn copy_of_transaction(tx: &BufferTransaction) -> BufferTransaction {
    BufferTransaction {
        int_count: tx.int_count,
        ext_count: tx.ext_count,
        min_ext_chain_time: tx.min_ext_chain_time,
        order_snapshot: tx.order_snapshot.clone(),
        account_backups: tx.account_backups.clone(),
    }
}

impl MessageGroup {
    pub fn ints(&self) -> usize {
        self.slots_info.int_count
    }

    pub fn exts(&self) -> usize {
        self.slots_info.ext_count
    }

    pub fn last_number(&self) -> Option<u16> {
        self.slots_info.last_slot_id
    }

    /// By rising number.
    pub fn slots(&self) -> impl Iterator<Item = SlotView<'_>> {
        let slots = self.slots_info.slots.iter();
        slots.map(|(number, slot)| slot_view(*number, slot))
    }

    pub fn slot(&self, number: u16) -> Option<SlotView<'_>> {
        let slot = self.slots_info.slots.get(&number);
        slot.map(|slot| slot_view(number, slot))
    }

    /// Bucket c is for slots of count c.
    pub fn buckets(&self) -> &[FastIndexSet<u16>] {
        &self.slots_info.index_by_msgs_count
    }

    pub fn display_line(&self) -> String {
        DisplayMessageGroup(self).to_string()
    }

    pub fn copy(&self) -> Self {
        let info = &self.slots_info;
        let slots = info.slots.iter();
        let mut copied = FastHashMap::default();
        copied.extend(slots.map(|(number, slot)| (*number, copy_of_slot(slot))));
        Self {
            msgs: self.msgs.clone(),
            slots_info: SlotsInfo {
                slots: copied,
                last_slot_id: info.last_slot_id,
                index_by_msgs_count: info.index_by_msgs_count.clone(),
                int_count: info.int_count,
                ext_count: info.ext_count,
            },
        }
    }
}

fn slot_view(number: u16, slot: &SlotInfo) -> SlotView<'_> {
    SlotView {
        number,
        ints: slot.int_count,
        exts: slot.ext_count,
        accounts: &slot.accounts,
    }
}

fn copy_of_slot(slot: &SlotInfo) -> SlotInfo {
    SlotInfo {
        accounts: slot.accounts.clone(),
        int_count: slot.int_count,
        ext_count: slot.ext_count,
    }
}
