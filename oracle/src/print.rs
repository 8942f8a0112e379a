//! Prints answers and the state, byte for byte as the scenario language lays them out.

use crate::cell::HashBytes;
use crate::harness::{Answer, Group, World};
use crate::models::MsgInfo;
use crate::original::types::ParsedMessage;
use crate::queue::QueueKey;
use crate::record;
use crate::transactional::Transactional;

/// Bytes to be written out. States are long, so numbers are printed by hand.
#[derive(Default)]
pub struct Page(pub Vec<u8>);

impl Page {
    pub fn text(&mut self, text: &str) -> &mut Self {
        self.0.extend_from_slice(text.as_bytes());
        self
    }

    pub fn number(&mut self, mut number: u64) -> &mut Self {
        let mut digits = [0; 20];
        let mut from = digits.len();
        loop {
            from -= 1;
            digits[from] = b'0' + (number % 10) as u8;
            number /= 10;
            if number == 0 {
                break;
            }
        }
        self.0.extend_from_slice(&digits[from..]);
        self
    }

    fn count(&mut self, count: usize) -> &mut Self {
        self.number(count as u64)
    }

    fn flag(&mut self, flag: bool) -> &mut Self {
        self.number(u64::from(flag))
    }

    fn account(&mut self, account: &HashBytes) -> &mut Self {
        self.number(record::number(account))
    }

    pub fn echo(&mut self, line: &[u8]) {
        self.text("> ").0.extend_from_slice(line);
        self.text("\n");
    }

    pub fn bad_line(&mut self, number: u64) {
        self.text("bad line ").number(number).text("\n");
    }

    /// Items with something between each two.
    fn list<T>(
        &mut self,
        between: &str,
        items: impl IntoIterator<Item = T>,
        mut item: impl FnMut(&mut Self, T),
    ) -> &mut Self {
        for (place, each) in items.into_iter().enumerate() {
            if place > 0 {
                self.text(between);
            }
            item(self, each);
        }
        self
    }

    pub fn answer(&mut self, answer: &Answer) {
        match answer {
            Answer::Code(code) => self.text("code ").number(u64::from(*code)),
            Answer::Fill {
                code,
                collected,
                ops,
                dropped,
            } => {
                self.text("code ").number(u64::from(*code));
                self.text(" collected ").number(*collected);
                self.text(" ops ").number(*ops);
                self.text(" dropped ").number(*dropped)
            }
            Answer::IsFilled(filled) => self.text("filled ").flag(*filled),
            Answer::Full { by_count, by_slots } => {
                self.text("full ").flag(*by_count);
                self.text(" canfill ").flag(*by_slots)
            }
            Answer::Display(line) => self.text(line),
        };
        self.text("\n");
    }

    pub fn state(&mut self, world: &World) {
        self.buffer(world);
        for (place, group) in world.groups.iter().enumerate() {
            self.group_line(place, group);
            self.group(group);
        }
        let mut skipped: Vec<_> = world.set.iter().collect();
        skipped.sort_unstable();
        self.text("skipped [");
        self.list(", ", skipped, |page, account| {
            page.account(account);
        });
        self.text("]\n");
        self.keys(&world.keys);
    }

    fn buffer(&mut self, world: &World) {
        let buffer = &world.buffer;
        self.text("buffer M=").number(world.room.messages);
        self.text(" A=").number(world.room.accounts);
        self.text(" int=").count(buffer.ints());
        self.text(" ext=").count(buffer.exts());
        self.text(" accounts=").count(buffer.accounts());
        self.text(" min=").number(buffer.min_ext_chain_time());
        self.text(" marked=").flag(buffer.minimum().is_some());
        self.text(" tx=").flag(buffer.in_tx()).text("\n");
        for (account, queue) in buffer.iter() {
            self.text("  queue ").account(account).text(" = ");
            self.messages(queue);
        }
    }

    fn group_line(&mut self, place: usize, group: &Group) {
        self.text("group ").count(place);
        self.text(" S=").number(group.slots);
        self.text(" int=").count(group.group.ints());
        self.text(" ext=").count(group.group.exts());
        self.text(" accounts=").count(group.group.accounts_count());
        self.text(" slots=").count(group.group.len()).text(" last=");
        match group.group.last_number() {
            Some(number) => self.number(u64::from(number)),
            None => self.text("-"),
        };
        self.text("\n");
    }

    fn group(&mut self, group: &Group) {
        for slot in group.group.slots() {
            self.text("  slot ").number(u64::from(slot.number));
            self.text(" int=").count(slot.ints);
            self.text(" ext=").count(slot.exts).text(" accounts ");
            self.list(" ", slot.accounts, |page, account| {
                page.account(account);
            });
            self.text("\n");
        }
        for (count, bucket) in group.group.buckets().iter().enumerate() {
            if !bucket.is_empty() {
                self.text("  bucket ").count(count).text(" = ");
                self.list(" ", bucket, |page, number| {
                    page.number(u64::from(*number));
                });
                self.text("\n");
            }
        }
        for (account, list) in group.group.msgs().iter() {
            self.text("  list ").account(account).text(" = ");
            self.messages(list);
        }
    }

    fn messages<'a>(&mut self, messages: impl IntoIterator<Item = &'a ParsedMessage>) {
        self.list(" ", messages, Self::message).text("\n");
    }

    fn message(&mut self, message: &ParsedMessage) {
        match message.info() {
            MsgInfo::Int(info) => self.text("0:").number(info.created_lt),
            _ => self
                .text("1:")
                .number(message.ext_msg_chain_time().unwrap_or(0)),
        };
        self.text(":").account(message.cell().repr_hash());
    }

    fn keys(&mut self, keys: &[QueueKey]) {
        let zero = |key: &QueueKey| key.lt == 0 && key.hash == HashBytes::default();
        let shown = keys
            .iter()
            .rposition(|key| !zero(key))
            .map_or(0, |last| last + 1);
        self.text("keys ").count(keys.len()).text(" = ");
        self.list(" ", &keys[..shown], |page, key| {
            page.number(key.lt).text(":").account(&key.hash);
        });
        self.text("\n");
    }
}
