//! One scenario in the making: what it may name, and the steps that most profiles share.

use super::random::Random;
use super::script::Script;

pub const MOST: u64 = u64::MAX;

/// The sizes a scenario begins with.
pub struct SetUp {
    pub messages: u64,
    pub accounts: u64,
    /// S of each group; its length is fixed for a profile, since groups never go away.
    pub slots: Vec<u64>,
    pub cost: u64,
    pub keys: u64,
}

pub struct Scene {
    pub script: Script,
    pub random: Random,
    /// Names that adds, removals and rows choose from.
    pub accounts: Vec<u64>,
    /// Chain times and thresholds to choose from.
    pub times: Vec<u64>,
    pub slots: Vec<u64>,
    /// Whether destinations of the other form come up.
    pub other_forms: bool,
    hash: u64,
}

impl Scene {
    pub fn new(script: Script, random: Random) -> Self {
        Self {
            script,
            random,
            accounts: vec![1],
            times: vec![4, 5, 6],
            slots: Vec::new(),
            other_forms: false,
            hash: 0,
        }
    }

    /// Names: mostly small, at times the zero account with its other-form guests, at times huge.
    pub fn name_accounts(&mut self, count: u64) {
        self.accounts = (1..=count).collect();
        let any = self.random.below(count) as usize;
        match self.random.below(6) {
            0 => {
                self.accounts[any] = 0;
                self.other_forms = true;
            }
            1 => self.accounts[any] = MOST,
            2 => {
                let odd = [256, 65_535, 65_536, 1 << 32, 1 << 63, MOST - 1];
                self.accounts[any] = self.random.pick(&odd);
            }
            _ => {}
        }
    }

    /// Resets all that the language can reset.
    pub fn open(&mut self, set_up: SetUp) {
        let mut lines = vec![format!("buffer {} {}", set_up.messages, set_up.accounts)];
        for (group, slots) in set_up.slots.iter().enumerate() {
            lines.push(format!("group {group} {slots}"));
        }
        lines.push("rows".into());
        lines.push(format!("cost {}", set_up.cost));
        lines.push("set".into());
        lines.push(format!("keys {}", set_up.keys));
        self.script.open(&lines);
        self.slots = set_up.slots;
    }

    pub fn account(&mut self) -> u64 {
        self.random.pick(&self.accounts)
    }

    pub fn time(&mut self) -> u64 {
        self.random.pick(&self.times)
    }

    pub fn group(&mut self) -> u64 {
        self.random.below(self.slots.len() as u64)
    }

    /// Mostly a new one for each message; zero and huge ones now and then.
    pub fn hash(&mut self) -> u64 {
        self.hash += 1;
        match self.random.below(40) {
            0 => 0,
            1 => MOST,
            _ => self.hash,
        }
    }

    pub fn add(&mut self, kind: u64, account: u64, time: u64) {
        let other = u64::from(self.other_forms && self.random.one_in(4));
        let hash = self.hash();
        let line = format_args!("add {kind} 0 {other} {account} {time} {hash}");
        self.script.plain(line);
    }

    pub fn internal(&mut self, account: u64) {
        let time = match self.random.below(30) {
            0 => 0,
            1 => MOST,
            _ => self.random.between(1, 50),
        };
        self.add(0, account, time);
    }

    pub fn external(&mut self, account: u64) {
        let time = self.time();
        self.add(1, account, time);
    }

    pub fn any_add(&mut self, percent_external: u64) {
        let account = self.account();
        if self.random.percent(percent_external) {
            self.external(account);
        } else {
            self.internal(account);
        }
    }

    /// Several messages for one account.
    pub fn burst(&mut self, percent_external: u64) {
        let account = self.account();
        for _ in 0..self.random.between(2, 4) {
            if self.random.percent(percent_external) {
                self.external(account);
            } else {
                self.internal(account);
            }
        }
    }

    /// Mostly all the slots of the group, at times fewer, seldom one too many.
    pub fn ask_slots(&mut self, group: u64) -> u64 {
        let most = self.slots[group as usize];
        match self.random.below(20) {
            0 => most + 1,
            1..8 => self.random.between(0, most),
            _ => most,
        }
    }

    pub fn fill(&mut self, group: u64, slots: u64, height: u64) {
        self.script
            .shown(format_args!("fill {group} {slots} {height} 0 0"));
    }

    pub fn fill_filtered(&mut self, group: u64, slots: u64, height: u64) {
        let threshold = self.time();
        let line = format_args!("fill {group} {slots} {height} 1 {threshold}");
        self.script.shown(line);
    }

    pub fn any_fill(&mut self, group: u64, most_height: u64, percent_filtered: u64) {
        let slots = self.ask_slots(group);
        let height = self.random.between(0, most_height);
        if self.random.percent(percent_filtered) {
            self.fill_filtered(group, slots, height);
        } else {
            self.fill(group, slots, height);
        }
    }

    /// Names without a queue and names given twice come up too.
    pub fn any_remove(&mut self) {
        let mut line = "remove".to_string();
        for _ in 0..self.random.pick(&[0, 1, 1, 1, 2, 2, 3]) {
            let account = if self.random.one_in(12) {
                self.random.next()
            } else {
                self.account()
            };
            line += &format!(" {account}");
        }
        self.script.shown(format_args!("{line}"));
    }

    pub fn any_cost(&mut self) -> u64 {
        self.random.pick(&[0, 0, 1, 1, 2, 5, 100, MOST - 1, MOST])
    }

    pub fn any_row(&mut self, percent_skip: u64) {
        let account = self.account();
        let skip = u64::from(self.random.percent(percent_skip));
        let cost = self.any_cost();
        self.script
            .plain(format_args!("row {account} {skip} {cost}"));
    }

    pub fn any_is_filled(&mut self, most_height: u64) {
        let group = self.group();
        let slots = self.random.between(0, self.slots[group as usize] + 1);
        let height = match self.random.below(20) {
            0 => MOST,
            _ => self.random.between(0, most_height),
        };
        let line = format_args!("isfilled {group} {slots} {height}");
        self.script.plain(line);
    }

    pub fn any_full(&mut self) {
        let most = match self.random.below(10) {
            0 => MOST,
            _ => self.random.between(0, 12),
        };
        self.script.plain(format_args!("full {most}"));
    }
}
