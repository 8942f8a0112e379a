//! Up to the room's limits and one step over each of them.

use super::limits_bulk::{skip_rows, skipped_set, thousand_accounts, whole_room};
use super::scene::{MOST, Scene, SetUp};

pub fn play(scene: &mut Scene) {
    match scene.random.weighted(&[14, 14, 14, 12, 14, 14, 8, 3, 3, 1]) {
        0 => set_ups(scene),
        1 => all_messages(scene),
        2 => all_accounts(scene),
        3 => key_rows(scene),
        4 => odd_records(scene),
        5 => asked_too_much(scene),
        6 => skip_rows(scene),
        7 => skipped_set(scene),
        8 => whole_room(scene),
        _ => thousand_accounts(scene),
    }
}

pub fn open(scene: &mut Scene, messages: u64, accounts: u64, slots: u64, keys: u64) {
    scene.open(SetUp {
        messages,
        accounts,
        slots: vec![slots, 2],
        cost: 0,
        keys,
    });
}

/// A refused set-up gives one of size 1, which the adds and fills after it show.
fn set_ups(scene: &mut Scene) {
    open(scene, 4, 4, 4, 16);
    scene.accounts = vec![0, 1, 2];
    for _ in 0..scene.random.between(3, 7) {
        let messages = scene.random.pick(&[0, 1, 2, 1_024, 1_024, 1_025, MOST]);
        let accounts = scene.random.pick(&[0, 1, 2, 256, 256, 257, MOST]);
        let slots = scene.random.pick(&[0, 1, 2, 64, 64, 65, MOST]);
        let group = scene.group();
        match scene.random.below(3) {
            0 => scene
                .script
                .shown(format_args!("buffer {messages} {accounts}")),
            1 => scene.script.shown(format_args!("group {group} {slots}")),
            _ => {}
        }
        for _ in 0..scene.random.between(0, 3) {
            scene.any_add(20);
        }
        let asked = scene.random.pick(&[1, 2, 64, 65]);
        scene.fill(group, asked, 1);
    }
}

/// M exactly full, then room again by a fill or a removal.
fn all_messages(scene: &mut Scene) {
    let messages = scene.random.between(1, 12);
    open(scene, messages, 4, 3, 64);
    scene.accounts = vec![1, 2, 3];
    for _ in 0..scene.random.between(1, 3) {
        for _ in 0..messages + scene.random.below(2) {
            scene.any_add(20);
        }
        scene.script.plain(format_args!("full {messages}"));
        if scene.random.one_in(3) {
            scene.any_remove();
        } else {
            scene.any_fill(0, 3, 30);
        }
    }
    scene.any_add(20);
}

/// A exactly full; an account that has a queue still takes more.
fn all_accounts(scene: &mut Scene) {
    let accounts = scene.random.between(1, 5);
    open(scene, 64, accounts, 3, 64);
    scene.name_accounts(accounts + 1);
    for _ in 0..scene.random.between(1, 3) {
        for account in scene.accounts.clone() {
            scene.internal(account);
        }
        scene.any_add(30);
        if scene.random.one_in(3) {
            scene.any_remove();
        } else {
            scene.any_fill(0, 3, 30);
        }
    }
    scene.any_add(0);
}

/// The key list just long enough, one row short, and longer; rows past the collected stay.
fn key_rows(scene: &mut Scene) {
    open(scene, 64, 4, 3, 0);
    scene.accounts = vec![1, 2, 3];
    let ints = scene.random.between(1, 8);
    for _ in 0..ints {
        scene.any_add(0);
    }
    let exts = scene.random.below(2);
    for _ in 0..exts {
        scene.any_add(100);
    }
    for _ in 0..scene.random.between(1, 3) {
        let rows = ints + scene.random.pick(&[1, 1, 0, 2, 9]) - 1;
        scene.script.plain(format_args!("keys {rows}"));
        scene.any_fill(0, 2, 20);
        scene.any_fill(0, 2, 20);
    }
    scene.any_add(0);
    scene.any_fill(0, 3, 0);
}

/// Kinds over the whole byte, special marks, other forms; several faults at once.
fn odd_records(scene: &mut Scene) {
    let messages = scene.random.pick(&[2, 16]);
    open(scene, messages, 2, 2, 16);
    for _ in 0..scene.random.between(6, 16) {
        let any = scene.random.between(3, 255);
        let kind = scene.random.pick(&[0, 0, 1, 1, 2, 3, 254, 255, any]);
        let special = u64::from(scene.random.one_in(5));
        let other = u64::from(scene.random.one_in(3));
        let account = scene.random.pick(&[0, 0, 7, 9, MOST]);
        let time = scene.random.pick(&[0, 1, 5, MOST]);
        let hash = scene.hash();
        let line = format_args!("add {kind} {special} {other} {account} {time} {hash}");
        scene.script.plain(line);
        if scene.random.one_in(5) {
            scene.any_fill(0, 3, 50);
        }
    }
}

/// Slots and heights around S and 16, and far above.
fn asked_too_much(scene: &mut Scene) {
    let most = scene.random.pick(&[1, 3, 63, 64]);
    open(scene, 64, 8, most, 64);
    scene.name_accounts(5);
    for _ in 0..scene.random.between(4, 9) {
        for _ in 0..scene.random.between(0, 4) {
            scene.any_add(20);
        }
        let slots = scene
            .random
            .pick(&[most, most, most + 1, 64, 65, 65_536, MOST]);
        let height = scene.random.pick(&[1, 15, 16, 16, 17, 256, MOST]);
        scene.fill(0, slots, height);
        scene.any_is_filled(18);
    }
}
