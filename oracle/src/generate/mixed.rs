//! Every command with every kind of argument, in any order.

use super::scene::{MOST, Scene, SetUp};

pub fn play(scene: &mut Scene) {
    let count = scene.random.between(1, 6);
    scene.name_accounts(count);
    scene.times = scene
        .random
        .pick(&[[4, 5, 6], [99, 100, 101], [0, 1, MOST], [7, 7, 7]])
        .to_vec();
    let set_up = SetUp {
        messages: scene.random.pick(&[4, 12, 64, 1_024]),
        accounts: scene.random.between(1, 6),
        slots: (0..3).map(|_| scene.random.between(1, 5)).collect(),
        cost: scene.any_cost(),
        keys: scene.random.pick(&[4, 64, 64, 64]),
    };
    scene.open(set_up);
    if scene.random.one_in(200) {
        let count = scene.random.between(65_525, 65_535);
        scene
            .script
            .plain(format_args!("times {count} fill 0 1 1 0 0"));
    }
    for _ in 0..scene.random.between(10, 40) {
        step(scene);
    }
}

fn step(scene: &mut Scene) {
    let group = scene.group();
    match scene
        .random
        .weighted(&[300, 220, 60, 60, 60, 90, 40, 40, 30, 100])
    {
        0 => scene.any_add(30),
        1 => scene.any_fill(group, 5, 30),
        2 => scene.burst(30),
        3 => scene.any_remove(),
        4 => join(scene, group),
        5 => transact(scene),
        6 => scene.any_row(50),
        7 => scene.any_is_filled(6),
        8 => scene.any_full(),
        _ => seldom(scene, group),
    }
}

fn join(scene: &mut Scene, left: u64) {
    let right = (left + scene.random.between(1, 2)) % 3;
    scene.script.shown(format_args!("join {left} {right}"));
}

fn transact(scene: &mut Scene) {
    let call = scene
        .random
        .pick(&["begin", "begin", "commit", "rollback", "rollback"]);
    scene.script.shown(format_args!("{call}"));
}

fn seldom(scene: &mut Scene, group: u64) {
    match scene.random.below(12) {
        0 => scene.script.plain(format_args!("rows")),
        1 => scene.script.plain(format_args!("set")),
        2 => any_cost(scene),
        3 => any_keys(scene),
        4 => any_group(scene, group),
        5 => any_buffer(scene),
        6 => odd_record(scene),
        7 => odd_fill(scene, group),
        8 => many_rows(scene),
        9 => repeat(scene, group),
        10 => scene.script.loud(),
        _ => scene.script.quiet(),
    }
}

fn any_cost(scene: &mut Scene) {
    let cost = scene.any_cost();
    scene.script.plain(format_args!("cost {cost}"));
}

fn any_keys(scene: &mut Scene) {
    let rows = scene.random.pick(&[0, 1, 2, 3, 8, 64, 1_024, 2_048]);
    scene.script.plain(format_args!("keys {rows}"));
}

/// Sizes out of range come as often as sizes in it.
fn any_group(scene: &mut Scene, group: u64) {
    let slots = scene.random.pick(&[0, 1, 2, 3, 5, 64, 65, MOST]);
    scene.slots[group as usize] = if (1..=64).contains(&slots) { slots } else { 1 };
    scene.script.shown(format_args!("group {group} {slots}"));
}

fn any_buffer(scene: &mut Scene) {
    let messages = scene.random.pick(&[0, 1, 5, 64, 64, 1_024, 1_025]);
    let accounts = scene.random.pick(&[0, 1, 3, 8, 8, 256, 257]);
    scene
        .script
        .shown(format_args!("buffer {messages} {accounts}"));
}

fn odd_record(scene: &mut Scene) {
    let any = scene.random.below(256);
    let kind = scene.random.pick(&[0, 1, 2, 3, 255, any]);
    let special = scene.random.below(2);
    let (account, time) = (scene.account(), scene.time());
    scene
        .script
        .plain(format_args!("add {kind} {special} 1 {account} {time} 1"));
}

fn odd_fill(scene: &mut Scene, group: u64) {
    let slots = scene.random.pick(&[0, 1, 64, 65, MOST]);
    let height = scene.random.pick(&[0, 16, 17, MOST]);
    scene.fill_filtered(group, slots, height);
}

fn many_rows(scene: &mut Scene) {
    let count = scene.random.pick(&[2, 100, 256, 257]);
    let account = scene.account();
    scene
        .script
        .plain(format_args!("times {count} row {account} 1 3"));
}

fn repeat(scene: &mut Scene, group: u64) {
    let count = scene.random.between(1, 4);
    let (account, slots) = (scene.account(), scene.random.between(1, 3));
    if scene.random.one_in(2) {
        scene
            .script
            .plain(format_args!("times {count} add 0 0 0 {account} 3 8"));
    } else {
        scene
            .script
            .shown(format_args!("times {count} fill {group} {slots} 2 1 5"));
    }
}
