//! Slots that leave a bucket and stay listed there, under heights that rise and fall.

use super::scene::{Scene, SetUp};

pub fn play(scene: &mut Scene) {
    let count = scene.random.between(1, 5);
    scene.name_accounts(count);
    let set_up = SetUp {
        messages: 64,
        accounts: 8,
        slots: vec![count + scene.random.below(2)],
        cost: scene.random.pick(&[0, 0, 1, 3]),
        keys: 128,
    };
    scene.open(set_up);
    let mut height = scene.random.between(1, 2);
    for _ in 0..scene.random.between(3, 8) {
        round(scene, height);
        height = next_height(scene, height);
    }
}

/// Most accounts get something, so that several slots leave one bucket together.
fn round(scene: &mut Scene, height: u64) {
    let each = scene.random.between(1, 3);
    for account in scene.accounts.clone() {
        if scene.random.percent(70) {
            for _ in 0..each {
                scene.internal(account);
            }
        }
    }
    if scene.random.one_in(8) {
        let account = scene.account();
        scene.script.plain(format_args!("row {account} 1 2"));
    }
    let slots = scene.ask_slots(0);
    scene.fill(0, slots, height);
    if scene.random.one_in(3) {
        scene.any_is_filled(height + 1);
    }
    if scene.random.one_in(4) {
        scene.fill(0, slots, height);
    }
}

fn next_height(scene: &mut Scene, height: u64) -> u64 {
    match scene.random.below(10) {
        0..5 => height + 1,
        5..8 => height.saturating_sub(1),
        8 => scene.random.between(0, 8),
        _ => height,
    }
}
