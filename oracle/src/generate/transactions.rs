//! Transactions around all that changes a buffer, and calls at the wrong time.

use super::scene::{Scene, SetUp};

pub fn play(scene: &mut Scene) {
    let count = scene.random.between(1, 5);
    scene.name_accounts(count);
    scene.times = vec![10, 20, 30, 40, 50];
    let set_up = SetUp {
        messages: scene.random.pick(&[8, 16, 64]),
        accounts: scene.random.pick(&[3, 5]),
        slots: vec![scene.random.between(1, 3), 2],
        cost: 0,
        keys: 64,
    };
    scene.open(set_up);
    for _ in 0..scene.random.between(1, 5) {
        scene.any_add(30);
    }
    for _ in 0..scene.random.between(1, 3) {
        transaction(scene);
        for _ in 0..scene.random.between(0, 3) {
            change(scene);
        }
    }
}

fn transaction(scene: &mut Scene) {
    if scene.random.one_in(5) {
        end(scene);
    }
    scene.script.shown(format_args!("begin"));
    for _ in 0..scene.random.between(1, 7) {
        change(scene);
        if scene.random.one_in(16) {
            scene.script.shown(format_args!("begin"));
        }
    }
    end(scene);
    if scene.random.one_in(5) {
        end(scene);
    }
}

fn end(scene: &mut Scene) {
    let call = scene.random.pick(&["commit", "rollback", "rollback"]);
    scene.script.shown(format_args!("{call}"));
}

fn change(scene: &mut Scene) {
    let group = scene.group();
    match scene.random.weighted(&[30, 15, 12, 12, 12, 6]) {
        0 => scene.any_add(30),
        1 => drain(scene, group),
        2 => scene.any_fill(group, 3, 50),
        3 => scene.any_remove(),
        4 => leave_and_return(scene),
        _ => scene.burst(40),
    }
}

/// A fill that takes all it can: accounts leave the order inside the transaction.
fn drain(scene: &mut Scene, group: u64) {
    let slots = scene.slots[group as usize];
    if scene.random.one_in(2) {
        scene.fill_filtered(group, slots, 16);
    } else {
        scene.fill(group, slots, 16);
    }
}

/// An account that goes and comes back stands last until a rollback.
fn leave_and_return(scene: &mut Scene) {
    let account = scene.account();
    scene.script.shown(format_args!("remove {account}"));
    scene.internal(account);
}
