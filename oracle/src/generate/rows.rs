//! Skip rows, the cost without a row and the skipped set, changed between fills of one group.

use super::scene::{Scene, SetUp};

pub fn play(scene: &mut Scene) {
    let count = scene.random.between(2, 5);
    scene.name_accounts(count);
    let set_up = SetUp {
        messages: 64,
        accounts: 8,
        slots: vec![scene.random.between(1, 4)],
        cost: scene.any_cost(),
        keys: 128,
    };
    scene.open(set_up);
    let mut height = scene.random.between(1, 2);
    for _ in 0..scene.random.between(3, 7) {
        change(scene);
        for _ in 0..scene.random.between(1, 5) {
            scene.any_add(15);
        }
        let slots = scene.ask_slots(0);
        if scene.random.one_in(4) {
            scene.fill_filtered(0, slots, height);
        } else {
            scene.fill(0, slots, height);
        }
        height += u64::from(scene.random.percent(60));
    }
}

/// A row that comes second for its account must change nothing but the count of rows.
fn change(scene: &mut Scene) {
    if scene.random.one_in(3) {
        scene.script.plain(format_args!("rows"));
    }
    if scene.random.one_in(4) {
        scene.script.plain(format_args!("set"));
    }
    if scene.random.one_in(6) {
        let cost = scene.any_cost();
        scene.script.plain(format_args!("cost {cost}"));
    }
    for _ in 0..scene.random.between(0, 3) {
        scene.any_row(60);
    }
}
