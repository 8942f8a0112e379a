//! Externals just before, at and just after the threshold, and times at both ends of the range.

use super::scene::{MOST, Scene, SetUp};

pub fn play(scene: &mut Scene) {
    let count = scene.random.between(1, 4);
    scene.name_accounts(count);
    let threshold = scene
        .random
        .pick(&[100, 100, 100, 1, 0, MOST, MOST - 1, 1 << 63]);
    let near = [
        threshold.saturating_sub(1),
        threshold,
        threshold.saturating_add(1),
    ];
    scene.times = [near.as_slice(), &near, &[0, MOST]].concat();
    let set_up = SetUp {
        messages: scene.random.pick(&[6, 20, 64]),
        accounts: 4,
        slots: vec![scene.random.between(1, 3)],
        cost: scene.random.pick(&[0, 1]),
        keys: 64,
    };
    scene.open(set_up);
    for _ in 0..scene.random.between(8, 30) {
        step(scene);
    }
}

fn step(scene: &mut Scene) {
    match scene.random.weighted(&[45, 8, 30, 8, 4, 2, 3]) {
        0 => scene.any_add(70),
        1 => scene.burst(60),
        2 => scene.any_fill(0, 3, 85),
        3 => scene.any_remove(),
        4 => scene.any_row(70),
        5 => scene.script.plain(format_args!("set")),
        _ => {
            let call = scene.random.pick(&["begin", "commit", "rollback"]);
            scene.script.shown(format_args!("{call}"));
        }
    }
}
