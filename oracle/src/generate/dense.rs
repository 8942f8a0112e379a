//! Few accounts, small rooms and heights, many fills: the everyday paths, close together.

use super::scene::{Scene, SetUp};

pub fn play(scene: &mut Scene) {
    let count = scene.random.between(1, 5);
    scene.name_accounts(count);
    let tight = u64::from(count > 1 && scene.random.one_in(4));
    let set_up = SetUp {
        messages: scene.random.pick(&[3, 6, 10, 20, 40]),
        accounts: count - tight,
        slots: vec![scene.random.between(1, 4)],
        cost: scene.random.pick(&[0, 0, 1, 7]),
        keys: scene.random.pick(&[64, 64, 64, 64, 2]),
    };
    scene.open(set_up);
    for _ in 0..scene.random.between(8, 34) {
        step(scene);
    }
}

fn step(scene: &mut Scene) {
    match scene.random.weighted(&[46, 30, 5, 5, 4, 3, 2]) {
        0 => scene.any_add(20),
        1 => scene.any_fill(0, 4, 25),
        2 => scene.burst(20),
        3 => scene.any_remove(),
        4 => scene.any_is_filled(4),
        5 => scene.any_row(50),
        _ => scene.any_full(),
    }
}
