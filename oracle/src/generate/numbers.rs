//! Slot numbers near the end of their range. Fills that find nothing use one number each.

use super::scene::{Scene, SetUp};

/// Names of each group, so that joins fail for their numbers and not for a name.
const OWN: u64 = 12;

pub fn play(scene: &mut Scene) {
    scene.name_accounts(2 * OWN);
    let set_up = SetUp {
        messages: 64,
        accounts: 32,
        slots: vec![scene.random.between(2, 12), scene.random.between(1, 8)],
        cost: 0,
        keys: 64,
    };
    scene.open(set_up);
    let held = u64::from(scene.random.one_in(4));
    if held == 1 {
        feed(scene, 0, 1);
    }
    climb(scene, 0, held);
    if scene.random.one_in(8) {
        climb(scene, 1, 0);
    }
    for _ in 0..scene.random.between(3, 9) {
        match scene.random.weighted(&[25, 25, 30, 8, 12]) {
            0 => feed(scene, 0, 4),
            1 => feed(scene, 1, 3),
            2 => scene.script.shown(format_args!("join 0 1")),
            3 => scene.script.shown(format_args!("join 1 0")),
            _ => raise(scene),
        }
    }
}

/// On an empty buffer a fill for one slot more than are held raises the last number by
/// one; asking for more than that would be refused before the end is reached.
fn climb(scene: &mut Scene, group: u64, held: u64) {
    let slots = held + 1;
    let count = if scene.random.one_in(3) {
        scene.random.between(65_510, 65_540)
    } else {
        scene.random.between(65_529, 65_535)
    };
    let line = format_args!("times {count} fill {group} {slots} 1 0 0");
    scene.script.shown(line);
}

fn raise(scene: &mut Scene) {
    let group = scene.group();
    let slots = scene.slots[group as usize];
    let count = scene.random.between(1, 3);
    let line = format_args!("times {count} fill {group} {slots} 0 0 0");
    scene.script.shown(line);
}

fn feed(scene: &mut Scene, group: u64, most: u64) {
    for _ in 0..scene.random.between(1, most) {
        let place = OWN * group + scene.random.below(OWN);
        let account = scene.accounts[place as usize];
        scene.internal(account);
    }
    let slots = scene.random.between(1, scene.slots[group as usize]);
    let height = scene.random.between(1, 3);
    scene.fill(group, slots, height);
}
