//! Groups joined: accounts apart or shared, onto groups with and without slots, and
//! right groups whose last number lies above their slots.

use super::scene::{Scene, SetUp};

const GROUPS: u64 = 4;

pub fn play(scene: &mut Scene) {
    scene.name_accounts(8);
    let small = scene.random.one_in(3);
    let most = if small { 3 } else { 8 };
    let slots = (0..GROUPS).map(|_| scene.random.between(1, most)).collect();
    let set_up = SetUp {
        messages: 64,
        accounts: 16,
        slots,
        cost: 0,
        keys: 64,
    };
    scene.open(set_up);
    let used = scene.random.between(2, GROUPS);
    let shared = scene.random.one_in(4);
    for _ in 0..scene.random.between(3, 8) {
        match scene.random.weighted(&[50, 35, 10, 5]) {
            0 => feed(scene, used, shared),
            1 => join(scene, used),
            2 => raise_last(scene, used),
            _ => scene.any_is_filled(4),
        }
    }
    join(scene, used);
}

/// Each group draws from its own names, unless names are shared.
fn feed(scene: &mut Scene, used: u64, shared: bool) {
    let group = scene.random.below(used);
    for _ in 0..scene.random.between(1, 4) {
        let own = 2 * group + scene.random.below(2);
        let place = if shared { scene.random.below(8) } else { own };
        let account = scene.accounts[place as usize];
        if scene.random.one_in(6) {
            scene.external(account);
        } else {
            scene.internal(account);
        }
    }
    scene.any_fill(group, 4, 10);
}

/// Fills that find nothing still use numbers up.
fn raise_last(scene: &mut Scene, used: u64) {
    let group = scene.random.below(used);
    let slots = scene.slots[group as usize];
    let count = scene.random.between(1, 4);
    let line = format_args!("times {count} fill {group} {slots} 0 0 0");
    scene.script.shown(line);
}

fn join(scene: &mut Scene, used: u64) {
    let left = scene.random.below(used);
    let right = (left + scene.random.between(1, used - 1)) % used;
    scene.script.shown(format_args!("join {left} {right}"));
}
