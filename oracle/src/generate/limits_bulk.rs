//! The limits that take hundreds of lines to reach.

use super::limits::open;
use super::scene::Scene;

fn internals(accounts: impl Iterator<Item = u64>, each: u64) -> Vec<String> {
    let line = |a| format!("times {each} add 0 0 0 {a} {} {a}", a % 50 + 1);
    accounts.map(line).collect()
}

fn skips(accounts: impl Iterator<Item = u64>) -> Vec<String> {
    accounts.map(|a| format!("row {a} 1 {}", a % 3)).collect()
}

/// 255 to 257 rows and more; those after 300 are not kept.
pub fn skip_rows(scene: &mut Scene) {
    open(scene, 8, 4, 2, 16);
    scene.accounts = vec![1, 2, 3];
    for _ in 0..scene.random.between(1, 3) {
        scene.script.plain(format_args!("rows"));
        let first = scene.account();
        scene.script.plain(format_args!("row {first} 1 9"));
        let more = scene.random.pick(&[254, 255, 255, 256, 298, 299, 300, 400]);
        let skip = scene.random.below(2);
        let account = scene.account();
        scene
            .script
            .plain(format_args!("times {more} row {account} {skip} 4"));
        scene.any_add(20);
        scene.any_add(20);
        scene.any_fill(0, 2, 30);
    }
    scene.script.plain(format_args!("rows"));
    scene.any_fill(0, 2, 0);
}

/// A set of 256 and some more, then just as many rows as fit beside it, or one more.
pub fn skipped_set(scene: &mut Scene) {
    open(scene, 1_024, 256, 2, 1_024);
    let more = scene.random.between(1, 256);
    scene.script.bulk(&internals(0..256, 1));
    scene.script.bulk(&skips(0..256));
    scene.script.plain(format_args!("fill 0 2 1 0 0"));
    let again = ["rows".to_string(), "buffer 1024 256".to_string()];
    scene.script.bulk(&again);
    scene.script.bulk(&internals(256..256 + more, 1));
    scene.script.bulk(&skips(256..256 + more));
    scene.script.plain(format_args!("fill 0 2 1 0 0"));
    for _ in 0..3 {
        let fits = 256 - more;
        let rows = scene.random.pick(&[fits, fits + 1, fits.max(1) - 1]);
        scene.script.plain(format_args!("rows"));
        if rows > 0 {
            scene
                .script
                .plain(format_args!("times {rows} row 9000 1 7"));
        }
        scene.script.plain(format_args!("row 9001 0 7"));
        scene.script.plain(format_args!("add 0 0 0 9001 1 1"));
        scene.script.shown(format_args!("fill 0 2 1 0 0"));
    }
}

/// 1,024 messages of 256 accounts into 64 slots of height 16, in one fill or in several.
pub fn whole_room(scene: &mut Scene) {
    open(scene, 1_024, 256, 64, 1_024);
    scene.script.bulk(&internals(0..256, 4));
    let keys = scene.random.pick(&[1_023, 1_024, 2_048]);
    scene.script.plain(format_args!("keys {keys}"));
    scene.script.plain(format_args!("add 0 0 0 5 1 1"));
    scene.script.plain(format_args!("add 0 0 0 256 1 1"));
    let heights: &[u64] = scene
        .random
        .pick(&[&[16], &[3, 7, 16], &[1, 16, 9], &[15, 16]]);
    for height in heights {
        scene.script.shown(format_args!("fill 0 64 {height} 0 0"));
    }
    scene.any_is_filled(17);
    let slots = scene.random.pick(&[1, 63, 64]);
    scene.script.bulk(&internals(0..64, 1));
    scene.script.shown(format_args!("fill 0 {slots} 16 0 0"));
}

/// A group of 1,024 accounts: four rounds of 256, each into slots four higher.
pub fn thousand_accounts(scene: &mut Scene) {
    open(scene, 1_024, 256, 64, 1_024);
    for round in 0..4 {
        scene
            .script
            .bulk(&internals(256 * round..256 * (round + 1), 1));
        let height = 4 * (round + 1);
        scene.script.plain(format_args!("fill 0 64 {height} 0 0"));
    }
    scene.script.plain(format_args!("add 0 0 0 1024 1 1"));
    scene.script.shown(format_args!("fill 0 64 16 0 0"));
}
