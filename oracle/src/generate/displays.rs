//! Display lines asked for among the steps of any profile: of groups that were just set up,
//! filled or joined, or just asked about.

use super::random::Random;

/// After one in so many of these steps a group is shown.
const NOW_AND_THEN: u64 = 4;

/// One in so many of them is shown several times over.
const REPEATED: u64 = 5;

/// The scenario with display lines in it. Only the steps themselves draw from the chance, so
/// that terse and full scripts hold the same calls.
pub fn among(script: &str, mut chance: Random) -> String {
    let mut text = String::new();
    for line in script.lines() {
        text += line;
        text.push('\n');
        let groups = groups_of(line);
        if !groups.is_empty() && chance.one_in(NOW_AND_THEN) {
            let group = chance.pick(&groups);
            if chance.one_in(REPEATED) {
                text += &format!("times {} ", chance.between(1, 3));
            }
            text += &format!("display {group}\n");
        }
    }
    text
}

/// The groups that a step goes to.
fn groups_of(line: &str) -> Vec<&str> {
    let words: Vec<&str> = line.split(' ').collect();
    match words[..] {
        ["join", left, right] => vec![left, right],
        ["group" | "fill" | "isfilled", group, ..] => vec![group],
        ["times", _, "fill", group, ..] => vec![group],
        _ => Vec::new(),
    }
}
