//! Seeded scenarios, a profile for each corner of the rules that is easy to get wrong.

mod dense;
mod displays;
mod externals;
mod joins;
mod limits;
mod limits_bulk;
mod mixed;
mod numbers;
mod random;
mod rows;
mod scene;
mod script;
mod stale;
mod transactions;

use random::Random;
use scene::Scene;
use script::Script;

type Play = fn(&mut Scene);

pub const PROFILES: [(&str, Play); 9] = [
    ("dense", dense::play),
    ("stale", stale::play),
    ("rows", rows::play),
    ("externals", externals::play),
    ("transactions", transactions::play),
    ("joins", joins::play),
    ("limits", limits::play),
    ("numbers", numbers::play),
    ("mixed", mixed::play),
];

/// Apart from the scenario's own stream, so that terse and full scripts hold the same calls.
const ASIDE: u64 = 1;

/// Apart from both, so that the other calls are those of a scenario without display lines.
const SHOWN: u64 = 2;

/// The scenario of this index as text; none if there is no such profile.
pub fn scenario(profile: &str, seed: u64, index: u64, terse: bool) -> Option<String> {
    let place = PROFILES.iter().position(|(name, _)| *name == profile)?;
    let path = [place as u64, seed, index];
    let aside = Random::of(&[&path[..], &[ASIDE]].concat());
    let mut scene = Scene::new(Script::new(terse, aside), Random::of(&path));
    scene
        .script
        .comment(format_args!("{profile} {seed} {index}"));
    PROFILES[place].1(&mut scene);
    let shown = Random::of(&[&path[..], &[SHOWN]].concat());
    Some(displays::among(&scene.script.text, shown))
}
