//! Brings the original to the compiler: nothing of it is kept in this repository,
//! so it is read from a given folder, compared with what we expect, and handed over unchanged.

use std::path::{Path, PathBuf};
use std::process::Command;
use std::{env, fs};

/// Any other text than this would make the answers worthless as a judge.
const PINNED: [(&str, &str); 2] = [
    (
        "messages_buffer.rs",
        "5b6d8a5711386c534e72bbdd9e18965315b0b27eac917d528b163936f103e248",
    ),
    (
        "types.rs",
        "70ddadc0676ff3751e4f03b2e17b26ba6353b25fc91fa1cd9da8856dd59d0afe",
    ),
];

/// Where the original lies in a usual checkout, seen from this package.
const USUAL_PLACE: &str = "../../shared/docs/src";

/// What the items cut out of types.rs need in scope.
const TYPES_HEAD: &str = "use std::sync::Arc;
use tycho_types::{cell::Cell, models::*};
use crate::types::processed_upto::BlockSeqno;
";

/// One more way to make a message: the original has none for an outgoing external
/// without a special origin, and add has to meet one.
const TYPES_TAIL: &str = "
impl ParsedMessage {
    pub fn from_inner(inner: ParsedMessageInner) -> Self {
        Self(Arc::new(inner))
    }
}
";

/// The two modules, side by side as the original expects them, and our view inside.
const ROOT: &str = "pub mod messages_buffer;
pub mod types;
pub use messages_buffer::tests::SlotView;
";

fn main() {
    let here = PathBuf::from(env::var_os("CARGO_MANIFEST_DIR").unwrap());
    let out = PathBuf::from(env::var_os("OUT_DIR").unwrap()).join("original");
    let from = env::var_os("LINTELSONG_ORIGINAL")
        .map_or_else(|| here.join(USUAL_PLACE), |given| here.join(given));
    println!("cargo::rerun-if-env-changed=LINTELSONG_ORIGINAL");
    println!("cargo::rerun-if-changed=build.rs");

    for (name, pinned) in PINNED {
        check(&from.join(name), pinned);
    }

    fs::create_dir_all(out.join("tests")).unwrap();
    let buffer = fs::read(from.join("messages_buffer.rs")).unwrap();
    fs::write(out.join("messages_buffer.rs"), buffer).unwrap();
    let types = fs::read_to_string(from.join("types.rs")).unwrap();
    let types = format!("{TYPES_HEAD}\n{}{TYPES_TAIL}", message_items(&types));
    fs::write(out.join("types.rs"), types).unwrap();
    fs::write(out.join("root.rs"), ROOT).unwrap();

    // The original looks for its unit tests in this place, inside its privacy.
    let inside = here.join("src/inside.rs");
    println!("cargo::rerun-if-changed={}", inside.display());
    let inside = fs::read(inside).unwrap();
    fs::write(out.join("tests/messages_buffer_tests.rs"), inside).unwrap();
    println!("cargo::rustc-cfg=test");
}

/// Stops the build unless the file is the one we know.
fn check(file: &Path, pinned: &str) {
    println!("cargo::rerun-if-changed={}", file.display());
    if !file.is_file() {
        stop(&format!(
            "{} is missing; set LINTELSONG_ORIGINAL to the folder of the original",
            file.display()
        ));
    }
    let answer = Command::new("sha256sum").arg(file).output();
    let answer = answer.unwrap_or_else(|e| stop(&format!("sha256sum does not run: {e}")));
    let text = String::from_utf8_lossy(&answer.stdout).into_owned();
    let found = text.split_whitespace().next().unwrap_or("");
    // A name with odd letters makes sha256sum put a backslash in front.
    if found.trim_start_matches('\\') != pinned {
        stop(&format!(
            "{} is not the original: sha256 {found}, expected {pinned}",
            file.display()
        ));
    }
}

/// The message and its companions stand next to each other: one cut, word by word.
fn message_items(types: &str) -> String {
    let lines: Vec<&str> = types.lines().collect();
    let at = |start: usize, head: &str| {
        let found = lines[start..].iter().position(|l| l.starts_with(head));
        start + found.unwrap_or_else(|| stop(&format!("types.rs has no `{head}`")))
    };
    let mut first = at(0, "pub struct ParsedMessageInner");
    while lines[first - 1].starts_with("#[") {
        first -= 1;
    }
    let last = at(at(first, "pub enum SpecialOrigin"), "}");
    lines[first..=last].join("\n") + "\n"
}

/// A short plain refusal reads better than a backtrace.
fn stop(why: &str) -> ! {
    println!("cargo::error={why}");
    std::process::exit(1)
}
