//! Takes whole items, unchanged, out of the draft's `session.rs` and writes them to `OUT_DIR/draft.rs`.
//! An item is its attributes, its first line, and all up to the first line that is a closing brace alone.

use std::path::PathBuf;
use std::{env, fs};

/// The first lines of the items that are taken, whole. No method is left out of either `impl`.
const TAKEN: [&str; 6] = [
    "pub(crate) struct Encrypted {",
    "pub(crate) enum ChannelFlushResult {",
    "impl ChannelFlushResult {",
    "impl Encrypted {",
    "pub enum EncryptedState {",
    "pub struct Exchange {",
];

/// Where the draft stands: the variable's path, or beside the project's root.
fn draft_path() -> PathBuf {
    println!("cargo::rerun-if-env-changed=OXENHUSH_SESSION_RS");
    match env::var_os("OXENHUSH_SESSION_RS") {
        Some(path) => PathBuf::from(path),
        None => PathBuf::from(env::var_os("CARGO_MANIFEST_DIR").unwrap()).join("../../shared/docs/src/session.rs"),
    }
}

/// The lines of the item that begins with `first`, which must stand exactly once.
fn item<'a>(lines: &[&'a str], first: &str) -> Vec<&'a str> {
    let at: Vec<usize> = (0..lines.len()).filter(|&i| lines[i] == first).collect();
    assert!(at.len() == 1, "`{first}` stands {} times in the draft", at.len());
    let mut start = at[0];
    while start > 0 && lines[start - 1].starts_with("#[") {
        start -= 1;
    }
    let end = (at[0]..lines.len()).find(|&i| lines[i] == "}").expect("the item's end");
    lines[start..=end].to_vec()
}

fn main() {
    let path = draft_path();
    println!("cargo::rerun-if-changed={}", path.display());
    let text =
        fs::read_to_string(&path).unwrap_or_else(|error| panic!("{}: {error}; give its path in OXENHUSH_SESSION_RS", path.display()));
    let lines: Vec<&str> = text.lines().collect();
    let taken: Vec<&str> = TAKEN.iter().flat_map(|first| item(&lines, first)).collect();
    let out = PathBuf::from(env::var_os("OUT_DIR").unwrap()).join("draft.rs");
    fs::write(out, taken.join("\n") + "\n").unwrap();
}
