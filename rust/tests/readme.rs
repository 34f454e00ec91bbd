//! The sample in the README is the one that is compiled: the crate's first example.

const README: &str = include_str!("../../README.md");
const LIB: &str = include_str!("../src/lib.rs");

/// The lines between a line that opens a fence and the one that closes it.
fn fenced<'a>(lines: impl Iterator<Item = &'a str>, opening: &str) -> Vec<&'a str> {
    lines
        .skip_while(|line| *line != opening)
        .skip(1)
        .take_while(|line| *line != "```")
        .collect()
}

#[test]
fn the_sample_is_compiled() {
    let documented = LIB
        .lines()
        .filter_map(|line| line.strip_prefix("//!"))
        .map(|line| line.strip_prefix(' ').unwrap_or(line));
    let compiled: Vec<&str> = fenced(documented, "```")
        .into_iter()
        .filter(|line| !line.starts_with("# "))
        .collect();
    let shown = fenced(README.lines(), "```rust");
    assert!(shown.len() > 5, "the README has no sample in Rust");
    assert_eq!(shown, compiled);
}
