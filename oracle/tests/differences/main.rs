//! docs/DIFFERENCES.md, run: a module for each of its sections, and in it a test for each row, by the row's
//! name and with the row's input. What the port answers is asked of the model, and of the port itself where
//! the feature `library` links it.

mod comments;
mod port;
mod reading;
mod spelling;
mod writing;

const PAGE: &str = include_str!("../../../docs/DIFFERENCES.md");

/// The sections whose rows are run, and the tests of each.
const SECTIONS: [(&str, &str); 4] = [
    ("The reader and the Rust", include_str!("reading.rs")),
    ("Spelling and listing beside the Rust", include_str!("spelling.rs")),
    ("Canonical writing beside the Rust", include_str!("writing.rs")),
    ("The Rust's own comments and its tables", include_str!("comments.rs")),
];

/// A row's first cell up to a colon, in the letters of a function's name.
fn name(row: &str) -> String {
    let cell = row.split('|').nth(1).unwrap_or_default().trim().replace(['\'', '`'], "");
    let words = cell.split(": ").next().unwrap_or_default().to_lowercase();
    let words: Vec<&str> = words.split(|c: char| !c.is_ascii_alphanumeric()).filter(|word| !word.is_empty()).collect();
    words.join("_")
}

#[test]
fn every_row_has_its_test() {
    for (title, tests) in SECTIONS {
        let section = PAGE.split("\n## ").find(|section| section.starts_with(title)).expect(title);
        // After the heads and the line below them.
        let rows: Vec<String> = section.lines().filter(|line| line.starts_with('|')).skip(2).map(name).collect();
        let mut named = tests.lines().filter_map(|line| line.strip_prefix("fn ")?.strip_suffix("() {"));
        assert!(rows.iter().eq(named.by_ref()), "{title}: the rows are {rows:#?}");
        assert!(!rows.is_empty());
    }
}
