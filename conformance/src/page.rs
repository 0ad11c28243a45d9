//! Documents of the repository, read for what tests hold: tables, fenced blocks, commands.

use std::path::{Path, PathBuf};
use std::{env, fs, process};

/// The repository's folder.
pub fn root() -> PathBuf {
    Path::new(env!("CARGO_MANIFEST_DIR")).join("..")
}

/// An empty folder outside the repository, in which rt would take files of a test for its own: who makes it removes it.
pub fn apart(name: &str) -> PathBuf {
    let folder = env::temp_dir().join(format!("conformance_{}_{name}", process::id()));
    let _ = fs::remove_dir_all(&folder);
    fs::create_dir_all(&folder).expect("a folder");
    folder
}

/// The text of a file of the repository.
pub fn text(file: &str) -> String {
    fs::read_to_string(root().join(file)).unwrap_or_else(|error| panic!("{file}: {error}"))
}

/// What follows a line, of which the page has one.
fn after<'p>(page: &'p str, line: &str) -> &'p str {
    let line = format!("\n{line}\n");
    assert_eq!(page.matches(&line).count(), 1, "how often stands {line}");
    page.split_once(&line).unwrap().1
}

/// The rows below the one table that has this head, each a list of cells.
pub fn rows(page: &str, head: &str) -> Vec<Vec<String>> {
    let rows = after(page, head).lines().skip(1);
    let rows = rows.take_while(|line| line.starts_with('|'));
    rows.map(cells).collect()
}

/// The cells of a row. A bar inside a cell has a backslash before it.
fn cells(row: &str) -> Vec<String> {
    let inner = row.trim_start_matches("| ").trim_end_matches('|');
    let inner = inner.replace("\\|", "\u{0}");
    let cells = inner
        .split('|')
        .map(|cell| cell.trim().replace('\u{0}', "|"));
    cells.collect()
}

/// What stands in the one fenced block of this name.
pub fn block(page: &str, name: &str) -> String {
    let block = after(page, &format!("```{name}"));
    block.split("```").next().unwrap().to_string()
}

/// The indented lines that begin with one of these words, which a reader is to type.
pub fn commands(page: &str, words: &[&str]) -> Vec<String> {
    let typed = |line: &&str| {
        words
            .iter()
            .any(|word| line.split(' ').next() == Some(word))
    };
    page.lines()
        .filter_map(|line| line.strip_prefix("    "))
        .filter(typed)
        .map(str::to_string)
        .collect()
}

/// Bytes written in hex with blanks between.
pub fn bytes(hex: &str) -> Vec<u8> {
    let byte = |word: &str| {
        assert_eq!(word.len(), 2, "a byte has two digits: {word}");
        u8::from_str_radix(word, 16).expect("hex digits")
    };
    hex.split_whitespace().map(byte).collect()
}
