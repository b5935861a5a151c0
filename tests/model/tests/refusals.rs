//! The refusal numbers and their reasons read the same wherever they are listed. docs/SCOPE.md, 4.2, is the source.

use std::fs;
use std::path::Path;

/// The program's own number, which no call gives.
const BAD_LINE: &str = "33";

type Row = (String, String);

fn text(path: &str) -> String {
    let top = Path::new(env!("CARGO_MANIFEST_DIR")).join("../..");
    fs::read_to_string(top.join(path)).unwrap_or_else(|fault| panic!("{path}: {fault}"))
}

/// The part of a text from one mark to the next.
fn between(path: &str, from: &str, to: &str) -> String {
    let text = text(path);
    let (_, rest) = text
        .split_once(from)
        .unwrap_or_else(|| panic!("{path} has no {from:?}"));
    let (part, _) = rest
        .split_once(to)
        .unwrap_or_else(|| panic!("{path} has no {to:?} behind {from:?}"));
    part.to_string()
}

/// Rows `| number | reason |`, with or without a comment's mark before them.
fn table_rows(part: &str) -> Vec<Row> {
    let rows = part.lines().filter_map(|line| {
        let row = line.strip_prefix("//! ").unwrap_or(line);
        let (number, reason) = row
            .strip_prefix("| ")?
            .strip_suffix(" |")?
            .split_once(" | ")?;
        number.parse::<u32>().ok()?;
        Some((number.to_string(), reason.to_string()))
    });
    rows.collect()
}

/// Rows ` *   number   reason` of a comment in C.
fn comment_rows(part: &str) -> Vec<Row> {
    let rows = part.lines().filter_map(|line| {
        let (number, reason) = line.strip_prefix(" *   ")?.split_once(' ')?;
        number.parse::<u32>().ok()?;
        Some((number.to_string(), reason.trim_start().to_string()))
    });
    rows.collect()
}

fn scope_rows() -> Vec<Row> {
    let rows = table_rows(&between("docs/SCOPE.md", "**4.2", "**4.3"));
    assert_eq!(rows.len(), 23, "every row of the source is read");
    rows
}

fn rows_of_calls() -> Vec<Row> {
    let mut rows = scope_rows();
    rows.retain(|(number, _)| number != BAD_LINE);
    rows
}

#[test]
fn the_readme_has_every_row() {
    let part = between("README.md", "## Refusal numbers", "\n## ");
    assert_eq!(table_rows(&part), scope_rows());
}

#[test]
fn the_header_has_every_row_of_a_call() {
    let part = between("include/bushelvane.h", " *   number   reason\n", "\n *\n");
    assert_eq!(comment_rows(&part), rows_of_calls());
}

#[test]
fn the_rust_crate_has_every_row_of_a_call() {
    let part = between(
        "rust/bushelvane/src/lib.rs",
        "//! | number | reason |\n",
        "//!\n",
    );
    assert_eq!(table_rows(&part), rows_of_calls());
}
