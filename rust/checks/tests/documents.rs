//! The documents: every word in code marks stands in the sources too, as a name in a
//! file or as a file's own name; their tables are whole; no word stands for something
//! still to be filled in; and every public function has its row.

use checks::runner::in_repository;
use std::collections::{BTreeSet, HashSet};
use std::fs;
use std::path::{Path, PathBuf};

/// The documents that a reader is sent to first.
const DOCUMENTS: [&str; 7] = [
    "README.md",
    "docs/ARCHITECTURE.md",
    "docs/CHANGES.md",
    "docs/DECISIONS.md",
    "docs/GLOSSARY.md",
    "docs/STACK.md",
    "drives/README.md",
];

/// A file of the repository.
fn read(path: &str) -> String {
    fs::read_to_string(in_repository(path)).unwrap_or_else(|error| panic!("{path}: {error}"))
}

/// A file, or every file below a folder but those below a `target` or an `out`, which are built.
fn files(path: &Path) -> Vec<PathBuf> {
    if !path.is_dir() {
        return vec![path.to_path_buf()];
    }
    let entries = fs::read_dir(path).expect("a folder can be read");
    let paths = entries.map(|entry| entry.expect("its entries too").path());
    let is_built = |path: &PathBuf| path.ends_with("target") || path.ends_with("out");
    paths.filter(|path| !is_built(path)).flat_map(|path| files(&path)).collect()
}

/// The words of a text: names of Rattle, antt, Rust and C, whole.
fn words(text: &str) -> impl Iterator<Item = &str> {
    let within = |c: char| c.is_alphanumeric() || "_-′'".contains(c);
    text.split(move |c| !within(c)).map(|word| word.trim_matches('-')).filter(|word| word.len() > 1)
}

/// What stands in code marks on a line, `like this`.
fn marked(line: &str) -> impl Iterator<Item = &str> {
    line.split('`').skip(1).step_by(2)
}

/// The lines of a document that are not in a block of code, each with its number.
fn prose(document: &str) -> impl Iterator<Item = (usize, &str)> {
    let mut in_block = false;
    (1..).zip(document.lines()).filter(move |(_, line)| {
        let fence = line.trim_start().starts_with("```");
        in_block ^= fence;
        !in_block && !fence
    })
}

/// Where names come from. Of a document itself, and of a patch, its path counts, and nothing else.
const SOURCES: [&str; 9] =
    [".ci", "bench", "crates", "docs", "drives", "examples", "include", "rust", "crates.txt"];

/// Where documents are, and what is not to be left in them.
const PLACES: [&str; 3] = ["README.md", "docs", "drives/README.md"];
const LEFT_OPEN: [&str; 6] = ["CHECK", "GATE", "GATE-TIME", "LINES", "TIMES", "TODO"];

#[test]
fn every_name_in_the_documents_exists() {
    let mut known = HashSet::new();
    for path in SOURCES.iter().flat_map(|source| files(&in_repository(source))) {
        let name = path.to_string_lossy();
        known.extend(words(&name).map(str::to_string));
        if !name.ends_with(".md") && !name.ends_with(".patch") {
            let bytes = fs::read(&path).expect("a source can be read");
            known.extend(words(&String::from_utf8_lossy(&bytes)).map(str::to_string));
        }
    }
    for document in DOCUMENTS {
        let text = read(document);
        let names = prose(&text).flat_map(|(_, line)| marked(line)).flat_map(words);
        let unknown: Vec<&str> = names
            .filter(|name| !name.starts_with(|c: char| c.is_ascii_digit()))
            .filter(|name| !known.contains(*name))
            .collect();
        assert_eq!(unknown, [""; 0], "{document}");
    }
}

#[test]
fn no_document_has_something_left_to_fill_in() {
    for path in PLACES.iter().flat_map(|place| files(&in_repository(place))) {
        let text = fs::read_to_string(&path).expect("a document can be read");
        let open: Vec<&str> = words(&text).filter(|word| LEFT_OPEN.contains(word)).collect();
        assert_eq!(open, [""; 0], "{}", path.display());
    }
}

/// The columns of a row. None for a line that is no row of a table.
fn columns(line: &str) -> Option<usize> {
    line.starts_with('|').then(|| line.matches('|').count() - 1)
}

/// What is wrong with the tables of a document, a line for each row.
fn faults(document: &str) -> Vec<String> {
    let mut found = vec![];
    // The columns of the head of the table that a line is in.
    let mut head = None;
    for (number, line) in prose(document) {
        let here = columns(line);
        head = here.and(head).or(here);
        if here != head {
            found.push(format!("line {number}: {here:?} columns, the head has {head:?}"));
        }
        if here.is_some() && !line.ends_with('|') {
            found.push(format!("line {number}: the row does not end with |"));
        }
        if here.is_some() && marked(line).any(|code| code.contains('|')) {
            found.push(format!("line {number}: | in code marks"));
        }
    }
    found
}

#[test]
fn every_row_has_the_columns_of_its_head() {
    for document in DOCUMENTS {
        assert_eq!(faults(&read(document)), [""; 0], "{document}");
    }
}

#[test]
fn every_fault_of_a_table_is_found() {
    let whole = "text | text\n\n| a | b |\n|---|---|\n| 1 | 2 |\ntext\n| a |\n|---|\n| 1 |\n";
    assert_eq!(faults(whole), [""; 0]);
    let rows = ["| 1 |", "| 1 | 2 | 3 |", "| 1 | 2", "| 1 `|` |", "| 1 | 2 | 3"];
    for row in rows {
        assert_ne!(faults(&format!("| a | b |\n|---|---|\n{row}\n| 1 | 2 |\n")), [""; 0], "{row}");
    }
}

const SECTION: &str = "## What each public contract rules out\n";
/// Its functions stand in the section by their names alone, as C calls them.
const EXPORTS: &str = "sciambrunola";

/// The public functions of a crate, as `crate::function` or `crate::Type::method`.
fn functions(name: &str, source: &str) -> Vec<String> {
    let mut found = vec![];
    let mut prefix = String::new();
    for line in source.lines() {
        if !line.is_empty() && !line.starts_with(' ') {
            prefix = implemented(line).map_or(String::new(), |method_of| format!("{method_of}::"));
        }
        if let Some(function) = public(line.trim_start()) {
            found.push(match name {
                EXPORTS => function.to_string(),
                _ => format!("{name}::{prefix}{function}"),
            });
        }
    }
    found
}

/// The type whose methods begin on this line.
fn implemented(line: &str) -> Option<&str> {
    let after = line.strip_prefix("impl")?;
    let after = if after.starts_with('<') { after.split_once('>')?.1 } else { after };
    identifier(after.trim_start())
}

/// The name of the public function that begins on this line.
fn public(line: &str) -> Option<&str> {
    let line = line.strip_prefix("pub ")?;
    let line = line.strip_prefix("extern \"C\" ").unwrap_or(line);
    identifier(line.strip_prefix("fn ")?)
}

fn identifier(text: &str) -> Option<&str> {
    text.split(|c: char| !c.is_alphanumeric() && c != '_').next()
}

/// The functions that the first columns of the section's rows name. After
/// `map::one` a plain `other` is `map::other`.
fn rows(architecture: &str) -> Vec<String> {
    let section = architecture.split_once(SECTION).expect("the section is there").1;
    let section = section.split("\n## ").next().unwrap_or(section);
    let mut found = vec![];
    for row in section.lines().filter_map(|line| line.strip_prefix("| ")) {
        let mut prefix = "";
        for name in row.split('|').next().into_iter().flat_map(marked) {
            let (path, last) = name.rsplit_once("::").unwrap_or((prefix, name));
            prefix = path;
            found.push(if path.is_empty() { last.to_string() } else { format!("{path}::{last}") });
        }
    }
    found
}

/// The public functions of all crates: those of their `lib.rt`. Another module of a crate is
/// private to it (`sciambrunola` `numbers`).
fn all_functions() -> BTreeSet<String> {
    let mut found = BTreeSet::new();
    for entry in fs::read_dir(in_repository("crates")).expect("the folder can be read") {
        let path = entry.expect("its entries too").path();
        let name = path.file_name().expect("an entry has a name").to_string_lossy();
        let source = fs::read_to_string(path.join("src/lib.rt")).unwrap_or_default();
        found.extend(functions(&name, &source));
    }
    found
}

#[test]
fn every_public_function_has_its_row_and_every_row_its_function() {
    let named: BTreeSet<String> = rows(&read("docs/ARCHITECTURE.md")).into_iter().collect();
    let differing: Vec<String> = (&all_functions() ^ &named).into_iter().collect();
    assert_eq!(differing, [""; 0], "public, with no row, or a row, but no public function");
}

#[test]
fn functions_and_methods_are_found_and_private_ones_are_not() {
    let source =
        "fn a()\npub fn b(\nimpl<'a> T<'a> {\n    fn c()\n\n    pub fn d()\n}\npub fn e<'a>()\n";
    assert_eq!(functions("x", source), ["x::b", "x::T::d", "x::e"]);
    assert_eq!(functions(EXPORTS, "pub extern \"C\" fn f(\n"), ["f"]);
    let text =
        format!("{SECTION}\n| `x::b`, `e`, `x::T::c` | `g` |\n| `f` | * |\n\n## More\n| `h` |\n");
    assert_eq!(rows(&text), ["x::b", "x::e", "x::T::c", "f"]);
}
