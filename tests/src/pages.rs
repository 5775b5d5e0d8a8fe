//! README.md, the pages of docs/, and the files of crates/, as text.

use std::path::{Path, PathBuf};

pub fn root() -> PathBuf {
    Path::new(env!("CARGO_MANIFEST_DIR")).join("..")
}

pub fn text(path: &str) -> String {
    std::fs::read_to_string(root().join(path)).unwrap_or_else(|error| panic!("{path}: {error}"))
}

/// The files below a folder whose names end so, as paths from the root, in order; what is built is passed over.
pub fn files(folder: &str, endings: &[&str]) -> Vec<String> {
    let mut found = Vec::new();
    for entry in std::fs::read_dir(root().join(folder)).unwrap() {
        let entry = entry.unwrap();
        let path = format!("{folder}/{}", entry.file_name().to_str().unwrap());
        if entry.path().is_dir() {
            if !["/target", "/out"].iter().any(|built| path.ends_with(built)) {
                found.extend(files(&path, endings));
            }
        } else if endings.iter().any(|ending| path.ends_with(ending)) {
            found.push(path);
        }
    }
    found.sort();
    found
}

/// The pages: README.md, those of docs/, and the README of each folder that has one.
pub fn pages() -> Vec<String> {
    let mut pages = vec!["README.md".to_string()];
    for folder in ["docs", "examples", "tests"] {
        pages.extend(files(folder, &[".md"]));
    }
    assert!(pages.len() > 15);
    pages
}

/// Those that speak of the code as it is: docs/PORT.md and docs/DESIGN-PASS.md tell what it was before, too.
pub fn present() -> Vec<String> {
    let past = ["docs/PORT.md", "docs/DESIGN-PASS.md"];
    pages().into_iter().filter(|page| !past.contains(&page.as_str())).collect()
}

/// The parts of a text between backticks.
pub fn quoted(text: &str) -> Vec<&str> {
    text.split('`').skip(1).step_by(2).collect()
}

/// The part of a text between two that it has.
pub fn between<'a>(text: &'a str, first: &str, last: &str) -> &'a str {
    let start = text.find(first).unwrap_or_else(|| panic!("no '{first}'")) + first.len();
    &text[start..start + text[start..].find(last).unwrap_or_else(|| panic!("no '{last}' after '{first}'"))]
}

/// The cells of a table's row; of other lines none.
pub fn cells(line: &str) -> Vec<&str> {
    match line.strip_prefix("| ").and_then(|row| row.strip_suffix('|')) {
        Some(row) => row.split(" |").map(str::trim).collect(),
        None => Vec::new(),
    }
}

pub fn is_crate(name: &str) -> bool {
    root().join("crates").join(name).is_dir()
}

/// The source of a crate: `src/lib.rt`, or of a program `src/main.rt`.
pub fn source(name: &str) -> String {
    let folder = root().join("crates").join(name).join("src");
    std::fs::read_to_string(folder.join("lib.rt")).or_else(|_| std::fs::read_to_string(folder.join("main.rt"))).unwrap()
}

/// A crate, the family that it is listed under, and the crates that it uses.
pub struct Listed {
    pub name: String,
    pub family: String,
    pub uses: Vec<String>,
}

/// The lines of crates.txt. A family's heading is `# name: what it is`.
pub fn listed() -> Vec<Listed> {
    let mut family = String::new();
    let mut crates = Vec::new();
    for line in text("crates.txt").lines() {
        if let Some(heading) = line.strip_prefix("# ") {
            family = heading.split(':').next().unwrap().to_string();
        } else if let Some((name, uses)) = line.split_once(':') {
            let name = name.split_whitespace().next().unwrap().to_string();
            let uses = uses.split_whitespace().map(str::to_string).collect();
            crates.push(Listed { name, family: family.clone(), uses });
        }
    }
    crates
}
