//! docs/READERS.md: in neither reader's list is a file used before it was read or told, and every claim stands in its
//! table.

use std::collections::BTreeMap;

use profile_tests::pages::{between, cells, files, is_crate, quoted, root, text};

/// The families of definitions, and what stands with the code and is read all the same.
const READ: [&str; 13] = [
    "base",
    "word",
    "text",
    "source",
    "record",
    "machine",
    "compile",
    "compile_table",
    "inspection",
    "fitting",
    "print",
    "pod_packing",
    "pod",
];

/// A file of `specs/` that says what the code's types mean, or what functions promise one another.
fn beside_code(file: &str) -> bool {
    ["Lib", "Code", "Buffer", "Sights"].iter().any(|name| file.ends_with(&format!("/{name}")))
}

/// What a file of `specs/` uses of other files of `specs/`: each as `crate/File`, with the names. A declared type is
/// the code's own.
fn uses(file: &str) -> Vec<(String, Vec<String>)> {
    let mut found = Vec::new();
    for line in specs(file).lines().filter_map(|line| line.strip_prefix("use Rattle.")) {
        let layer = line.split('.').next().unwrap();
        let path = line.replacen(".specs", "", 1);
        let name = path.split('.').find(|part| part.starts_with(|first: char| first.is_ascii_uppercase())).unwrap();
        let used = format!("{layer}/{}", name.split(' ').next().unwrap());
        if is_crate(layer) && !line.contains(".declared.") && !beside_code(&used) {
            let names = line.split_once('{').map_or("", |(_, names)| names.trim_end_matches('}'));
            found.push((used, names.split(", ").map(|name| name.split(' ').next().unwrap().to_string()).collect()));
        }
    }
    found
}

/// Whether a cell has a name between backticks, alone or given something.
fn tells(cell: &str, name: &str) -> bool {
    quoted(cell).iter().any(|quote| quote.split(' ').next() == Some(name))
}

fn specs(file: &str) -> String {
    let (layer, name) = file.split_once('/').unwrap();
    text(&format!("crates/{layer}/specs/{name}.antt"))
}

/// The files in the first cells of a part's tables, each with the last cell of its row: those under `Open`, which are
/// read, or under `File`, which are told.
fn part(page: &str, heading: &str, first: &str) -> Vec<(String, String)> {
    let section = between(page, &format!("### {heading}"), "\n##");
    let mut open = false;
    let mut found = Vec::new();
    for cells in section.lines().map(cells).filter(|cells| !cells.is_empty()) {
        if ["Open", "File"].contains(&cells[0]) {
            open = cells[0] == first;
        } else if open {
            let files = quoted(cells[0]).into_iter().filter(|name| is_file(name));
            found.extend(files.map(|file| (file.to_string(), cells.last().unwrap().to_string())));
        }
    }
    assert!(!found.is_empty() || first == "File", "{heading}");
    found
}

fn is_file(name: &str) -> bool {
    name.split_once('/').is_some_and(|(layer, _)| is_crate(layer))
}

/// A reader's list: what is read, in order, and what is told of other files.
struct List {
    read: Vec<String>,
    told: Vec<(String, String)>,
}

/// The therapist's list and the engineer's.
fn lists() -> [List; 2] {
    let page = text("docs/READERS.md");
    ["The therapist:", "The engineer:"].map(|own| {
        let parts = ["Both: the forms", own, "Both: the four calls"].map(|heading| part(&page, heading, "Open"));
        let read = parts.into_iter().flatten().map(|(file, _)| file).collect();
        List { read, told: part(&page, own, "File") }
    })
}

/// Each file comes after the files that it uses, unless what it uses of them is told by name.
#[test]
fn orders() {
    for List { read, told } in lists() {
        for (i, file) in read.iter().enumerate() {
            for (used, names) in uses(file) {
                let Some((_, cell)) = told.iter().find(|(told, _)| *told == used) else {
                    assert!(read[..i].contains(&used), "docs/READERS.md: {file} uses {used}, not read before nor told");
                    continue;
                };
                for name in names {
                    assert!(tells(cell, &name), "docs/READERS.md: {file} uses {name}, which is not told of {used}");
                }
            }
        }
    }
}

/// What is told of a file is used, and the file is not read too.
#[test]
fn what_is_told() {
    for List { read, told } in lists() {
        let used: Vec<(String, Vec<String>)> = read.iter().flat_map(|file| uses(file)).collect();
        for (file, cell) in &told {
            assert!(!read.contains(file), "docs/READERS.md: {file} is read, and told");
            let names: Vec<&String> = used.iter().filter(|(one, _)| one == file).flat_map(|(_, names)| names).collect();
            for quote in quoted(cell) {
                let name = quote.split(' ').next().unwrap();
                assert!(names.iter().any(|one| *one == name), "docs/READERS.md: no file uses {name} of {file}");
            }
        }
    }
}

/// Between them the two read every definition.
#[test]
fn all_is_read() {
    let read: Vec<String> = lists().into_iter().flat_map(|list| list.read).collect();
    for layer in READ {
        for path in files(&format!("crates/{layer}/specs"), &[".antt"]) {
            let file = path.replace("crates/", "").replace("/specs/", "/").replace(".antt", "");
            assert!(beside_code(&file) || read.contains(&file), "docs/READERS.md: {file}");
        }
    }
}

/// The lines of a list are as many as the page says, but for fifty.
#[test]
fn lines_to_read() {
    let page = text("docs/READERS.md");
    let said = between(&page, "## What to open, in this order", "###").replace('\n', " ");
    for (list, reader) in lists().iter().zip(["therapist", "engineer"]) {
        let number = between(&said, &format!("{reader} "), " lines");
        let number: usize = number.rsplit(' ').next().unwrap().replace(',', "").parse().unwrap();
        let lines: usize = list.read.iter().map(|file| specs(file).lines().count()).sum();
        assert!(lines.abs_diff(number) <= 50, "docs/READERS.md: the {reader}'s list has {lines} lines, not {number}");
    }
}

/// A claim `OneAnswer` is proved as `one-answer`.
fn plain(name: &str) -> String {
    name.chars().filter(|c| c.is_alphanumeric()).flat_map(char::to_lowercase).collect()
}

/// What a crate's proofs prove: for each name, in plain letters, the files that have it and what they say that it is.
/// A crate whose proofs the check finds alone has none.
fn proved(layer: &str) -> BTreeMap<String, Vec<(String, String)>> {
    let mut found: BTreeMap<String, Vec<(String, String)>> = BTreeMap::new();
    if !root().join(format!("crates/{layer}/proofs")).is_dir() {
        return found;
    }
    for path in files(&format!("crates/{layer}/proofs"), &[".antt"]) {
        let text = text(&path).replace("\n    →", " →");
        for line in text.lines().filter_map(|line| line.trim_start().strip_prefix("pub ")) {
            if let Some((name, claim)) = line.split_once(" : ").filter(|(name, _)| !name.contains(' ')) {
                let file = path.replace("crates/", "").replace(".antt", "");
                found.entry(plain(name)).or_default().push((file, claim.to_string()));
            }
        }
    }
    found
}

/// Whether this type is that claim, of whatever it is claimed.
fn claims(statement: &str, claim: &str) -> bool {
    let last = statement.rsplit("→ ").next().unwrap();
    last.split(' ').next() == Some(claim)
}

/// The names that a file of `specs/` gives to types: `abbrev pub Name`, `pub record Name`.
fn types(file: &str) -> Vec<String> {
    let starts = ["abbrev pub ", "unfoldable pub ", "pub record "];
    let text = specs(file);
    let lines = text.lines().filter_map(|line| starts.iter().find_map(|start| line.trim_start().strip_prefix(start)));
    let names = lines.map(|line| line.split([' ', ':']).next().unwrap().to_string());
    names.filter(|name| name.starts_with(|first: char| first.is_ascii_uppercase())).collect()
}

/// The table's claims, each with the files that prove it: `crate/File: Name` and `crate/proofs/File`.
fn tabled() -> Vec<(String, String, Vec<String>)> {
    let page = text("docs/READERS.md");
    let mut found = Vec::new();
    for cells in between(&page, "\n## Claims\n", "\n## ").lines().map(cells).filter(|cells| cells.len() == 3) {
        let proofs: Vec<String> = quoted(cells[2]).into_iter().map(str::to_string).collect();
        for (file, names) in quoted(cells[1]).into_iter().filter_map(|quote| quote.split_once(": ")) {
            found.extend(names.split(", ").map(|name| (file.to_string(), name.to_string(), proofs.clone())));
        }
    }
    found
}

/// Every type of `specs/` that is proved under its name stands in the table.
#[test]
fn every_claim_is_tabled() {
    let table = tabled();
    let mut count = 0;
    for layer in READ {
        let proved = proved(layer);
        for path in files(&format!("crates/{layer}/specs"), &[".antt"]) {
            let file = path.replace("crates/", "").replace("/specs/", "/").replace(".antt", "");
            for name in types(&file) {
                let proofs = proved.get(&plain(&name));
                if proofs.is_some_and(|proofs| proofs.iter().any(|(_, statement)| claims(statement, &name))) {
                    let there = table.iter().any(|(place, claim, _)| *place == file && *claim == name);
                    assert!(there, "docs/READERS.md has no row for the claim {file}: {name}");
                    count += 1;
                }
            }
        }
    }
    assert!(count > 100, "{count}");
}

/// Every claim of the table is proved under its name, in a file that its row names.
#[test]
fn every_row_is_proved() {
    for (file, name, files) in tabled() {
        let layer = file.split('/').next().unwrap();
        let proved = proved(layer);
        let proofs =
            proved.get(&plain(&name)).unwrap_or_else(|| panic!("docs/READERS.md: {file}: {name} is not proved"));
        let there = proofs.iter().any(|(path, statement)| files.contains(path) && claims(statement, &name));
        assert!(there, "docs/READERS.md: {file}: {name} is proved in {proofs:?}");
    }
}
