//! `crates.txt` is in order, and what README.md and docs/ARCHITECTURE.md show of it is true.

use std::collections::{BTreeMap, BTreeSet};
use std::process::Command;

use profile_tests::pages::{between, cells, files, listed, root, source, text};

const KIT: [&str; 5] = ["check", "libc", "io", "os", "bytes"];

/// All files of a crate's src/, specs/ and proofs/, joined.
fn joined(name: &str) -> String {
    files(&format!("crates/{name}"), &[".rt", ".antt"]).iter().map(|path| text(path)).collect()
}

/// Whether a text names a crate: `name::` in code, `Rattle.name` in a use line.
fn names(text: &str, name: &str) -> bool {
    let inside = |c: char| c.is_ascii_alphanumeric() || c == '_';
    let code = format!("{name}::");
    let in_code = text.match_indices(&code).any(|(at, _)| !text[..at].ends_with(|c| inside(c) || c == ':'));
    let line = format!("Rattle.{name}");
    in_code || text.match_indices(&line).any(|(at, _)| !text[at + line.len()..].starts_with(inside))
}

/// A crate is listed below the crates that it uses, and some file of it names each of them.
#[test]
fn uses() {
    let mut above = BTreeSet::new();
    for one in listed() {
        let all = joined(&one.name);
        for used in &one.uses {
            assert!(above.contains(used) || KIT.contains(&used.as_str()), "{} is not above {}", used, one.name);
            assert!(names(&all, used), "no file of {} names {used}", one.name);
        }
        above.insert(one.name);
    }
    assert!(above.len() > 30);
}

/// A crate's name begins with its family's, but for the assembly executor's, which stands with the machine's.
#[test]
fn families() {
    for one in listed() {
        let family = if one.name.starts_with("assembly") { "machine" } else { one.name.split('_').next().unwrap() };
        assert_eq!(one.family, family, "{}", one.name);
    }
}

/// The families, each with those that its crates use, and those with what they use in turn.
fn stands_on() -> BTreeMap<String, BTreeSet<String>> {
    let crates = listed();
    let family: BTreeMap<_, _> = crates.iter().map(|one| (&one.name, &one.family)).collect();
    let mut found: BTreeMap<String, BTreeSet<String>> = BTreeMap::new();
    for one in &crates {
        let used: BTreeSet<String> =
            one.uses.iter().filter_map(|used| family.get(used)).map(|f| f.to_string()).collect();
        let below: Vec<String> = used.iter().flat_map(|used| found.get(used).into_iter().flatten().cloned()).collect();
        found.entry(one.family.clone()).or_default().extend(used.into_iter().chain(below));
    }
    found
        .iter()
        .map(|(family, below)| (family.clone(), below.iter().filter(|f| *f != family).cloned().collect()))
        .collect()
}

/// README.md shows each family once, highest first, with those that it stands on but not by another of them.
#[test]
fn picture() {
    let document = text("README.md");
    let section = between(&document, "## The families of crates", "\n## ");
    let mut shown = Vec::new();
    let below = stands_on();
    for line in section.lines().filter(|line| line.starts_with("    ")) {
        let columns: Vec<&str> = line.split("  ").map(str::trim).filter(|column| !column.is_empty()).collect();
        let on: BTreeSet<String> = columns.get(2).iter().flat_map(|on| on.split(", ")).map(str::to_string).collect();
        let all = &below[columns[0]];
        let direct: BTreeSet<_> = all.iter().filter(|f| !all.iter().any(|g| below[g].contains(*f))).cloned().collect();
        assert_eq!(on, direct, "{line}");
        assert!(on.iter().all(|used| !shown.contains(used)), "{line}");
        shown.push(columns[0].to_string());
    }
    assert_eq!(shown.into_iter().collect::<BTreeSet<_>>(), below.keys().cloned().collect());
}

/// The first sentence of a crate's source: what the crate is.
fn first_comment(name: &str) -> String {
    let source = source(name);
    let lines: Vec<&str> = source.lines().map_while(|line| line.strip_prefix("//")).map(str::trim).collect();
    let comment = lines.join(" ");
    comment.split_once(". ").map_or(comment.trim_end_matches('.'), |(sentence, _)| sentence).to_string()
}

/// docs/ARCHITECTURE.md's table has each crate once, under its family, in the order of crates.txt, with the first
/// sentence of its source.
#[test]
fn tree() {
    let document = text("docs/ARCHITECTURE.md");
    let mut family = String::new();
    let mut shown = Vec::new();
    for line in between(&document, "|---|---|\n", "\n\n").lines() {
        let cell = cells(line);
        match cell[0].strip_prefix("**") {
            Some(name) => family = name.trim_end_matches('*').to_string(),
            None => {
                let name = cell[0].trim_matches('`').to_string();
                assert_eq!(cell[1], first_comment(&name), "{name}");
                shown.push((family.clone(), name));
            }
        }
    }
    let listed: Vec<_> = listed().into_iter().map(|one| (one.family, one.name)).collect();
    assert_eq!(shown, listed);
}

/// The back end inlines a step into its run loop, and the loop into the function that calls it, only while it has one
/// caller. docs/SPEED.md ("Executors of records") says what one that is a function of its own costs.
#[test]
fn steps_and_loops_are_inlined() {
    let library = root().join("target/staticlib/libprobe.a");
    let output = Command::new("nm").arg(&library).output().unwrap();
    let symbols = String::from_utf8(output.stdout).unwrap();
    assert!(symbols.contains("probe_run_machine"), "{}: {symbols}", library.display());
    let found: Vec<_> = symbols.lines().filter(|line| line.contains("step") || line.contains("finish")).collect();
    assert!(found.is_empty(), "{found:?}");
}
