//! What README.md and docs/ name is there (docs/PORT.md and docs/DESIGN-PASS.md name what was, too): files of `specs/`
//! and `proofs/`, the definitions in them, functions, calls and edits. A fact stands in one place, and no line is too
//! wide to read.

use std::collections::BTreeSet;

use profile_tests::pages::{between, cells, files, is_crate, listed, pages, present, quoted, root, source, text};

/// Whether a file has a name as a whole word.
fn has_word(text: &str, word: &str) -> bool {
    text.split([' ', '\n', '(', ')', ':', '{', '}', ',', ';']).any(|part| part == word)
}

/// `crate/specs/File` and `crate/proofs/File` are files or folders; `crate/src/lib.rt` and `crate/must-fail/edit`
/// files.
#[test]
fn named_files() {
    let mut count = 0;
    for page in present() {
        for name in quoted(&text(&page)) {
            let parts: Vec<&str> = name.split('/').collect();
            if parts.len() >= 3 && is_crate(parts[0]) && ["specs", "proofs", "src", "must-fail"].contains(&parts[1]) {
                let path = root().join("crates").join(name);
                let there = ["antt", "edit"].iter().any(|extension| path.with_extension(extension).exists());
                assert!(path.exists() || there, "{page}: {name}");
                count += 1;
            }
        }
    }
    assert!(count > 30);
}

/// `docs/PAGE.md` and the other files that a page names between backticks are there, from the root or its own folder.
#[test]
fn named_pages() {
    let folders = ["docs/", "tests/", "bench/", "examples/", "include/", "tools/"];
    for page in pages() {
        for name in quoted(&text(&page)) {
            if folders.iter().any(|folder| name.starts_with(folder)) && !name.contains([' ', '*']) {
                let own = root().join(&page).with_file_name(name);
                assert!(root().join(name).exists() || own.exists(), "{page}: {name}");
            }
        }
    }
}

/// `crate/File: a, b` are definitions of `crates/crate/specs/File.antt`, in docs/READERS.md.
#[test]
fn definitions() {
    let mut count = 0;
    for quote in quoted(&text("docs/READERS.md")) {
        let (place, names) = quote.split_once(": ").unwrap_or((quote, ""));
        let Some((layer, file)) = place.split_once('/') else { continue };
        if !is_crate(layer) || !file.starts_with(|first: char| first.is_ascii_uppercase()) {
            continue;
        }
        let specs = text(&format!("crates/{layer}/specs/{file}.antt"));
        for name in names.split(", ").filter(|name| !name.is_empty()) {
            assert!(has_word(&specs, name), "docs/READERS.md: {place}: {name}");
            count += 1;
        }
    }
    assert!(count > 80);
}

/// `crate::a, b` are functions or constants of that crate, `Type::a` those of an `impl` in some crate.
#[test]
fn functions() {
    let mut count = 0;
    for page in present() {
        for quote in quoted(&text(&page)) {
            let Some((owner, names)) = quote.split_once("::") else { continue };
            let text = if is_crate(owner) {
                source(owner)
            } else if owner.starts_with(|first: char| first.is_ascii_uppercase()) {
                let block = format!("impl {owner} {{");
                listed().iter().map(|one| source(&one.name)).filter(|text| text.contains(&block)).collect()
            } else {
                continue;
            };
            for name in names.split(", ") {
                let items = [format!("fn {name}("), format!("fn {name}<"), format!("const {name}:")];
                let there = items.iter().any(|item| text.contains(item));
                assert!(there, "{page}: {owner}::{name}");
                count += 1;
            }
        }
    }
    assert!(count > 30);
}

/// The head of a function: from its name to its body.
fn head<'a>(text: &'a str, name: &str) -> &'a str {
    between(text, &format!("pub fn {name}("), "\n{")
}

/// The names of its parameters.
fn parameters(head: &str) -> Vec<&str> {
    let list = &head[..head.find(") ->").unwrap()];
    list.split(',').filter_map(|parameter| parameter.split_once(':')).map(|(name, _)| name.trim()).collect()
}

/// The calls that README.md lists are those of docs/CALLS.md. Each stands in the crate named there, with these
/// parameters; it has no `requires`, and promises something.
#[test]
fn calls() {
    let mut described = BTreeSet::new();
    for line in text("docs/CALLS.md").lines() {
        let cells = cells(line);
        let Some(call) = cells.first().and_then(|cell| cell.strip_prefix('`')?.strip_suffix(")`")) else { continue };
        let Some((call, given)) = call.split_once('(') else { continue };
        let layer = quoted(cells.last().unwrap())[0];
        let source = source(layer);
        let contract = head(&source, call);
        assert_eq!(given.split(", ").collect::<Vec<_>>(), parameters(contract), "docs/CALLS.md: {layer}::{call}");
        assert!(!contract.contains("requires") && contract.contains("ensures"), "{layer}::{call}");
        described.insert(call.to_string());
    }
    let readme = text("README.md");
    let listed = between(&readme, "| Call | For |", "\n\n");
    let named = listed.lines().filter_map(|line| cells(line).first().copied()).flat_map(quoted).map(str::to_string);
    assert_eq!(named.collect::<BTreeSet<_>>(), described);
    assert!(described.len() >= 17);
}

/// An edit's own words: what it makes wrong, and, from the line that begins so, what refuses it.
fn words(path: &str) -> (String, String) {
    let text = text(path);
    let comment: Vec<&str> = text.lines().map_while(|line| line.strip_prefix('#')).map(str::trim).collect();
    let at = comment.iter().position(|line| line.starts_with("refused: ")).unwrap_or_else(|| panic!("{path}: refused"));
    let refused = comment[at..].join(" ");
    (comment[..at].join(" "), refused.trim_start_matches("refused: ").to_string())
}

/// docs/EDITS.md has a row for every must-fail edit, and for nothing else: its name, what it makes wrong in its own
/// words, and the first words of what refuses it.
#[test]
fn edits() {
    let page = text("docs/EDITS.md");
    let rows: Vec<Vec<&str>> = page.lines().map(cells).filter(|cells| cells.len() == 3).collect();
    let mut due: BTreeSet<String> = files("crates", &[".edit"]).into_iter().collect();
    for row in rows.iter().filter(|row| row[0].contains("/must-fail/")) {
        let path = format!("crates/{}.edit", row[0].trim_matches('`'));
        assert!(due.remove(&path), "docs/EDITS.md: {} is no edit, or stands there twice", row[0]);
        let (wrong, refused) = words(&path);
        assert_eq!(row[1], wrong, "docs/EDITS.md: {}", row[0]);
        assert!(!row[2].is_empty() && refused.starts_with(row[2]), "docs/EDITS.md: {}: {refused}", row[0]);
    }
    assert!(due.is_empty(), "docs/EDITS.md lacks {due:?}");
}

/// A line's characters, but for what must stand as it is: a table's row has 300, an edit quotes what it changes, a
/// crate has one line of crates.txt.
fn widest(path: &str, line: &str) -> usize {
    match () {
        _ if path.ends_with(".md") && line.starts_with('|') => 300,
        _ if path.ends_with(".edit") && !line.starts_with('#') => usize::MAX,
        _ if path == "crates.txt" => usize::MAX,
        _ => 120,
    }
}

/// Prose, definitions, code and proofs have at most 120 columns, a row of a table 300.
#[test]
fn widths() {
    let mut all = pages();
    all.extend(files("crates", &[".antt", ".rt", ".edit"]));
    for folder in ["tests", "bench", "examples", "include"] {
        all.extend(files(folder, &[".rs", ".c", ".h"]));
    }
    all.extend(files("tools", &[""]));
    all.extend([".ci/run", "test", "show", "bench/run", "crates.txt"].map(str::to_string));
    assert!(all.len() > 400, "{}", all.len());
    for path in all {
        for (i, line) in text(&path).lines().enumerate() {
            assert!(line.chars().count() <= widest(&path, line), "{path}:{}: {line}", i + 1);
        }
    }
}

/// README.md is for newcomers, and a decision says what, why, and what was rejected in three lines.
#[test]
fn lengths() {
    let lines = text("README.md").lines().count();
    assert!(lines <= 110, "README.md has {lines} lines");
    let page = text("docs/DECISIONS.md");
    let decisions = between(&page, "\n## Decisions of this project", "\n## Language forms");
    let bullets: Vec<&str> = decisions.split("\n- ").skip(1).collect();
    assert!(bullets.len() > 40);
    for bullet in bullets {
        let lines = bullet.split("\n\n").next().unwrap().trim_end().lines().count();
        assert!(lines <= 3, "docs/DECISIONS.md: {lines} lines: {bullet}");
    }
}

/// Figures of speed stand in docs/SPEED.md alone.
#[test]
fn speeds() {
    for page in pages().iter().filter(|page| *page != "docs/SPEED.md") {
        let text = text(page);
        for unit in [" ns", " µs", " %", " instructions", " times plain", " times as"] {
            let figure = text.match_indices(unit).find(|(at, _)| text[..*at].ends_with(|c: char| c.is_ascii_digit()));
            assert!(
                figure.is_none(),
                "{page}: {:?}",
                figure.map(|(at, _)| &text[text[..at].rfind('\n').unwrap_or(0)..at])
            );
        }
    }
}

/// Where docs/SPEED.md quotes the decision that a figure stood behind, docs/DECISIONS.md has one that begins so.
#[test]
fn decided() {
    let decisions = text("docs/DECISIONS.md");
    let speed = text("docs/SPEED.md");
    let tried = between(&speed, "\n## Forms that were tried", "\n## By request");
    let quotes: Vec<&str> = tried.split('"').skip(1).step_by(2).collect();
    assert!(quotes.len() > 10);
    for quote in quotes {
        assert!(decisions.contains(&format!("\n- **{quote}")), "docs/SPEED.md: no decision begins with '{quote}'");
    }
}
