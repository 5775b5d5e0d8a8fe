//! The printing program and the simple interpreter print the same, byte for byte; the vectors' texts are in vectors.rs.

use std::path::Path;

use profile_tests::model::{self, Held};
use profile_tests::programs::{self, show, Output};
use profile_tests::{pages, seeds};

#[test]
fn examples() {
    let folder = Path::new(env!("CARGO_MANIFEST_DIR")).join("../examples");
    let mut count = 0;
    for entry in std::fs::read_dir(folder).unwrap() {
        let path = entry.unwrap().path();
        if path.extension().is_some_and(|extension| extension == "text") {
            let want = std::fs::read_to_string(path.with_extension("out")).unwrap();
            assert_eq!(show(&std::fs::read(&path).unwrap()), want, "{path:?}");
            count += 1;
        }
    }
    assert!(count >= 16);
}

/// examples/README.md has, whole, what is printed for a profile whose sums are held.
#[test]
fn the_quoted_example() {
    let lines = pages::text("examples/bias.out").lines().map(|line| format!("    {line}\n")).collect::<String>();
    assert!(pages::text("examples/README.md").contains(&format!("\n\n{lines}")), "{lines}");
}

/// The texts hold sums at both limits often enough (W8).
#[test]
fn random_texts() {
    let mut held = Held::default();
    seeds::for_each_text(4000, |text, _| {
        assert_eq!(show(text), model::show(text));
        held.add_run(model::by_source(text, &mut [0; 64], 1_000_000));
    });
    if seeds::all() {
        assert!(held.least() > 100, "{held:?}");
    }
}

#[test]
fn long_inputs() {
    for length in [4096, 4097, 5000, 200_000] {
        let text = vec![0; length];
        assert_eq!(show(&text), model::show(&text), "{length} bytes");
    }
}

/// A directory is no input: nothing is printed, and the error is named.
#[test]
fn an_input_that_cannot_be_read() {
    let Output { out, error, .. } = programs::run_on_directory("bin/show");
    assert_eq!(out, "");
    assert_eq!(error, "show: cannot read standard input: Is a directory\n");
}

/// A full device takes no output: the error is named.
#[test]
fn an_output_that_cannot_be_written() {
    let Output { error, .. } = programs::run_to_full_device("bin/show", &[0]);
    assert_eq!(error, "show: cannot write to standard output: No space left on device\n");
}
