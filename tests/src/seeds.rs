//! The loop of every random test. A failure names its seed; with `PROFILE_SEED=N` each random test runs only that one,
//! and `-- --nocapture` shows it and its text.

use crate::generator::{self, Random};
use crate::model;

/// The one seed that PROFILE_SEED names.
fn only() -> Option<u64> {
    let seed = std::env::var("PROFILE_SEED").ok()?;
    Some(seed.parse().unwrap_or_else(|_| panic!("PROFILE_SEED={seed} names no seed")))
}

/// Whether the tests run all their seeds: what a test counts over them says something only then.
pub fn all() -> bool {
    only().is_none()
}

/// Names the seed where its test panics.
struct Named(u64);

impl Drop for Named {
    fn drop(&mut self) {
        if std::thread::panicking() {
            eprintln!("seed {0}; PROFILE_SEED={0} runs it alone", self.0);
        }
    }
}

fn for_each_seed(seeds: u64, mut test: impl FnMut(u64, &mut Random)) {
    let only = only();
    for seed in only.map_or(0..seeds, |seed| seed..seed + 1) {
        if only.is_some() {
            println!("seed {seed}");
        }
        let _named = Named(seed);
        test(seed, &mut Random::new(seed));
    }
}

/// Each of so many seeds' numbers.
pub fn for_each(seeds: u64, mut test: impl FnMut(&mut Random)) {
    for_each_seed(seeds, |_, random| test(random));
}

/// Each of so many seeds' texts, with the rest of its numbers.
pub fn for_each_text(seeds: u64, mut test: impl FnMut(&[u8], &mut Random)) {
    for_each(seeds, |random| {
        let text = generator::text(random);
        if !all() {
            println!("{} bytes {text:02x?}\n{}", text.len(), model::show(&text));
        }
        test(&text, random);
    });
}

/// Each of these, with the numbers of its place.
pub fn for_each_of<T>(items: &[T], mut test: impl FnMut(&T, &mut Random)) {
    for_each_seed(items.len() as u64, |seed, random| test(&items[seed as usize % items.len()], random));
}
