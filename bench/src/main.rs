//! Tables of ratios: the proved calls beside plain Rust and plain C of the same work, in one run.

mod compiler;
mod cursor;
mod executors;
mod inspection;
mod pairs;
mod pieces;
mod previews;
mod reader;
mod runs;
mod tables;
mod texts;
mod timing;
mod translations;
mod walker;

const LONG_RUN: u32 = 20_000_000;
const SKIPPING_RUN: u32 = 1_000_000;

fn loops() {
    let loops = [texts::loops(), vec![texts::holding_loop()]].concat();
    runs::source(&loops, LONG_RUN);
    runs::assembly(&loops, LONG_RUN);
    runs::machine("machine code, ns per record", &loops, LONG_RUN);
    tables::test();
}

fn main() {
    if std::env::args().nth(1).as_deref() == Some("loops") {
        return loops();
    }
    println!("medians of {} interleaved runs; a ratio is the proved call's time to the other's", timing::ROUNDS);
    println!("times are the thread's own; stores and memories are cleared before each run; outputs and tables are not");
    loops();
    let skipping = texts::skipping_loops();
    runs::skipped_branch(&skipping, SKIPPING_RUN);
    runs::machine("machine code, the same, ns per record", &skipping, SKIPPING_RUN);
    let (long, profiles, loops) = (texts::long(), texts::profiles(), texts::loops());
    runs::short(&[profiles.as_slice(), &long[..1]].concat(), 10);
    runs::short(&profiles, 1_000_000);
    for budget in [10, 1_000_000] {
        previews::source(&profiles, budget);
        previews::machine(&profiles, budget);
        pairs::texts(&profiles, budget);
    }
    previews::source(&loops, 1_000_000);
    previews::machine(&loops, 1_000_000);
    pairs::texts(&loops, 1_000_000);
    pairs::longest_code();
    for piece in [10, 100, 1000] {
        pieces::loops(&loops, 1_000_000, piece);
    }
    pieces::single(&profiles);
    tables::loading();
    tables::reading_back();
    inspection::codes(&[long.as_slice(), &profiles].concat());
    translations::texts(&long, &profiles);
    translations::shapes(&texts::shapes());
}
