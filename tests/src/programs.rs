//! The programs that `./test` builds, run as a user runs them.

use std::fs::File;
use std::io::Write;
use std::path::{Path, PathBuf};
use std::process::{Command, Stdio};
use std::sync::atomic::{AtomicUsize, Ordering};

pub struct Output {
    pub status: i32,
    pub out: String,
    pub error: String,
}

fn command(program: &str) -> Command {
    Command::new(Path::new(env!("CARGO_MANIFEST_DIR")).join("../target").join(program))
}

fn output(mut command: Command) -> Output {
    let output = command.output().unwrap_or_else(|error| panic!("{command:?}: {error}; ./test builds it"));
    Output {
        status: output.status.code().unwrap_or(-1),
        out: String::from_utf8(output.stdout).unwrap(),
        error: String::from_utf8(output.stderr).unwrap(),
    }
}

/// Runs a program of `target/` on these arguments and this input.
pub fn run(program: &str, arguments: &[&Path], input: &[u8]) -> Output {
    let file = file(input);
    let mut command = command(program);
    command.args(arguments).stdin(File::open(file.path()).unwrap());
    output(command)
}

/// What the printing program prints for a text.
pub fn show(text: &[u8]) -> String {
    let Output { status, out, error } = run("bin/show", &[], text);
    assert_eq!((status, error.as_str()), (0, ""));
    out
}

/// Runs a program whose input is a directory.
pub fn run_on_directory(program: &str) -> Output {
    let mut command = command(program);
    command.stdin(File::open(env!("CARGO_MANIFEST_DIR")).unwrap());
    output(command)
}

/// Runs a program whose output is a device that takes nothing.
pub fn run_to_full_device(program: &str, input: &[u8]) -> Output {
    let file = file(input);
    let mut command = command(program);
    let full = File::options().write(true).open("/dev/full").unwrap();
    command.stdin(File::open(file.path()).unwrap()).stdout(full).stderr(Stdio::piped());
    let output = command.spawn().unwrap().wait_with_output().unwrap();
    Output {
        status: output.status.code().unwrap_or(-1),
        out: String::new(),
        error: String::from_utf8(output.stderr).unwrap(),
    }
}

/// A file that lasts as long as this value.
pub struct Temporary(PathBuf);

impl Temporary {
    pub fn path(&self) -> &Path {
        &self.0
    }
}

impl Drop for Temporary {
    fn drop(&mut self) {
        let _ = std::fs::remove_file(&self.0);
    }
}

/// A file of these bytes.
pub fn file(bytes: &[u8]) -> Temporary {
    static COUNT: AtomicUsize = AtomicUsize::new(0);
    let name = format!("profile-{}-{}", std::process::id(), COUNT.fetch_add(1, Ordering::Relaxed));
    let path = std::env::temp_dir().join(name);
    File::create(&path).unwrap().write_all(bytes).unwrap();
    Temporary(path)
}
