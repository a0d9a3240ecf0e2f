//! Runs the tool.

// No file of tests uses all of it.
#![allow(dead_code)]

use std::fs;
use std::io::Write;
use std::path::{Path, PathBuf};
use std::process::{Command, Output, Stdio};

/// What the tool is asked, in the folder of the sample days.
pub fn run(arguments: &[&str], input: &[u8]) -> Output {
    let mut tool = Command::new(env!("CARGO_BIN_EXE_guvontsira"))
        .args(arguments)
        .current_dir(samples())
        .stdin(Stdio::piped())
        .stdout(Stdio::piped())
        .stderr(Stdio::piped())
        .spawn()
        .unwrap();
    let mut stdin = tool.stdin.take().unwrap();
    std::thread::scope(|scope| {
        // A tool that does not read its input closes it early.
        scope.spawn(move || drop(stdin.write_all(input)));
        tool.wait_with_output().unwrap()
    })
}

/// What it writes where all is well.
pub fn out(arguments: &[&str], input: &[u8]) -> String {
    let output = run(arguments, input);
    assert_eq!(text(&output.stderr), "", "{arguments:?}");
    assert_eq!(output.status.code(), Some(0), "{arguments:?}");
    text(&output.stdout)
}

/// What it says on standard error, with nothing on standard output.
pub fn error(arguments: &[&str], input: &[u8], status: i32) -> String {
    let output = run(arguments, input);
    assert_eq!(text(&output.stdout), "", "{arguments:?}");
    assert_eq!(output.status.code(), Some(status), "{arguments:?}");
    text(&output.stderr)
}

pub fn text(bytes: &[u8]) -> String {
    String::from_utf8(bytes.to_vec()).unwrap()
}

pub fn samples() -> PathBuf {
    Path::new(env!("CARGO_MANIFEST_DIR")).join("../../samples")
}

/// A file of the sample days.
pub fn sample(name: &str) -> String {
    fs::read_to_string(samples().join(name)).unwrap()
}
