//! The bench over the proved archive: its listing and its exit status.
#![cfg(feature = "proved")]

use std::fs::File;
use std::process::{Command, Output, Stdio};

/// The bench on a file as its input, with this output.
fn bench(input: &str, output: Stdio) -> Output {
    Command::new(env!("CARGO_BIN_EXE_bench"))
        .stdin(File::open(input).expect(input))
        .stdout(output)
        .output()
        .expect("the bench runs")
}

fn kit() -> String {
    format!("{}/../crates/bench/stdin", env!("CARGO_MANIFEST_DIR"))
}

#[test]
fn lists_the_example_kit() {
    let listed = bench(&kit(), Stdio::piped());
    let wanted = std::fs::read(format!(
        "{}/../crates/bench/stdout",
        env!("CARGO_MANIFEST_DIR")
    ));
    assert_eq!(listed.status.code(), Some(0));
    assert_eq!(listed.stdout, wanted.expect("the listing"));
    assert!(listed.stderr.is_empty());
}

#[test]
fn an_empty_input_is_no_failure() {
    let listed = bench("/dev/null", Stdio::piped());
    assert_eq!(listed.status.code(), Some(0));
    assert_eq!(listed.stdout, b"refused 1 0 A\n");
}

#[test]
fn an_input_that_cannot_be_read_is_1() {
    let failed = bench(env!("CARGO_MANIFEST_DIR"), Stdio::piped());
    assert_eq!(failed.status.code(), Some(1));
    assert!(failed.stdout.is_empty());
    assert!(!failed.stderr.is_empty());
}

#[test]
fn an_output_that_cannot_be_written_is_2() {
    let full = File::options()
        .write(true)
        .open("/dev/full")
        .expect("/dev/full");
    let failed = bench(&kit(), full.into());
    assert_eq!(failed.status.code(), Some(2));
    assert!(!failed.stderr.is_empty());
}
