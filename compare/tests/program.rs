//! The program's subcommands, as far as they need no archive.

use std::process::{Command, Output};

fn run(arguments: &[&str]) -> Output {
    Command::new(env!("CARGO_BIN_EXE_compare"))
        .args(arguments)
        .output()
        .unwrap()
}

#[test]
fn wrong_arguments_get_the_usage() {
    for arguments in [
        &[][..],
        &["frown"],
        &["judge"],
        &["cases", "2"],
        &["library", "--cases"],
        &["library", "--cases", "x"],
        &["library", "--seed", "-1"],
        &["library", "--frown", "1"],
        &["bench", "1", "2"],
        &["night", "1"],
        &["night-files"],
    ] {
        let output = run(arguments);
        assert_eq!(output.status.code(), Some(2), "{arguments:?}");
        assert!(output.stderr.starts_with(b"usage: "), "{arguments:?}");
    }
}

#[test]
fn stored_cases_are_run() {
    let output = run(&["cases"]);
    assert!(output.status.success());
    assert!(output.stdout.ends_with(b" cases, 0 wrong\n"));
}

/// One line closed by octet 10.
#[test]
fn a_folder_is_judged() {
    for (folder, line) in [
        (
            "../examples/whole-case",
            "verdict 21 name 1 record 3 up 0\n",
        ),
        ("../examples/no-such-folder", "no book\n"),
    ] {
        let output = run(&["judge", folder]);
        assert!(output.status.success());
        assert_eq!(String::from_utf8(output.stdout).unwrap(), line);
        assert!(output.stderr.is_empty());
    }
}

#[cfg(not(any(
    feature = "readers",
    feature = "judge",
    feature = "lines",
    feature = "session"
)))]
#[test]
fn without_a_library_there_is_nothing_to_compare() {
    let output = run(&["library", "--seed", "2", "--cases", "1"]);
    assert_eq!(output.status.code(), Some(2));
    assert!(output.stderr.starts_with(b"compare: built without"));
}

/// Never a run that measures: those take their time, and what they find is no matter of right or
/// wrong.
#[cfg(any(debug_assertions, not(any(feature = "judge", feature = "lines"))))]
#[test]
fn nothing_is_measured_without_a_library_or_in_a_slow_build() {
    for command in ["bench", "night", "comparing"] {
        let output = run(&[command]);
        assert_eq!(output.status.code(), Some(2), "{command}");
        let stderr = String::from_utf8_lossy(&output.stderr);
        assert!(
            stderr.starts_with("compare: built without ") || stderr.contains(" needs a build "),
            "{command}: {stderr}"
        );
        assert!(output.stdout.is_empty(), "{command}");
    }
}
