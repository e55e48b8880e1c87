//! That a call which needs more stack than there is ends the run.

use std::env;
use std::hint::black_box;
use std::os::unix::process::ExitStatusExt;
use std::process::{Command, Stdio};

use compare::small_stack::{on_small_stack, STACK_OCTETS};

/// The variable that asks a run of this test for a call that needs so many octets of stack.
const NEEDED: &str = "COMPARE_TEST_STACK_OCTETS";

/// Needs at least so many KiB of stack.
fn use_stack(kib: usize) -> u64 {
    let frame = black_box([kib as u8; 1024]);
    if kib == 0 {
        return 0;
    }
    use_stack(kib - 1) + u64::from(black_box(&frame)[kib % 1024])
}

/// A run of this test by itself in another process, since it may not come back.
#[test]
fn a_call_that_needs_more_ends_the_run() {
    if let Ok(octets) = env::var(NEEDED) {
        let octets: usize = octets.parse().unwrap();
        on_small_stack(move || use_stack(octets / 1024));
        return;
    }
    let ended_by_signal = |octets: usize| {
        let status = Command::new(env::current_exe().unwrap())
            .args(["--exact", "a_call_that_needs_more_ends_the_run"])
            .env(NEEDED, octets.to_string())
            .stdout(Stdio::null())
            .stderr(Stdio::null())
            .status()
            .unwrap();
        assert!(status.success() || status.signal().is_some(), "{status}");
        !status.success()
    };
    assert!(!ended_by_signal(STACK_OCTETS / 2));
    assert!(ended_by_signal(STACK_OCTETS));
}
