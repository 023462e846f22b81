//! What `compare` says of programs that answer, and of ones that don't.

use std::os::unix::fs::PermissionsExt;
use std::process::{Command, Stdio};
use std::{fs, path::Path};

/// The last line that `compare` prints of a shell script, and the rest.
fn compared(name: &str, script: &str, kind: &str, seconds: &str) -> (String, String) {
    let file = Path::new(env!("CARGO_TARGET_TMPDIR")).join(name);
    let rust = env!("CARGO_BIN_EXE_call-list");
    let text = format!("#!/bin/sh\n{}\n", script.replace("RUST", rust));
    fs::write(&file, text).expect("a writable folder");
    fs::set_permissions(&file, fs::Permissions::from_mode(0o755)).expect("the file is ours");
    let output = Command::new(env!("CARGO_BIN_EXE_compare"))
        .args(["40", "1"])
        .arg(&file)
        .args([kind, seconds])
        // What is left of a program may keep a pipe open.
        .stderr(Stdio::null())
        .output()
        .expect("compare runs");
    let text = String::from_utf8(output.stdout).expect("text");
    let (rest, last) = text.trim_end().rsplit_once('\n').unwrap_or(("", &text));
    let last = last.trim_end();
    assert_eq!(output.status.success(), last.ends_with(" 0 failed"));
    (last.into(), rest.into())
}

fn fails(name: &str, script: &str, said: &str) {
    fails_within(name, script, said, "30");
}

fn fails_within(name: &str, script: &str, said: &str, seconds: &str) {
    let (last, rest) = compared(name, script, "call-list", seconds);
    assert!(!last.ends_with(" 0 failed"), "{name}: {last}");
    assert!(rest.contains(said), "{name}: {rest}");
}

#[test]
fn the_rust_passes() {
    // The limits are one list more.
    let passed = ("41 passed, 0 failed".into(), String::new());
    assert_eq!(compared("rust", "exec RUST", "call-list", "30"), passed);
    let figures = "exec RUST --figures";
    assert_eq!(compared("figures", figures, "figures", "30"), passed);
}

#[test]
fn other_programs_fail() {
    fails("none", "exit 0", "but the program: nothing");
    fails("early", "head -n 20 | RUST", "but the program: nothing");
    fails("extra", "RUST; echo bad", "and the program: bad");
    fails("status", "RUST; exit 4", "ended with exit status: 4");
    fails("signal", "RUST; kill -SEGV $$", "ended with signal: 11");
    fails(
        "newline",
        "printf %s \"$(RUST)\"",
        "last line has no newline",
    );
    fails("limit", "RUST | sed 's/^refused 1/refused 2/'", "refused 1");
}

/// Nothing is waited for without end.
#[test]
fn programs_without_end_fail() {
    let slow = |name, script| fails_within(name, script, "didn't end within 1 s", "1");
    slow("lives on", "RUST; exec >&-; exec sleep 9");
    slow("reads nothing", "exec sleep 9");
    slow("closes all", "exec <&- >&-; exec sleep 9");
    slow("keeps open", "RUST; sleep 9 & exit 0");
    fails("prints on", "exec yes", "printed too much");
}

#[test]
fn nothing_compared_is_no_success() {
    let compare = |arguments: &[&str]| {
        let output = Command::new(env!("CARGO_BIN_EXE_compare"))
            .args(arguments)
            .output();
        output.expect("compare runs").status.code()
    };
    let rust = env!("CARGO_BIN_EXE_call-list");
    assert_eq!(compare(&["1", "1", rust]), Some(0));
    assert_eq!(compare(&["0", "1", rust]), Some(2));
    assert_eq!(compare(&["1", "1", rust, "other"]), Some(2));
    assert_eq!(compare(&["1", "1", "no such program"]), Some(2));
}
