//! Document 01's example and figures, and differences of
//! docs/DIFFERENCES.md, as the Rust answers them.

use oracle::call_list::CallList;
use oracle::replay::{Replay, LIST_WALK, TOO_LONG};
use oracle::scopes::Scopes;
use oracle::tbf::Tbf;
use oracle::turn::Turn;

/// The answers to calls parted by `/`.
fn answers(mut replay: impl Replay, calls: &str) -> Vec<String> {
    let calls = calls.split('/').map(str::trim);
    calls.map(|call| replay.answer(call.as_bytes())).collect()
}

fn calls(calls: &str) -> Vec<String> {
    answers(CallList::new(LIST_WALK), calls)
}

fn last(list: &str) -> String {
    calls(list).pop().unwrap_or_default()
}

#[test]
fn the_example_list() {
    let answers = calls(
        "T 1000/V 1 1 0/V 1 2 1/D 1 7/S 1 1 0 1 1 7 50 0/S 1 2 1 2 1 7 51 0/\
         E 1 1 0 3 1 7 1 2 0/R 10/E 1 2 1 3 1 7 1 2 10/R 10",
    );
    let expected = [
        "ok",
        "ok",
        "ok",
        "ok",
        "stored",
        "stored",
        "stored",
        "out | 0 0 0 0",
        "joined",
        "out 0:50 1:51 | 0 0 0 0",
    ];
    assert_eq!(answers, expected);
}

#[test]
fn a_number_waits_for_the_timeout() {
    assert_eq!(last("S 1 1 0 0 - 7 9 0"), "late");
    let waits = "T 1000/S 1 1 0 5 - 7 9 0/R 999";
    assert_eq!(last(waits), "out | 0 0 0 0");
    assert_eq!(last(&format!("{waits}/R 1000")), "out 0:9 | 4 0 0 0");
}

#[test]
fn a_set_is_whole_or_discarded() {
    let one = |end: &str| {
        last(&format!(
            "V 1 1 0/S 1 1 0 1 1 7 9 0/E 1 1 0 2 1 7 {end} 0/R 0"
        ))
    };
    assert_eq!(one("1 2"), "out 0:9 | 0 0 0 0");
    assert_eq!(one("1 3"), "out | 0 1 1 0");
    assert_eq!(one("- 3"), "out | 0 1 1 0");
    assert_eq!(last("V 1 1 0/E 1 1 0 1 1 7 - 3 0/R 0"), "out | 0 0 0 0");
    let missing = "T 1/V 1 1 0/V 1 2 0/E 1 1 0 1 1 7 - 3 0/R 18446744073709551615";
    let behind = "S 1 1 0 2 - 7 9 0/R 18446744073709551615";
    assert_eq!(last(&format!("{missing}/{behind}")), "out | 0 0 0 0");
}

#[test]
fn a_heartbeat_rules_numbers_out() {
    // A gap rules out what comes before the number; another writer's sample
    // waits behind it.
    let past = |number: i64| {
        let heartbeats = "H 0 1 4 6 10 - -/H 0 2 1 0 11 - -";
        let calls = format!("G 0 1 0 {}/S 0 2 1 {} - 7 1 0", number - 1, number + 1);
        last(&format!("T 10/V 0 1 0/{heartbeats}/{calls}/R 9")) == "out 1:1 | 0 0 0 0"
    };
    assert_eq!([6, 7, 9, 10].map(past), [false, true, true, false]);
}

#[test]
fn full_entries() {
    let fill: String = (2..258).map(|n| format!("S 1 1 0 {n} - 7 9 0/")).collect();
    assert_eq!(last(&format!("{fill}S 1 1 0 0 - 7 9 0")), "late");
    assert_eq!(last(&format!("{fill}S 1 1 0 258 - 7 9 0")), "refused 4");
}

#[test]
fn marker_and_due_time() {
    assert_eq!(
        answers(Scopes::new(), "M -4294967296"),
        ["ffffffff00000000"]
    );
    let due = answers(Tbf::new(), "D 5 4294967295 0 999999999");
    assert_eq!(due, ["10 294967294"]);
}

#[test]
fn a_turn_is_its_rows_and_a_release() {
    let calls = "U 0 0/S 1 1 0 2 - 7 9 0/D 1 7/U 0 0/P 1 1 8 0/U 0 1/\
                 Q 1 1 0 1 2 2 2 - -/P 1 9 0 5/U 0 1/U 0 0";
    let expected = [
        "idle",
        "stored",
        "ok",
        "refused 5",
        "ok",
        "refused 9",
        "ok",
        "ok",
        "out 0:9 | 0 0 0 0 | 0 0 0 0",
        "idle",
    ];
    assert_eq!(answers(Turn::new(LIST_WALK), calls), expected);
}

/// Outside demand 2's cover the Rust differs from document 01.
#[test]
fn the_rust_wraps_and_walks() {
    let end = "E 1 1 0 2 1 7 9223372036854775807 -9223372036854775808 0";
    let overflow = format!("V 1 1 0/S 1 1 0 1 1 7 9 0/{end}/R 0");
    assert_eq!(last(&overflow), "out 0:9 | 0 0 0 0");
    let most = |group| format!("S {group} 1 0 9223372036854775807 - 7 1 0");
    let skipped = format!("T 0/{}/{}/{}/R 0", most(1), most(2), most(3));
    assert_eq!(
        last(&skipped),
        "out 0:1 0:1 0:1 | 9223372036854775802 0 0 0"
    );
    let walk = "H 0 1 1 0 9223372036854775807 - -/S 0 1 0 9223372036854775807 - 0 5 0/R 0";
    assert_eq!(last(walk), TOO_LONG);
}
