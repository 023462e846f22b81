//! The port beside the Rust: times, growth, state and stack (see README.md).

mod heap;
mod lists;
#[cfg(feature = "calls")]
mod port_calls;
mod stack;
mod timing;
mod worst;

use std::hint::black_box;
use std::io::Write;

use lists::List;
use oracle::bare::{self, Bare, Parsed};
use oracle::call_list::CallList;
use oracle::replay::{Replay, LONGEST_WALK};

#[global_allocator]
static HEAP: heap::Counting = heap::Counting;

/// Bytes of the port's `Calls`, the history and the rows of its releases: as
/// many as a start fills (`objdump -d` of the library, the first `memset` of
/// `gubrestal_run_list`).
const PORT_STATE: usize = 80_944;

extern "C" {
    fn gubrestal_run_list(text: *const u8, length: usize, out: *mut u8, room: usize) -> usize;
}

/// Runs a list by the port, and answers how many bytes of `out` it wrote.
fn port(text: &[u8], out: &mut [u8]) -> usize {
    // SAFETY: the port reads the text and writes out, each within its length.
    unsafe { gubrestal_run_list(text.as_ptr(), text.len(), out.as_mut_ptr(), out.len()) }
}

/// The Rust's answers to a list.
fn answers(list: &List) -> Vec<u8> {
    let mut out = Vec::new();
    bare::answers(&list.text, &mut out);
    out
}

fn by_port(list: &List) -> impl FnMut() + '_ {
    let mut out = vec![0; answers(list).len() + 1];
    move || {
        black_box(port(black_box(&list.text), &mut out));
    }
}

/// From bytes to bytes, as the port.
fn by_rust(list: &List) -> impl FnMut() + '_ {
    let mut out = answers(list);
    move || {
        out.clear();
        bare::answers(black_box(&list.text), &mut out);
    }
}

/// Without reading and printing.
fn by_rust_calls(list: &List) -> impl FnMut() {
    let calls = Parsed::of(&list.text);
    move || {
        black_box(Bare::new().run(black_box(&calls)));
    }
}

/// The port's calls, if the library exports them.
#[cfg(feature = "calls")]
fn by_port_calls(list: &List) -> Option<impl FnMut()> {
    let calls = port_calls::Parsed::of(&list.text);
    let mut port = port_calls::Port::new();
    Some(move || {
        black_box(port.run(black_box(&calls)));
    })
}

#[cfg(not(feature = "calls"))]
fn by_port_calls(_: &List) -> Option<fn()> {
    None
}

const USAGE: &str = "usage: bench [worst SECONDS SEED | list SEED]";

fn main() {
    let arguments: Vec<String> = std::env::args().skip(1).collect();
    let words: Vec<&str> = arguments.iter().map(String::as_str).collect();
    let number = |text: &str| text.parse::<u64>().expect(USAGE);
    match words[..] {
        [] => {
            times();
            releases();
            growth();
            bytes();
        }
        ["worst", seconds, seed] => worst::search(number(seconds), number(seed)),
        ["list", seed] => {
            let text = worst::list(number(seed)).text;
            std::io::stdout().write_all(&text).expect("it is printed");
        }
        _ => panic!("{USAGE}"),
    }
}

/// Stops unless port, Rust and oracle answer alike, and without a refusal.
fn check(list: &List) {
    let mut oracle = CallList::new(LONGEST_WALK);
    let mut expected = Vec::new();
    for line in list.text.split_inclusive(|byte| *byte == b'\n') {
        let answer = oracle.answer(line.trim_ascii_end());
        assert!(!answer.starts_with("refused") && answer != "bad");
        expected.extend((answer + "\n").into_bytes());
    }
    let name = &list.name;
    assert!(answers(list) == expected, "{name}: GroupOrder differs");
    let mut out = vec![0; expected.len() + 1];
    let length = port(&list.text, &mut out);
    assert!(out[..length] == expected, "{name}: the port differs");
}

fn times() {
    println!(
        "| List | Lines | Port µs | Rust µs | Port / Rust \
         | Calls alone: port µs | Rust µs | Port / Rust |"
    );
    println!("|---|--:|--:|--:|--:|--:|--:|--:|");
    for list in lists::all().into_iter().chain(lists::releases()) {
        check(&list);
        let mut none = || ();
        let mut calls = by_port_calls(&list);
        let has_calls = calls.is_some();
        let port_calls: &mut dyn FnMut() = match &mut calls {
            Some(calls) => calls,
            None => &mut none,
        };
        let [port, rust, port_calls, rust_calls] = timing::medians([
            &mut by_port(&list),
            &mut by_rust(&list),
            port_calls,
            &mut by_rust_calls(&list),
        ]);
        let calls = match has_calls {
            true => format!(
                "{port_calls:.1} | {rust_calls:.1} | {:.2}",
                port_calls / rust_calls
            ),
            false => format!("– | {rust_calls:.1} | –"),
        };
        println!(
            "| {} | {} | {port:.1} | {rust:.1} | {:.2} | {calls} |",
            list.name,
            list.lines,
            port / rust
        );
    }
    println!();
}

/// The release that ends a list, without the lines before it.
fn releases() {
    println!("| Release of | Port µs | Rust µs | Port / Rust |");
    println!("|---|--:|--:|--:|");
    for list in lists::releases() {
        let before = list.without_last();
        let [port, port_before, rust, rust_before] = timing::medians([
            &mut by_port(&list),
            &mut by_port(&before),
            &mut by_rust(&list),
            &mut by_rust(&before),
        ]);
        let (port, rust) = (port - port_before, rust - rust_before);
        let name = &list.name;
        println!("| {name} | {port:.1} | {rust:.1} | {:.2} |", port / rust);
    }
    println!();
}

fn growth() {
    println!(
        "| Entries | Offers: port µs | Rust µs | Port / Rust \
         | Release: port µs | Rust µs | Port / Rust |"
    );
    println!("|--:|--:|--:|--:|--:|--:|--:|");
    let none = lists::rising(0);
    let mut start = Vec::new();
    for entries in [16, 32, 64, 128, 256] {
        let (stored, released) = (lists::rising(entries), lists::released(entries));
        check(&stored);
        check(&released);
        let [port_start, port_stored, port_released, rust_start, rust_stored, rust_released] =
            timing::medians([
                &mut by_port(&none),
                &mut by_port(&stored),
                &mut by_port(&released),
                &mut by_rust(&none),
                &mut by_rust(&stored),
                &mut by_rust(&released),
            ]);
        let offers = [port_stored - port_start, rust_stored - rust_start];
        let release = [port_released - port_stored, rust_released - rust_stored];
        let [offers, release] =
            [offers, release].map(|[p, r]| format!("{p:.1} | {r:.1} | {:.2}", p / r));
        println!("| {entries} | {offers} | {release} |");
        start.push(port_start);
    }
    println!(
        "\nA list of no line, the start alone, takes the port {:.1} µs.\n",
        start[0]
    );
}

fn bytes() {
    println!("| Bytes | Port | Rust |");
    println!("|---|--:|--:|");
    for list in [lists::rising(256), lists::spread()] {
        check(&list);
        let calls = Parsed::of(&list.text);
        let heap = heap::held(|| {
            let mut bare = Bare::new();
            bare.run(&calls);
            bare
        });
        let rust = bare::ORDER_SIZE + heap;
        println!("| state, {} | {PORT_STATE} | {rust} |", list.name);
    }
    let lists = lists::all();
    let port = lists.iter().map(|list| stack::depth(by_port(list))).max();
    let rust = lists.iter().map(|list| stack::depth(by_rust(list))).max();
    println!(
        "| stack, deepest of the lists above | {} | {} |",
        port.unwrap_or(0),
        rust.unwrap_or(0)
    );
}
