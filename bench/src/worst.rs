//! A search for the release that takes the port longest: lists within the
//! limits, built from patterns at random, each with one release.

use std::collections::BTreeMap;
use std::time::{Duration, Instant};

use crate::lists::{List, DIGEST, ENTRIES};
use crate::{answers, by_port, by_rust, port, timing};

/// So many of the slowest lists are printed, unlike in contents or rows.
const PRINTED: usize = 12;

const NUMBERS: [&str; 6] = [
    "rising",
    "falling",
    "one",
    "random",
    "few",
    "rising, far apart",
];
const CONTENTS: [&str; 7] = [
    "plain",
    "members of one set",
    "sets of some members",
    "ends",
    "members and ends of few sets",
    "anything",
    "members, an end, plain of its number",
];
const ROWS: [&str; 4] = ["no row", "one row", "all pairs", "256 equal rows"];
const GROUPS: [u64; 4] = [1, 1, 2, 8];

/// A pair of the first group and writer, for another reader.
const APART: &str = "0 0 7";

/// Random numbers by xorshift.
struct Random(u64);

impl Random {
    fn below(&mut self, end: u64) -> u64 {
        self.0 ^= self.0 << 13;
        self.0 ^= self.0 >> 7;
        self.0 ^= self.0 << 17;
        (u128::from(self.0.wrapping_mul(0x2545_F491_4F6C_DD1D)) * u128::from(end) >> 64) as u64
    }

    fn pick<T: Copy>(&mut self, from: &[T]) -> T {
        from[self.below(from.len() as u64) as usize]
    }
}

/// The list of a seed; its name says the patterns.
pub fn list(seed: u64) -> List {
    let mut random = Random(seed.wrapping_mul(0x9E37_79B9_7F4A_7C15) | 1);
    random.below(1);
    let numbers = random.pick(&NUMBERS);
    let contents = random.pick(&CONTENTS);
    let rows = random.pick(&ROWS);
    let groups = random.pick(&GROUPS);
    let (writers, readers) = (random.pick(&[1, 1, 2, 4]), random.pick(&[1, 1, 2, 8]));
    let shuffled = random.below(4) == 0;
    let sets = random.pick(&[1, 2, 8, 64]);
    // What isn't ready stays, or all is released, whole or not.
    let stays = random.below(3) == 0;
    // All writers are past all numbers.
    let past = random.below(3) == 0;
    let apart = random.below(3) == 0;
    let said = |is: bool, text: &'static str| if is { text } else { "" };
    let order = said(shuffled, ", shuffled");
    let last = said(apart, ", the last entry's apart");
    let more = [said(past, "; heartbeats"), said(stays, "; in time")].concat();
    let mut list = List::new(&format!(
        "{contents}; numbers {numbers}{order}; {rows}; {groups} groups, {writers} writers, \
         {readers} readers{last}{more}"
    ));
    list.push("T 1000".into());
    let pair = |place: u64| {
        let (group, rest) = (place % groups, place / groups);
        format!("{group} {} {}", rest % writers, rest / writers % readers)
    };
    match rows {
        "one row" => list.push(format!("V {}", pair(0))),
        "all pairs" => {
            let pairs = 0..(groups * writers * readers).min(256);
            pairs.for_each(|place| list.push(format!("V {}", pair(place))));
        }
        "256 equal rows" => {
            let row = match apart {
                true => format!("V {APART}"),
                false => format!("V {}", pair(0)),
            };
            (0..256).for_each(|_| list.push(row.clone()));
        }
        _ => {}
    }
    if past {
        for writer in 0..groups * writers {
            let (group, writer) = (writer % groups, writer / groups);
            list.push(format!("H {group} {writer} 1 0 1000000 - -"));
        }
    }
    let step = groups * writers * readers;
    let mut entries: Vec<String> = (0..ENTRIES)
        .map(|place| {
            let number = match numbers {
                "rising" => place / step + 1,
                "falling" => (ENTRIES - 1 - place) / step + 1,
                "one" => 1,
                "random" => random.below(ENTRIES) + 1,
                "few" => random.below(4) + 1,
                _ => 1000 * (place / step + 1),
            };
            let set = match contents {
                "sets of some members" => number / (sets + 1) * (sets + 1) + 1,
                "members and ends of few sets" | "anything" => random.below(sets) + 1,
                "ends" => place + 1,
                _ => 1,
            };
            let is_end = match contents {
                "ends" => true,
                "sets of some members" => number % (sets + 1) == sets,
                "members and ends of few sets" => random.below(4) == 0,
                "anything" => random.below(3) == 0,
                "members, an end, plain of its number" => place == ENTRIES / 2,
                _ => false,
            };
            let plain = match contents {
                "plain" => true,
                "anything" => random.below(3) == 0,
                "members, an end, plain of its number" => place > ENTRIES / 2,
                _ => false,
            };
            let number = match contents {
                "members, an end, plain of its number" => place.min(ENTRIES / 2) + 1,
                _ => number,
            };
            let pair = match (apart, place + 1 == ENTRIES) {
                (true, true) => APART.into(),
                (true, false) => pair(0),
                (false, _) => pair(place),
            };
            if is_end {
                let numbers = random.pick(&["- -", "1 -", "1 2"]);
                format!("E {pair} {number} {set} {DIGEST} {numbers} 0")
            } else if plain {
                format!("S {pair} {number} - {DIGEST} {place} 0")
            } else {
                format!("S {pair} {number} {set} {DIGEST} {place} 0")
            }
        })
        .collect();
    if shuffled {
        for place in 1..entries.len() {
            entries.swap(place, random.below(place as u64 + 1) as usize);
        }
    }
    entries.into_iter().for_each(|line| list.push(line));
    list.push(format!("R {}", if stays { 999 } else { 1000 }));
    list
}

/// Port and Rust, in microseconds, of the last line, a release.
pub fn release(list: &List, times: usize) -> [f64; 2] {
    let before = list.without_last();
    let port = timing::least(by_port(list), times) - timing::least(by_port(&before), times);
    let rust = timing::least(by_rust(list), times) - timing::least(by_rust(&before), times);
    [port, rust]
}

/// Tries lists from a seed on for some seconds, and prints the slowest.
pub fn search(seconds: u64, first: u64) {
    let end = Instant::now() + Duration::from_secs(seconds);
    let mut kept: BTreeMap<String, (f64, u64)> = BTreeMap::new();
    let mut seed = first;
    while Instant::now() < end {
        let list = list(seed);
        let expected = answers(&list);
        let mut out = vec![0; expected.len() + 1];
        let length = port(&list.text, &mut out);
        assert!(out[..length] == expected, "seed {seed}: the port differs");
        assert!(!contains(&expected, b"refused"), "seed {seed}: a refusal");
        let time = release(&list, 2)[0];
        let patterns: Vec<&str> = list.name.split("; ").collect();
        let slowest = kept.entry([patterns[0], patterns[2]].concat());
        let slowest = slowest.or_insert((time, seed));
        if time > slowest.0 {
            *slowest = (time, seed);
        }
        seed += 1;
    }
    println!("Seeds {first} to {}; the slowest releases:\n", seed - 1);
    println!("| Seed | Patterns | Port µs | Rust µs | Port / Rust |");
    println!("|--:|---|--:|--:|--:|");
    let mut kept: Vec<(f64, u64)> = kept.into_values().collect();
    kept.sort_by(|a, b| b.0.total_cmp(&a.0));
    for (_, seed) in kept.into_iter().take(PRINTED) {
        let list = list(seed);
        let [port, rust] = release(&list, 9);
        println!(
            "| {seed} | {} | {port:.1} | {rust:.1} | {:.1} |",
            list.name,
            port / rust
        );
    }
}

fn contains(text: &[u8], part: &[u8]) -> bool {
    text.windows(part.len()).any(|window| window == part)
}
