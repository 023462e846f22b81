//! Document 01's call list with pages of all groups and readers, reckoned
//! from the Rust's maps.

use core::fmt::Write;
use core::time::Duration;

use crate::call_list::CallList;
use crate::line::Fields;
use crate::lists::{self, Line};
use crate::replay::{Replay, LIST_WALK};
use crate::rng::Rng;

/// The list that the program keeps, and what its words start as.
const LENT: usize = 260;
const UNWRITTEN: u64 = 9;

const GROUPS: usize = 8;
const READERS: usize = 8;
const ROW: usize = 4;
const PAGE: usize = GROUPS * READERS * ROW;

/// The offer times of a group's samples at one reader: pending, and held.
pub(crate) type Times = (Vec<Duration>, Vec<Duration>);

pub struct Page {
    calls: CallList,
    list: [u64; LENT],
}

impl Page {
    pub fn new(longest_walk: u64) -> Self {
        Self {
            calls: CallList::new(longest_walk),
            list: [UNWRITTEN; LENT],
        }
    }

    fn page(&mut self, words: u64) -> String {
        let words = usize::try_from(words).unwrap_or(LENT).min(LENT);
        if words < PAGE {
            return "refused 5".into();
        }
        let order = &self.calls.0.history;
        let mut rows = order.offer_times().into_iter();
        for group in 0..GROUPS {
            let cells = rows.next();
            for reader in 0..READERS {
                let row = cells.as_ref().map_or([0; ROW], |cells| row(&cells[reader]));
                let at = (group * READERS + reader) * ROW;
                self.list[at..at + ROW].copy_from_slice(&row);
            }
        }
        let mut text = format!("page {}", order.entry_count());
        for word in &self.list[..words] {
            write!(text, " {word}").expect("a string takes all");
        }
        text
    }
}

/// The words of a known group's row: tag, pending, held, oldest time.
fn row((pending, held): &Times) -> [u64; ROW] {
    let mut times: Vec<u64> = Vec::new();
    for time in pending.iter().chain(held) {
        times.push(time.as_nanos().try_into().expect("a time of 64 bits"));
    }
    times.sort_unstable();
    let (pending, held) = (pending.len() as u64, held.len() as u64);
    match times.first() {
        Some(oldest) => [2, pending, held, *oldest],
        None => [1, pending, held, 0],
    }
}

fn words(line: &[u8]) -> Option<u64> {
    let mut fields = Fields::of(line);
    let words = match fields.word()? {
        b"P" => fields.unsigned()?,
        _ => return None,
    };
    fields.end()?;
    Some(words)
}

impl Replay for Page {
    fn answer(&mut self, line: &[u8]) -> String {
        match words(line) {
            Some(words) => self.page(words),
            None => self.calls.answer(line),
        }
    }

    fn covered(&self) -> bool {
        self.calls.covered()
    }
}

/// A call list with pages in it, and one at its end.
pub fn list(seed: u64, index: u64, first: bool) -> Vec<Line> {
    let mut rng = Rng::of(seed ^ 0x5041_4745, index);
    let mut lines = Vec::new();
    for line in lists::list(seed, index, first) {
        lines.push(line);
        if rng.once_in(6) {
            lines.push(page_line(&mut rng));
        }
    }
    lines.push("P 260".into());
    debug_assert!(lists::answers(&mut Page::new(LIST_WALK), &lines).is_some());
    lines
}

fn page_line(rng: &mut Rng) -> Line {
    let words: &[&str] = &[
        "256",
        "257",
        "260",
        "255",
        "0",
        "18446744073709551615",
        "18446744073709551616",
        "-1",
    ];
    let place = if rng.once_in(4) {
        rng.below(words.len() as u64)
    } else {
        rng.below(3)
    };
    format!("P {}", words[place as usize]).into()
}

/// No group; groups without samples; eight groups in any order, each at its
/// own reader; ends alone; equal times, times at both ends; samples pending
/// and held; 256 entries; a fresh start.
pub fn limits() -> Vec<Line> {
    let last = u64::MAX;
    let mut lines: Vec<String> = ["P 256", "P 255", "P", "P 256 1", "T 1000", "P 260"]
        .map(String::from)
        .into();
    lines.push("H 200 1 1 2 3 - -".into());
    lines.push("G 7 1 3 4".into());
    lines.push("P 260".into());
    for (place, group) in [90, 3, 255, 0, 41, 6].into_iter().enumerate() {
        lines.push(format!("E {group} 1 {place} 5 - 7 - - 1"));
        lines.push("P 256".into());
        lines.push(format!(
            "S {group} 1 {place} 4 - 7 {place} {}",
            [0, last, 8, 8, 1, last - 1][place]
        ));
        lines.push(format!(
            "S {group} 2 {place} 6 - 7 {place} {}",
            [last, 0, 8, 7, 2, last][place]
        ));
        lines.push(format!("S {group} 2 7 6 9 7 {place} 5"));
        lines.push("P 256".into());
    }
    lines.push("S 100 1 0 1 - 7 1 1".into());
    lines.push("P 260".into());
    lines.push("T 1000".into());
    lines.push("P 260".into());
    for (group, writer) in [(1, 1), (1, 2), (2, 1)] {
        lines.push(format!("V {group} {writer} 0"));
    }
    lines.push(format!("S 1 1 0 1 1 7 5 {last}"));
    lines.push("S 1 1 3 1 1 7 5 6".into());
    lines.push("S 1 2 3 2 1 7 5 4".into());
    lines.push("E 1 1 0 2 1 7 1 1 3".into());
    lines.push("S 2 1 1 1 1 7 9 0".into());
    lines.push("P 260".into());
    for time in [0, 5, last] {
        lines.push(format!("R {time}"));
        lines.push("P 260".into());
    }
    lines.push("T 18446744073709551615".into());
    for number in 1..=257 {
        let (group, reader) = (number % 8, number % 7);
        lines.push(match number % 3 {
            0 => format!("E {group} 1 {reader} {number} 1 7 - - {number}"),
            1 => format!(
                "S {group} 1 {reader} {number} 1 7 {number} {}",
                600 - number
            ),
            _ => format!("S {group} 1 {reader} {number} - 7 {number} {}", number / 9),
        });
        if number > 254 {
            lines.push("P 256".into());
        }
    }
    lines.push("R 700".into());
    lines.push("P 260".into());
    lines.into_iter().map(String::into_bytes).collect()
}
