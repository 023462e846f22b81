//! Lists around the limits of groups, pairs, rows and entries.

use super::text::{self, Info, Pair};
use crate::rng::Rng;

/// Calls of all kinds that touch up to eleven groups.
pub(super) fn groups(rng: &mut Rng) -> Vec<String> {
    let mut lines = vec![text::fresh(10)];
    for group in 0..rng.between(7, 11) {
        lines.extend(touches(rng, group as u8, 1));
    }
    around(rng, &mut lines, |rng| (rng.below(12) as u8, 1));
    lines
}

/// Calls of all kinds that touch up to 36 pairs of group and writer.
pub(super) fn pairs(rng: &mut Rng) -> Vec<String> {
    let mut lines = vec![text::fresh(10)];
    let groups = rng.between(1, 8);
    for pair in 0..rng.between(30, 36) {
        lines.extend(touches(rng, (pair % groups) as u8, (pair / groups) as u8));
    }
    around(rng, &mut lines, |rng| {
        (rng.below(9) as u8, rng.below(40) as u8)
    });
    lines
}

/// A call that makes a writer known, or one before it that is turned down.
fn touches(rng: &mut Rng, group: u8, writer: u8) -> Vec<String> {
    let mut lines = Vec::new();
    if rng.once_in(4) {
        lines.push(touch(rng, Pair(group, writer, 8)));
    }
    lines.push(touch(rng, Pair(group, writer, reader_of(writer))));
    lines
}

fn reader_of(writer: u8) -> u8 {
    writer % 8
}

fn touch(rng: &mut Rng, pair: Pair) -> String {
    let info = Info(rng.between(-1, 3), *rng.pick(&[None, Some(1)]), 7);
    match rng.below(4) {
        0 => text::end(pair, info, Some(1), Some(2), 0),
        1 => text::heartbeat(pair.0, pair.1, [1, 0, rng.between(-1, 3)], [None, None]),
        2 => text::gap(pair, rng.between(-1, 3)),
        _ => text::sample(pair, info, 9, 0),
    }
}

fn around(rng: &mut Rng, lines: &mut Vec<String>, writer: fn(&mut Rng) -> (u8, u8)) {
    for time in [0, 9, 10] {
        for _ in 0..rng.between(1, 8) {
            let (group, writer) = writer(rng);
            let reader = *rng.pick(&[0, 1, 7, 8]);
            lines.push(touch(rng, Pair(group, writer, reader)));
        }
        lines.push(text::release(time));
    }
}

/// Rows around their limits, in any order, and a release after each of the
/// last.
pub(super) fn rows(rng: &mut Rng) -> Vec<String> {
    let mut rows = Vec::new();
    for digest in 0..rng.between(6, 9) {
        let group = if rng.once_in(2) { 1 } else { digest as u8 };
        let other = u32::from(rng.once_in(30));
        rows.push(text::digest(group, 7 + other));
    }
    let counted = |rng: &mut Rng| {
        let reader = if rng.once_in(600) { 8 } else { rng.below(8) };
        text::counted(Pair(rng.below(3) as u8, rng.below(4) as u8, reader as u8))
    };
    let many = *rng.pick(&[2, 254, 255, 256, 257, 257, 300, 513]);
    rows.extend((0..many).map(|_| counted(rng)));
    if rng.once_in(2) {
        rng.shuffle(&mut rows);
    }
    let mut lines = vec![text::fresh(10)];
    lines.extend(rows);
    for number in 1..=rng.between(2, 6) {
        let pair = Pair(rng.below(3) as u8, rng.below(4) as u8, rng.below(8) as u8);
        lines.push(text::sample(pair, Info(number, None, 7), number as u32, 0));
    }
    for time in [0, 9, 10, 20] {
        lines.push(text::release(time));
        match rng.below(4) {
            0 | 1 => lines.push(counted(rng)),
            2 => lines.push(text::digest(1, 7)),
            _ => {}
        }
    }
    lines
}

/// A call refused for a 33rd pair of group and writer, or for the 256
/// entries, then what would show that it left something behind.
pub(super) fn refused(rng: &mut Rng) -> Vec<String> {
    let mut lines = vec![
        text::fresh(10),
        text::counted(Pair(1, 1, 0)),
        text::counted(Pair(1, 2, 1)),
        text::digest(1, 7),
    ];
    // Writer 2 has no number up to 9; writer 1 may have them all.
    let last = *rng.pick(&[0, 9, 9]);
    lines.push(text::heartbeat(1, 1, [1, last, 9], [Some(7), None]));
    lines.push(text::heartbeat(1, 2, [1, 0, 9], [None, None]));
    let full = !rng.once_in(3);
    if full {
        let fill = 1..=256;
        lines.extend(fill.map(|n| text::sample(Pair(2, 1, 0), Info(n, None, 7), n as u32, 0)));
    } else {
        let fill = 0..30;
        lines.extend(fill.map(|pair| text::gap(Pair(2 + pair % 5, pair / 5, 0), 0)));
    }
    for _ in 0..rng.between(1, 2) {
        let writer = if full { rng.between(1, 3) } else { 3 } as u8;
        let pair = Pair(1, writer, (writer - 1) % 2);
        let number = rng.between(1, 6);
        let info = Info(
            number,
            *rng.pick(&[None, Some(1)]),
            *rng.pick(&[7, 7, 7, 8]),
        );
        lines.push(match rng.below(if full { 4 } else { 6 }) {
            0 => text::end(pair, info, Some(1), Some(2), 0),
            4 => text::gap(pair, number),
            5 => text::heartbeat(1, writer, [1, 0, 9 + number], [Some(8), None]),
            _ => text::sample(pair, info, 70, 0),
        });
    }
    lines.push(text::release(0));
    for time in [0, 9, 10] {
        let (writer, number) = (rng.between(1, 3) as u8, rng.between(1, 12));
        let pair = Pair(1, writer, (writer - 1) % 2);
        lines.push(text::sample(pair, Info(number, None, 7), 71, 0));
        lines.push(text::release(time));
    }
    lines
}

/// Holes of up to some hundred thousand numbers. Two pairs are past all of
/// them, or not past one at an end or within.
pub(super) fn holes(rng: &mut Rng) -> Vec<String> {
    let far = *rng.pick(&[65_536, 99_999, 100_000, 100_001, 131_072, 200_001, 262_145]);
    let hole = match rng.once_in(3) {
        true => far + rng.between(-1, 1),
        false => *rng.pick(&[2, 3, 255, 1000]),
    };
    let mut lines = vec![text::fresh(10), text::digest(1, 7)];
    let start = rng.between(0, 2);
    for number in 1..=start {
        lines.push(text::sample(
            Pair(1, 1, 0),
            Info(number, None, 7),
            number as u32,
            0,
        ));
    }
    let next = start + hole + 1;
    for writer in 1..=2 {
        let pair = Pair(1, writer, writer - 1);
        lines.push(text::counted(pair));
        let within = start + rng.between(1, hole);
        // Past all; all but the last; all from one on, by the range; all but
        // one, by the range.
        let (gap, first, last) = match rng.below(6) {
            0 | 1 => (next - 1, 1, next),
            2 => (next - 2, 1, next),
            3 => (within, 1, within),
            4 => (0, within, within),
            _ => (0, 1, 0),
        };
        lines.push(text::gap(pair, gap));
        lines.push(text::heartbeat(
            1,
            writer,
            [first, last, next],
            [Some(7), None],
        ));
    }
    lines.push(text::sample(Pair(1, 2, 1), Info(next, None, 7), 9, 0));
    lines.extend([9, 10].map(text::release));
    lines
}

/// Sets of both signs and all sizes that one number ends; the lowest is
/// handed out first.
pub(super) fn sets(rng: &mut Rng) -> Vec<String> {
    let ends = [
        i64::MIN,
        -(1 << 40),
        -(1 << 32),
        -(1 << 31),
        0,
        1 << 31,
        1 << 32,
        1 << 40,
    ];
    let mut lines = vec![text::fresh(10)];
    let mut number = 1;
    for item in 0..rng.between(2, 7) {
        let end: i64 = *rng.pick(&ends);
        let set = Some(end.saturating_add(rng.between(-2, 2)));
        let pair = Pair(1, 1, rng.below(8) as u8);
        for _ in 0..rng.between(0, 2) {
            lines.push(text::sample(pair, Info(number, set, 7), item as u32, 0));
        }
        lines.push(text::end(pair, Info(number, set, 7), None, None, 0));
        number += i64::from(rng.once_in(8));
    }
    lines.extend([0, 10].map(text::release));
    lines
}

/// Calls that a random list has no room for: lines of up to megabytes, and
/// holes of millions of numbers that no counted pair stands in.
pub(super) fn limits() -> Vec<String> {
    let mut lines = vec![text::fresh(10), text::digest(1, 7)];
    let sample = |number| text::sample(Pair(1, 1, 0), Info(number, None, 7), 9, 0);
    let mut next = 1;
    for hole in [0, 300_000, 1_000_001, (1 << 24) + 1] {
        next += hole;
        lines.push(text::heartbeat(1, 1, [1, 0, next], [Some(7), None]));
        lines.extend([sample(next), text::release(0)]);
        next += 1;
    }
    for bits in [12, 16, 20, 22] {
        for more in [-1, 0, 1] {
            let length = ((1 << bits) + more) as usize;
            // A good line stands behind what fills the long one.
            let behind = sample(next);
            lines.push("x".repeat(length));
            lines.push("0".repeat(length - behind.len()) + &behind);
            lines.push(behind);
            next += 1;
        }
    }
    lines.push(text::release(0));
    lines
}

/// Entries up to 256: held members, kept ends and pending ones.
pub(super) fn entries(rng: &mut Rng) -> Vec<String> {
    const TIMEOUT: u64 = 10;
    let mut lines = vec![text::fresh(TIMEOUT), text::counted(Pair(1, 1, 0))];
    // Some lists come near the limits of groups and pairs too.
    let crowded = rng.once_in(2);
    if crowded {
        for pair in 0..rng.between(20, 32) {
            lines.push(text::gap(
                Pair(3 + (pair % 6) as u8, (pair / 6) as u8, 0),
                0,
            ));
        }
    }
    // Group 1 commits members of set 1; with an end of writer 2 missing, an
    // ended set stays and keeps ends that join.
    let members = rng.between(0, 60);
    let ended = rng.once_in(2);
    if ended {
        lines.push(text::counted(Pair(1, 2, 0)));
    }
    for number in 1..=members {
        lines.push(text::sample(Pair(1, 1, 0), Info(number, Some(1), 7), 1, 0));
    }
    if ended {
        lines.push(text::end(
            Pair(1, 1, 0),
            Info(members + 1, Some(1), 7),
            Some(1),
            Some(2),
            0,
        ));
    }
    lines.push(text::release(0));
    let joins = rng.between(0, 20);
    for join in 0..joins {
        let pair = Pair(1, 3 + (join / 8) as u8, (join % 8) as u8);
        lines.push(text::end(pair, Info(1, Some(1), 7), None, None, 0));
    }
    // Group 2 waits for its number 1.
    let pending = 256 - members - joins - rng.between(0, 4);
    for place in 0..pending {
        let number = 2 + place / rng.between(1, 2);
        lines.push(near_full(rng, number, place as u32));
    }
    for step in 0..rng.between(15, 40) {
        let number = rng.between(0, pending + 3);
        lines.push(match rng.below(if crowded { 18 } else { 12 }) {
            12.. => {
                let (group, writer) = (rng.between(1, 10) as u8, rng.below(9) as u8);
                let reader = *rng.pick(&[0, 1, 8]);
                touch(rng, Pair(group, writer, reader))
            }
            0..=4 => near_full(rng, number, 1000 + step as u32),
            5..=7 => {
                let pair = Pair(1, rng.between(1, 6) as u8, rng.below(8) as u8);
                let info = Info(rng.between(0, 2), Some(rng.between(1, 2)), 7);
                text::end(pair, info, None, None, 0)
            }
            8 | 9 => {
                let info = Info(rng.between(0, members + 3), *rng.pick(&[None, Some(1)]), 7);
                text::sample(Pair(1, 1, 0), info, 2000 + step as u32, 0)
            }
            10 => text::gap(Pair(2, 1, 0), number),
            _ => text::release(*rng.pick(&[0, TIMEOUT - 1, TIMEOUT])),
        });
    }
    lines.push(text::release(TIMEOUT));
    lines.push(near_full(rng, 300, 3000));
    lines
}

/// Samples up to 256 and a release of them all; with the longest items, and
/// behind many skipped numbers.
pub(super) fn samples(rng: &mut Rng) -> Vec<String> {
    let timeout = rng.below(2);
    let mut lines = vec![text::fresh(timeout)];
    let far = *rng.pick(&[0, i64::MAX - 300]);
    let item = u32::MAX - 300 * rng.below(2) as u32;
    let groups = rng.between(1, 2);
    for number in 1..=rng.between(254, 257) {
        let pair = Pair(rng.between(1, groups) as u8, 1, rng.below(8) as u8);
        let info = Info(far + number, None, 7);
        lines.push(text::sample(
            pair,
            info,
            item.saturating_add(number as u32),
            0,
        ));
        if rng.once_in(1000) {
            lines.push(text::release(0));
        }
    }
    lines.push(text::release(timeout));
    lines
}

/// A sample or an end of group 2.
fn near_full(rng: &mut Rng, number: i64, item: u32) -> String {
    let pair = Pair(2, 1, rng.below(3) as u8);
    let info = Info(number, *rng.pick(&[None, None, Some(2)]), 7);
    match rng.below(5) {
        0 => text::end(pair, info, Some(1), Some(2), 0),
        _ => text::sample(pair, info, item, rng.below(2)),
    }
}
