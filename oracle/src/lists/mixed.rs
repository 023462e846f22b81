//! Random calls of all kinds, close enough together to meet.

use super::text::{self, Info, Pair};
use crate::rng::Rng;

/// What the calls of one list have in common.
struct Scene {
    groups: Vec<u8>,
    writers: Vec<u8>,
    readers: Vec<u8>,
    /// The digest of the rows, and of most calls.
    digest: u32,
    timeout: u64,
    /// Numbers lie around this one, which rises.
    head: i64,
    /// Numbers are drawn from all ends of 64 bits.
    ends: bool,
    /// Most calls are heartbeats and gaps.
    told: bool,
    now: u64,
    /// Times of calls so far.
    times: Vec<u64>,
    items: u32,
}

pub(super) fn list(rng: &mut Rng) -> Vec<String> {
    let timeout = *rng.pick(&[0, 1, 2, 10, 10, 10, 1000, u64::MAX]);
    with_timeout(rng, timeout)
}

/// Calls before any `T`, when the timeout is one second.
pub(super) fn before_any_fresh(rng: &mut Rng) -> Vec<String> {
    with_timeout(rng, 1_000_000_000).split_off(1)
}

fn with_timeout(rng: &mut Rng, timeout: u64) -> Vec<String> {
    let count = if rng.once_in(3) { 2 } else { 1 };
    let groups = rng.pick(&[[1, 2], [0, 1], [2, 255]])[..count].to_vec();
    let mut scene = Scene {
        groups,
        writers: some(rng, &[1, 2, 3]),
        readers: match rng.once_in(8) {
            true => (0..8).collect(),
            false => some(rng, &[0, 1, 2]),
        },
        digest: 7,
        timeout,
        head: 1,
        ends: false,
        told: rng.once_in(3),
        now: 0,
        times: Vec::new(),
        items: 0,
    };
    scene.list(rng)
}

/// The same with numbers and times at both ends of 64 bits. Two groups at
/// most: the skipped count of a third could leave 64 bits.
pub(super) fn at_the_ends(rng: &mut Rng) -> Vec<String> {
    let head = *rng.pick(&[i64::MIN + 1, -1, 1, 1 << 32, i64::MAX - 9, i64::MAX - 3]);
    let mut scene = Scene {
        groups: rng.pick(&[[1, 0], [1, 1], [254, 255]]).to_vec(),
        writers: some(rng, &[255, 0]),
        readers: some(rng, &[7, 0]),
        digest: *rng.pick(&[0, 7, u32::MAX]),
        timeout: *rng.pick(&[0, 0, 1, 10, u64::MAX - 1, u64::MAX]),
        head,
        ends: true,
        told: rng.once_in(4),
        now: *rng.pick(&[0, u64::MAX - 20]),
        times: Vec::new(),
        items: 0,
    };
    scene.list(rng)
}

/// The first ones, one at least.
fn some(rng: &mut Rng, from: &[u8]) -> Vec<u8> {
    from[..rng.below(from.len() as u64) as usize + 1].to_vec()
}

impl Scene {
    fn list(&mut self, rng: &mut Rng) -> Vec<String> {
        let mut lines = vec![text::fresh(self.timeout)];
        self.rows(rng, &mut lines);
        for _ in 0..rng.between(4, 34) {
            let line = self.call(rng);
            lines.push(line);
            if rng.once_in(3) {
                self.head = self.head.saturating_add(1);
            }
        }
        for _ in 0..rng.between(1, 4) {
            let time = self.time(rng);
            lines.push(text::release(time));
        }
        lines
    }

    fn rows(&mut self, rng: &mut Rng, lines: &mut Vec<String>) {
        for &group in &self.groups {
            for &writer in &self.writers {
                for &reader in &self.readers {
                    if rng.once_in(2) {
                        lines.push(text::counted(Pair(group, writer, reader)));
                    }
                }
            }
            if !rng.once_in(5) {
                lines.push(text::digest(group, self.digest));
            }
        }
    }

    fn call(&mut self, rng: &mut Rng) -> String {
        let pair = self.pair(rng);
        let kind = match self.told && !rng.once_in(3) {
            true => 11 + rng.below(5),
            false => rng.below(20),
        };
        match kind {
            0..=7 => {
                self.items += 1;
                let (info, time) = (self.info(rng), self.time(rng));
                let item = match self.ends && rng.once_in(3) {
                    true => *rng.pick(&[0, u32::MAX - 1, u32::MAX]),
                    false => self.items,
                };
                text::sample(pair, info, item, time)
            }
            8..=10 => {
                let (info, time) = (self.info(rng), self.time(rng));
                let first = self.first(rng);
                let own = first.unwrap_or(1).checked_add(rng.between(-1, 4));
                text::end(pair, info, first, own.filter(|_| !rng.once_in(7)), time)
            }
            11..=13 => {
                let first = self.number(rng);
                let last = first.saturating_add(rng.between(-1, 3));
                let current = self.number(rng).saturating_add(rng.between(0, 3));
                let (right, wrong) = (Some(self.digest), Some(self.other_digest()));
                let digest = *rng.pick(&[None, None, right, right, wrong]);
                let secure = *rng.pick(&[None, None, None, Some(0), Some(0), Some(1)]);
                let range = [first, last, current];
                text::heartbeat(pair.0, pair.1, range, [digest, secure])
            }
            14 | 15 => text::gap(pair, self.number(rng)),
            16 if rng.once_in(12) => text::fresh(self.timeout),
            16 if rng.once_in(3) => text::counted(pair),
            _ => text::release(self.time(rng)),
        }
    }

    fn pair(&self, rng: &mut Rng) -> Pair {
        let reader = match rng.below(60) {
            0 => *rng.pick(&[7, 8, 255]),
            _ => *rng.pick(&self.readers),
        };
        Pair(*rng.pick(&self.groups), *rng.pick(&self.writers), reader)
    }

    fn info(&self, rng: &mut Rng) -> Info {
        let set = match rng.below(6) {
            0..=2 => None,
            3 => Some(1),
            4 => Some(self.number(rng)),
            _ => Some(self.head),
        };
        let digest = match rng.once_in(12) {
            true => self.other_digest(),
            false => self.digest,
        };
        Info(self.number(rng), set, digest)
    }

    fn number(&self, rng: &mut Rng) -> i64 {
        let far = rng.between(-2, 3);
        if self.ends && rng.once_in(3) {
            let end = *rng.pick(&[i64::MIN, -(1 << 32), -1, 0, i64::MAX]);
            return end.saturating_add(far);
        }
        if !self.ends && rng.once_in(40) {
            let most = *rng.pick(&[100, 10_000, 100_000]);
            return self.head + rng.between(0, most);
        }
        self.head.saturating_add(far)
    }

    fn other_digest(&self) -> u32 {
        self.digest ^ 8
    }

    /// The first number of an end.
    fn first(&self, rng: &mut Rng) -> Option<i64> {
        match rng.below(6) {
            0 => None,
            1 if self.ends => Some(*rng.pick(&[i64::MIN, -1, 0, i64::MAX])),
            _ => Some(rng.between(0, 3)),
        }
    }

    /// Mostly later than the last call, by steps around the timeout.
    fn time(&mut self, rng: &mut Rng) -> u64 {
        let old = match self.times.is_empty() {
            true => self.now,
            false => *rng.pick(&self.times),
        };
        let time = match rng.below(12) {
            0 => old,
            1 | 2 => old.saturating_add(self.timeout),
            3 => old.saturating_add(self.timeout.saturating_sub(1)),
            4 => old.saturating_add(self.timeout.saturating_add(1)),
            5 if self.ends => *rng.pick(&[0, 1, u64::MAX - 1, u64::MAX]),
            _ => self.now.saturating_add(rng.below(3)),
        };
        if !rng.once_in(8) {
            self.now = self.now.max(time);
        }
        self.times.push(time);
        time
    }
}
