//! What the writers of a publisher send: numbers in order, sets with an end
//! from every writer, true heartbeats; delivered with losses, gaps, copies
//! and disorder.

use super::text::{self, Info, Pair};
use crate::rng::Rng;
use rust_std::collections::VecDeque;

/// A change on its way to one reader.
#[derive(Clone)]
enum Change {
    Sample(i64, Option<i64>, u32),
    End(i64, i64, Option<i64>, i64),
}

struct Writer {
    id: u8,
    /// Its last sequence number.
    sequence: i64,
    /// Least and greatest group number it has.
    range: Option<(i64, i64)>,
    /// Its first sequence number in the open set.
    first: Option<i64>,
}

struct Publisher {
    group: u8,
    /// The last group number.
    number: i64,
    set: Option<i64>,
    writers: Vec<Writer>,
}

struct Run {
    lines: Vec<String>,
    now: u64,
    timeout: u64,
    items: u32,
    /// Changes on their way, for each pair.
    paths: Vec<(Pair, VecDeque<Change>)>,
    /// How often, once in so many, something goes wrong.
    faults: u64,
}

pub(super) fn list(rng: &mut Rng) -> Vec<String> {
    let timeout = *rng.pick(&[5, 20, 1000]);
    let mut run = Run {
        lines: vec![text::fresh(timeout)],
        now: 0,
        timeout,
        items: 0,
        paths: Vec::new(),
        faults: *rng.pick(&[1000, 40, 10]),
    };
    let groups = *rng.pick::<&[u8]>(&[&[1], &[1], &[0], &[3, 1]]);
    let publishers = groups.iter().map(|group| run.publisher(rng, *group));
    let mut publishers: Vec<_> = publishers.collect();
    for _ in 0..rng.between(8, 45) {
        let publisher = rng.below(publishers.len() as u64) as usize;
        run.step(rng, &mut publishers[publisher]);
    }
    run.drain(rng);
    run.lines
}

impl Run {
    fn publisher(&mut self, rng: &mut Rng, group: u8) -> Publisher {
        let ids = 1..=rng.between(1, 3) as u8;
        for writer in ids.clone() {
            let readers = *rng.pick(&[1u8, 2, 3, 4, 5]);
            for reader in (0..3).filter(|reader| readers >> reader & 1 == 1) {
                let pair = Pair(group, writer, reader);
                self.paths.push((pair, VecDeque::new()));
                if !rng.once_in(10) {
                    self.lines.push(text::counted(pair));
                }
            }
        }
        if !rng.once_in(10) {
            self.lines.push(text::digest(group, 7));
        }
        let writers = ids.map(|id| Writer {
            id,
            sequence: 0,
            range: None,
            first: None,
        });
        Publisher {
            group,
            number: 0,
            set: None,
            writers: writers.collect(),
        }
    }

    fn step(&mut self, rng: &mut Rng, publisher: &mut Publisher) {
        if rng.once_in(4) {
            self.now += rng.below(self.timeout / 2);
        }
        match rng.below(20) {
            0..=5 => self.write(rng, publisher),
            6 => publisher.set = publisher.set.or(Some(publisher.number + 1)),
            7 => self.end_set(rng, publisher),
            8..=13 => self.deliver(rng),
            14..=16 => self.heartbeat(rng, publisher),
            _ => self.lines.push(text::release(self.now)),
        }
    }

    fn write(&mut self, rng: &mut Rng, publisher: &mut Publisher) {
        let writer = rng.below(publisher.writers.len() as u64) as usize;
        let writer = &mut publisher.writers[writer];
        publisher.number += 1;
        self.items += 1;
        writer.takes(publisher.number);
        if publisher.set.is_some() {
            writer.first = writer.first.or(Some(writer.sequence));
        }
        let change = Change::Sample(publisher.number, publisher.set, self.items);
        self.send(publisher.group, writer.id, change);
    }

    fn end_set(&mut self, rng: &mut Rng, publisher: &mut Publisher) {
        let Some(set) = publisher.set.take() else {
            return;
        };
        publisher.number += 1;
        for writer in &mut publisher.writers {
            writer.takes(publisher.number);
            let own = writer.sequence + i64::from(rng.once_in(self.faults));
            let change = Change::End(publisher.number, set, writer.first.take(), own);
            self.send(publisher.group, writer.id, change);
        }
    }

    fn send(&mut self, group: u8, writer: u8, change: Change) {
        for (pair, path) in &mut self.paths {
            if (pair.0, pair.1) == (group, writer) {
                path.push_back(change.clone());
            }
        }
    }

    fn heartbeat(&mut self, rng: &mut Rng, publisher: &Publisher) {
        let writer = rng.pick(&publisher.writers);
        let (first, last) = writer.range.unwrap_or((1, 0));
        // Some of what it had may be gone.
        let first = first + rng.between(0, 2) * i64::from(rng.once_in(self.faults));
        let range = [first, last, publisher.number];
        let digests = [*rng.pick(&[None, Some(7)]), *rng.pick(&[None, Some(0)])];
        let line = text::heartbeat(publisher.group, writer.id, range, digests);
        self.lines.push(line);
    }

    fn deliver(&mut self, rng: &mut Rng) {
        let path = rng.below(self.paths.len() as u64) as usize;
        let (pair, path) = &mut self.paths[path];
        let change = match rng.once_in(self.faults) {
            true => path.pop_back(),
            false => path.pop_front(),
        };
        let Some(change) = change else {
            return;
        };
        if rng.once_in(self.faults) {
            path.push_back(change.again(rng));
        }
        let pair = *pair;
        if rng.once_in(self.faults) {
            let (Change::Sample(number, ..) | Change::End(number, ..)) = change;
            if rng.once_in(2) {
                self.lines.push(text::gap(pair, number));
            }
            return;
        }
        let line = match change {
            Change::Sample(number, set, item) => {
                text::sample(pair, Info(number, set, 7), item, self.now)
            }
            Change::End(number, set, first, own) => {
                text::end(pair, Info(number, Some(set), 7), first, Some(own), self.now)
            }
        };
        self.lines.push(line);
    }

    /// Delivers most of the rest, and releases past the timeout.
    fn drain(&mut self, rng: &mut Rng) {
        let left: usize = self.paths.iter().map(|(_, path)| path.len()).sum();
        for _ in 0..left * 2 {
            self.deliver(rng);
            if rng.once_in(4) {
                self.lines.push(text::release(self.now));
            }
        }
        for step in [0, self.timeout - 1, 1, self.timeout] {
            self.now += step;
            self.lines.push(text::release(self.now));
        }
    }
}

impl Change {
    /// A second copy; an end may say something else then.
    fn again(&self, rng: &mut Rng) -> Self {
        match *self {
            Self::End(number, set, first, own) => {
                Self::End(number, set, first, own + rng.between(-1, 1))
            }
            _ => self.clone(),
        }
    }
}

impl Writer {
    /// The writer's next change has this group number.
    fn takes(&mut self, number: i64) {
        self.sequence += 1;
        self.range = Some((self.range.map_or(number, |(first, _)| first), number));
    }
}
