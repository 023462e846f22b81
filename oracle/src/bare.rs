//! Call lists from memory, by `GroupOrder` alone: document 01's limits are
//! not looked at, so a list has to keep within them. For the benchmark.

use crate::call::{self, Call, Offer};
use crate::calls::{History, Rows};
use crate::figures;
use crate::group_order::GroupOrder;
use core::time::Duration;

type Order = GroupOrder<u8, u32>;

/// Bytes of an order, without what its maps hold.
pub const ORDER_SIZE: usize = size_of::<Order>();

/// A list's calls; `None` for a bad line.
pub struct Parsed(Vec<Option<Call>>);

/// An order, and the rows lent to its releases.
pub struct Bare {
    order: Order,
    rows: Rows,
}

impl Parsed {
    pub fn of(text: &[u8]) -> Self {
        Self(lines(text).map(call::parse).collect())
    }
}

/// The answers to a list, each with a newline, from a fresh start.
pub fn answers(text: &[u8], out: &mut Vec<u8>) {
    let mut bare = Bare::new();
    for line in lines(text) {
        match call::parse(line) {
            Some(call) => bare.answer(&call, out),
            None => out.extend(b"bad"),
        }
        out.push(b'\n');
    }
}

/// The lines of a text; nothing after the last newline is no line.
fn lines(text: &[u8]) -> impl Iterator<Item = &[u8]> {
    text.split_inclusive(|byte| *byte == b'\n')
        .map(|line| line.strip_suffix(b"\n").unwrap_or(line))
}

impl Bare {
    pub fn new() -> Self {
        Self {
            order: Order::fresh(Duration::from_secs(1)),
            rows: Rows::default(),
        }
    }

    /// Runs the calls, and answers how many samples were handed out.
    pub fn run(&mut self, calls: &Parsed) -> usize {
        let calls = calls.0.iter().flatten();
        calls.map(|call| self.call(call).len()).sum()
    }

    /// Runs a call; what a release hands out.
    fn call(&mut self, call: &Call) -> Vec<(u8, u32)> {
        match call {
            Call::Fresh(timeout) => {
                self.order = Order::fresh(*timeout);
                self.rows = Rows::default();
            }
            Call::Counted(pair) => self.rows.counted.push(*pair),
            Call::Digest(group, digest) => self.rows.digests.push((*group, *digest)),
            Call::Offer(offer) => self.order.put(offer.clone()),
            Call::Heartbeat(group, writer, info) => self.order.heartbeat(*group, *writer, *info),
            Call::Gap(pair, number) => {
                self.order
                    .gap(pair.group, pair.writer, pair.reader, *number)
            }
            Call::Release(now) => return self.order.release(&self.rows, *now),
        }
        Vec::new()
    }

    fn answer(&mut self, call: &Call, out: &mut Vec<u8>) {
        match call {
            Call::Offer(offer) => out.extend(self.offer(offer, call).as_bytes()),
            Call::Release(_) => {
                let samples = self.call(call);
                out.extend(figures::written(&samples).as_bytes());
                out.extend(figures::counts(&self.order.counts()).as_bytes());
            }
            _ => {
                self.call(call);
                out.extend(b"ok");
            }
        }
    }

    fn offer(&mut self, offer: &Offer, call: &Call) -> &'static str {
        let late = self.order.counts().late_samples;
        let above = offer.info.gsn > self.order.committed(&offer.pair.group);
        self.call(call);
        match (above, self.order.counts().late_samples > late) {
            (true, _) => "stored",
            (false, false) => "joined",
            (false, true) => "late",
        }
    }
}

impl Default for Bare {
    fn default() -> Self {
        Self::new()
    }
}
