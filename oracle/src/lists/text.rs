//! The text of calls.

use crate::line::or_dash;

/// Group, writer and reader as the lines number them.
#[derive(Clone, Copy)]
pub(super) struct Pair(pub u8, pub u8, pub u8);

/// Group number, set and digest of a sample or end.
#[derive(Clone, Copy)]
pub(super) struct Info(pub i64, pub Option<i64>, pub u32);

impl core::fmt::Display for Pair {
    fn fmt(&self, f: &mut core::fmt::Formatter) -> core::fmt::Result {
        write!(f, "{} {} {}", self.0, self.1, self.2)
    }
}

impl core::fmt::Display for Info {
    fn fmt(&self, f: &mut core::fmt::Formatter) -> core::fmt::Result {
        write!(f, "{} {} {}", self.0, or_dash(self.1), self.2)
    }
}

pub(super) fn sample(pair: Pair, info: Info, item: u32, time: u64) -> String {
    format!("S {pair} {info} {item} {time}")
}

pub(super) fn end(
    pair: Pair,
    info: Info,
    first: Option<i64>,
    own: Option<i64>,
    time: u64,
) -> String {
    format!("E {pair} {info} {} {} {time}", or_dash(first), or_dash(own))
}

/// `range`: first, last and current number; `digests`: writer and secure.
pub(super) fn heartbeat(
    group: u8,
    writer: u8,
    range: [i64; 3],
    digests: [Option<u32>; 2],
) -> String {
    let [first, last, current] = range;
    let [digest, secure] = digests.map(or_dash);
    format!("H {group} {writer} {first} {last} {current} {digest} {secure}")
}

pub(super) fn gap(pair: Pair, number: i64) -> String {
    format!("G {pair} {number}")
}

pub(super) fn release(time: u64) -> String {
    format!("R {time}")
}

pub(super) fn counted(pair: Pair) -> String {
    format!("V {pair}")
}

pub(super) fn digest(group: u8, digest: u32) -> String {
    format!("D {group} {digest}")
}

pub(super) fn fresh(timeout: u64) -> String {
    format!("T {timeout}")
}
