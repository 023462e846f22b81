//! The calls on a history, with document 01's refusals before them.

use core::time::Duration;
use rust_std::collections::BTreeSet;

use crate::call::{Call, Content, Offer, Pair};
use crate::group_digest::GroupDigest;
use crate::group_order::{GroupOrder, GroupView, WriterGuid};
use crate::replay::{Answer, Refusal};

const READERS: u8 = 8;
const GROUPS: usize = 8;
const PAIRS: usize = 32;
const ENTRIES: usize = 256;
const COUNTED_ROWS: usize = 256;
const DIGEST_ROWS: usize = 8;

/// The lent rows of a release.
#[derive(Default)]
pub(crate) struct Rows {
    pub counted: Vec<Pair>,
    pub digests: Vec<(WriterGuid, u32)>,
}

impl Rows {
    fn check(&self) -> Result<(), Refusal> {
        let unlike = |(group, digest): &(WriterGuid, u32)| {
            self.digests.iter().any(|(g, d)| g == group && d != digest)
        };
        let refused = self.counted.len() > COUNTED_ROWS
            || self.digests.len() > DIGEST_ROWS
            || self.digests.iter().any(unlike);
        refuse(refused, 9)?;
        check_readers(self.counted.iter().map(|row| row.reader))
    }
}

impl GroupView<u8> for Rows {
    fn counted(&self, group: &WriterGuid) -> BTreeSet<(WriterGuid, u8)> {
        let rows = self.counted.iter().filter(|row| row.group == *group);
        rows.map(|row| (row.writer, row.reader)).collect()
    }

    fn writer_set_is_discovered(&self, group: &WriterGuid, writer_set: GroupDigest) -> bool {
        let listed =
            |(g, digest): &(WriterGuid, u32)| g == group && GroupDigest::of(*digest) == writer_set;
        group[12..] == [0; 4] || self.digests.iter().any(listed)
    }
}

pub(crate) fn refuse(refused: bool, refusal: Refusal) -> Result<(), Refusal> {
    if refused {
        Err(refusal)
    } else {
        Ok(())
    }
}

/// A row with a reader above 7 is refused.
pub(crate) fn check_readers(mut readers: impl Iterator<Item = u8>) -> Result<(), Refusal> {
    refuse(readers.any(|reader| reader >= READERS), 9)
}

/// A history of the Rust.
pub(crate) trait History {
    type Item;
    fn fresh(timeout: Duration) -> Self;
    fn order(&mut self) -> &mut GroupOrder<u8, Self::Item>;
    fn put(&mut self, offer: Offer);
}

/// A history, the rows lent to its releases, and what is known of the run.
pub(crate) struct Calls<H> {
    pub history: H,
    pub rows: Rows,
    pub covered: bool,
    /// No release may walk over more numbers than this.
    pub longest_walk: u64,
}

impl<H: History> Calls<H> {
    pub(crate) fn new(longest_walk: u64) -> Self {
        Self {
            history: H::fresh(Duration::from_secs(1)),
            rows: Rows::default(),
            covered: true,
            longest_walk,
        }
    }

    /// Runs a call; a release by `release`.
    pub(crate) fn run(&mut self, call: Call, release: fn(&mut Self, Duration) -> Answer) -> Answer {
        match call {
            Call::Fresh(timeout) => {
                self.history = H::fresh(timeout);
                self.rows = Rows::default();
            }
            Call::Counted(pair) => self.rows.counted.push(pair),
            Call::Digest(group, digest) => self.rows.digests.push((group, digest)),
            Call::Offer(offer) => return self.offer(offer),
            Call::Heartbeat(group, writer, info) => {
                self.check_writer(&group, &writer)?;
                self.history.order().heartbeat(group, writer, info);
            }
            Call::Gap(pair, number) => {
                refuse(pair.reader >= READERS, 1)?;
                self.check_writer(&pair.group, &pair.writer)?;
                let order = self.history.order();
                order.gap(pair.group, pair.writer, pair.reader, number);
            }
            Call::Release(time) => return release(self, time),
        }
        Ok("ok".into())
    }

    fn offer(&mut self, offer: Offer) -> Answer {
        let Pair {
            group,
            writer,
            reader,
        } = offer.pair;
        refuse(reader >= READERS, 1)?;
        self.check_writer(&group, &writer)?;
        let adds = self.adds(&offer);
        refuse(adds && self.history.order().entry_count() >= ENTRIES, 4)?;
        if let Content::End(end) = &offer.content {
            let numbers = end.ecs_sn.zip(end.first_sn);
            self.covered &= numbers.is_none_or(|(own, first)| own.checked_sub(first).is_some());
        }
        let number = offer.info.gsn;
        let late = |order: &GroupOrder<_, _>| order.counts().late_samples;
        let pending = |order: &GroupOrder<_, _>| order.pending_at(&group, number);
        let order = self.history.order();
        let (late_before, pending_before) = (late(order), pending(order));
        self.history.put(offer);
        let order = self.history.order();
        let answer = if late(order) > late_before {
            "late"
        } else if pending(order) > pending_before {
            "stored"
        } else {
            "joined"
        };
        Ok(answer.into())
    }

    /// Whether the offer, if it isn't refused, adds an entry.
    fn adds(&mut self, offer: &Offer) -> bool {
        let Pair {
            group,
            writer,
            reader,
        } = offer.pair;
        let order = self.history.order();
        let pending = offer.info.gsn > order.committed(&group);
        let joining = match (&offer.content, offer.info.coherent_set_gsn) {
            (Content::End(_), Some(set)) => order.keeps_end(&group, set, writer, reader),
            _ => None,
        };
        pending || joining == Some(false)
    }

    /// Refused for a ninth group, or a 33rd pair of group and writer.
    fn check_writer(&mut self, group: &WriterGuid, writer: &WriterGuid) -> Result<(), Refusal> {
        let order = self.history.order();
        refuse(
            !order.knows_group(group) && order.group_count() >= GROUPS,
            2,
        )?;
        refuse(
            !order.knows_writer(group, writer) && order.pair_count() >= PAIRS,
            3,
        )
    }

    /// The refusals of a release that come before all others.
    pub(crate) fn check_rows(&self) -> Result<(), Refusal> {
        self.rows.check()
    }

    /// Refused if the lent list has fewer places than samples are stored.
    pub(crate) fn check_places(&mut self, places: u64) -> Result<(), Refusal> {
        refuse(places < self.history.order().sample_count() as u64, 5)
    }
}
