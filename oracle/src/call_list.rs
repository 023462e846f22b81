//! Document 01's program over `GroupOrder`.

use core::time::Duration;

use crate::call::{self, Content, Offer};
use crate::calls::{Calls, History};
use crate::figures;
use crate::group_order::GroupOrder;
use crate::replay::{shown, Answer, Replay, TOO_LONG};

/// `R` lends this many places.
const PLACES: u64 = 256;

type Order = GroupOrder<u8, u32>;

impl History for Order {
    type Item = u32;

    fn fresh(timeout: Duration) -> Self {
        GroupOrder::new(timeout)
    }

    fn order(&mut self) -> &mut Order {
        self
    }

    fn put(&mut self, offer: Offer) {
        let (end, item) = match offer.content {
            Content::Sample(item) => (None, Some(item)),
            Content::End(end) => (Some(end), None),
        };
        let pair = offer.pair;
        self.offer(
            pair.group,
            pair.writer,
            pair.reader,
            offer.info,
            end,
            item,
            offer.time,
        );
    }
}

/// The state that the lines change.
pub struct CallList(pub(crate) Calls<Order>);

impl CallList {
    pub fn new(longest_walk: u64) -> Self {
        Self(Calls::new(longest_walk))
    }
}

impl Replay for CallList {
    fn answer(&mut self, line: &[u8]) -> String {
        shown(call::parse(line).map(|call| self.0.run(call, release)))
    }

    fn figures(&mut self) -> Option<String> {
        Some(figures::waiting(&self.0.history))
    }

    fn covered(&self) -> bool {
        self.0.covered
    }
}

fn release(calls: &mut Calls<Order>, now: Duration) -> Answer {
    calls.check_rows()?;
    calls.check_places(PLACES)?;
    let order = &mut calls.history;
    if order.walk(Some(&calls.rows), i64::MIN) > calls.longest_walk {
        calls.covered = false;
        return Ok(TOO_LONG.into());
    }
    let samples = order.release(&calls.rows, now);
    calls.covered &= order.committed_sum() <= u64::MAX.into();
    Ok(figures::written(&samples) + &figures::counts(&order.counts()))
}
