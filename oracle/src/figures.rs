//! What a history shows beside its answers, as text.

use core::fmt::Write;

use crate::group_order::{GroupOrder, ReleaseCounts};

/// The waiting figure of the eight readers, and whether nothing waits.
pub(crate) fn waiting<I>(order: &GroupOrder<u8, I>) -> String {
    let held = (0..8).map(|reader| format!(" {}", order.held_for(&reader)));
    let held: String = held.collect();
    let state = if order.is_empty() { "idle" } else { "waits" };
    format!("held{held} {state}")
}

/// What a release wrote.
pub(crate) fn written(samples: &[(u8, u32)]) -> String {
    let mut text = String::from("out");
    for (reader, item) in samples {
        write!(text, " {reader}:{item}").expect("a string takes all");
    }
    text + " |"
}

pub(crate) fn counts(counts: &ReleaseCounts) -> String {
    format!(
        " {} {} {} {}",
        counts.skipped_after_timeout,
        counts.incomplete_sets,
        counts.discarded_samples,
        counts.late_samples
    )
}
