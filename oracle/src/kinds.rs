//! The programs by name, each with its lists.

use crate::call_list::CallList;
use crate::gate::{self, Gate};
use crate::lists::{self, Line};
use crate::page::{self, Page};
use crate::replay::{self, Replay, WithFigures, LIMITS_WALK, LIST_WALK};
use crate::scopes::{self, Scopes};
use crate::settings::{self, Settings};
use crate::tbf::{self, Tbf};
use crate::turn::{self, Turn};

/// Calls of a random list of the smaller programs.
const LENGTH: u64 = 30;

pub(crate) struct Kind {
    pub name: &'static str,
    /// Printed lines of an answer.
    pub lines: usize,
    /// The Rust at the start.
    pub fresh: fn() -> Box<dyn Replay>,
    /// Calls at the limits, on their own.
    pub limits: fn() -> Vec<Line>,
    /// A list by seed and number, and whether it is the first of its process.
    pub list: fn(u64, u64, bool) -> Vec<Line>,
}

const KINDS: [Kind; 8] = [
    Kind {
        name: "call-list",
        lines: 1,
        fresh: || Box::new(CallList::new(LIMITS_WALK)),
        limits: lists::limits,
        list: lists::list,
    },
    Kind {
        name: "figures",
        lines: 2,
        fresh: || Box::new(WithFigures(CallList::new(LIMITS_WALK))),
        limits: lists::limits,
        list: lists::list,
    },
    Kind {
        name: "turn",
        lines: 1,
        fresh: || Box::new(Turn::new(LIST_WALK)),
        limits: turn::limits,
        list: |seed, index, _| turn::list(seed, index),
    },
    Kind {
        name: "page",
        lines: 1,
        fresh: || Box::new(Page::new(LIMITS_WALK)),
        limits: page::limits,
        list: page::list,
    },
    Kind {
        name: "gate",
        lines: 1,
        fresh: || Box::new(Gate::new()),
        limits: Vec::new,
        list: |seed, index, _| gate::list(seed, index, LENGTH),
    },
    Kind {
        name: "tbf",
        lines: 1,
        fresh: || Box::new(Tbf::new()),
        limits: tbf::limits,
        list: |seed, index, _| tbf::list(seed, index, LENGTH),
    },
    Kind {
        name: "scopes",
        lines: 1,
        fresh: || Box::new(Scopes::new()),
        limits: scopes::limits,
        list: |seed, index, _| scopes::list(seed, index, LENGTH),
    },
    Kind {
        name: "settings",
        lines: 1,
        fresh: || Box::new(Settings::default()),
        limits: settings::limits,
        list: |seed, index, _| settings::list(seed, index, LENGTH),
    },
];

pub(crate) fn by_name(name: &str) -> Option<Kind> {
    KINDS.into_iter().find(|kind| kind.name == name)
}

/// Prints the calls at the limits, then as many random lists as are asked
/// for, each from a fresh start.
pub fn print_lists(name: &str) {
    let usage = format!("{name}-list SEED COUNT");
    let (seed, count) = (replay::argument(1, &usage), replay::argument(2, &usage));
    let kind = by_name(name).expect("a program's name");
    replay::print(&(kind.limits)());
    for index in 0..count {
        replay::print(&(kind.list)(seed, index, index == 0));
    }
}
