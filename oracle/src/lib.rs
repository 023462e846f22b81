//! Replays calls on the listed ZeroDDS files, compiled unchanged, with
//! document 01's limits and line formats around them (see README.md).

// presentation.rs takes its clock from `std::time`. Here that name leads to
// the stand-in clock, and `rust_std` is the standard library.
extern crate self as std;
extern crate self as zerodds_foundation;
extern crate self as zerodds_rtps;
extern crate std as rust_std;

include!(concat!(env!("OUT_DIR"), "/listed.rs"));

mod stand_ins;
use stand_ins::{
    group_digest, observability, runtime, submessages, sync, time, wire_types, writer_group,
};

mod call;
mod calls;
mod figures;
mod line;
mod rng;

pub mod bare;
pub mod call_list;
pub mod compare;
pub mod gate;
pub mod kinds;
pub mod lists;
pub mod page;
pub mod replay;
pub mod scopes;
pub mod settings;
pub mod tbf;
pub mod turn;
