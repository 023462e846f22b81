//! Calls on `CoherentHold::gate`, with document 01's refusals 5 and 7.
//!
//! One call a line. Before the first line the hold is empty.
//!
//! ```text
//! N                                    new hold
//! S access writer set item places      sample
//! L access writer set item places      lifecycle change
//! E access writer own complete places  end of the writer's set
//! ```
//!
//! Access and complete are 0 or 1, the writer is k of GUID k, set and own
//! signed 64-bit, the item unsigned 32-bit, places (the length of the lent
//! list) unsigned 64-bit. Set, own and complete may be `-`, absent.
//!
//! `N` prints `ok`. The others print `refused` and the number, or `out`,
//! each item written as kind:writer:set:item, `|`, the member number of the
//! incomplete set or `-`, and how many members are held then. Any other line
//! is `bad`. own - set mark beyond 64 bits wraps, as the release build does.

use crate::calls::refuse;
use crate::group_order::WriterGuid;
use crate::line::{flag, guid_number, or_dash, signed, Fields};
use crate::lists::wide;
use crate::presentation::CoherentHold;
use crate::replay::{shown, Answer, Replay};
use crate::rng::Rng;
use crate::runtime::UserSample;

const MEMBERS: usize = 64;

pub struct Gate {
    hold: CoherentHold,
    covered: bool,
}

impl Gate {
    #[allow(clippy::new_without_default)]
    pub fn new() -> Self {
        Self {
            hold: CoherentHold::new(),
            covered: true,
        }
    }

    fn run(&mut self, line: &[u8]) -> Option<Answer> {
        let mut fields = Fields::of(line);
        let kind = fields.word()?;
        if kind == b"N" {
            fields.end()?;
            self.hold = CoherentHold::new();
            return Some(Ok("ok".into()));
        }
        let access = fields.flag()?;
        let writer_guid = fields.guid()?;
        let number = fields.optional(signed)?;
        let group = None;
        let item = match kind {
            b"S" => UserSample::Alive {
                writer_guid,
                coherent_set_sn: number,
                group,
                item: fields.unsigned()?,
            },
            b"L" => UserSample::Lifecycle {
                writer_guid,
                coherent_set_sn: number,
                group,
                item: fields.unsigned()?,
            },
            b"E" => UserSample::CoherentSetEnd {
                writer_guid,
                set_first_sn: None,
                ecs_sn: number,
                complete: fields.optional(flag)?,
                group,
            },
            _ => return None,
        };
        let places: u64 = fields.unsigned()?;
        fields.end()?;
        let ends = kind == b"E";
        Some(self.gate(item, access, ends, (writer_guid, number), places))
    }

    fn gate(
        &mut self,
        item: UserSample,
        access: bool,
        ends: bool,
        (writer, number): (WriterGuid, Option<i64>),
        places: u64,
    ) -> Answer {
        let members = self.hold.members();
        let mut own_members = members.iter().filter(|(w, _)| *w == writer);
        refuse(places < members.len() as u64 + 1, 5)?;
        if ends {
            let first = own_members.next();
            let difference = |(own, (_, mark)): (i64, &(_, i64))| own.checked_sub(*mark);
            let fits = number
                .zip(first)
                .is_none_or(|numbers| difference(numbers).is_some());
            self.covered &= fits;
        } else if let Some(set) = number {
            let releases_none = own_members.all(|(_, mark)| *mark == set);
            refuse(access && members.len() >= MEMBERS && releases_none, 7)?;
        }
        let mut incomplete = None;
        let written = self
            .hold
            .gate(item, access, |members| incomplete = Some(members));
        let written: String = written.iter().map(shown_item).collect();
        let incomplete = or_dash(incomplete);
        Ok(format!("out{written} | {incomplete} {}", self.hold.len()))
    }
}

impl Replay for Gate {
    fn answer(&mut self, line: &[u8]) -> String {
        shown(self.run(line))
    }

    fn covered(&self) -> bool {
        self.covered
    }
}

fn shown_item(item: &UserSample) -> String {
    let (kind, writer, set, item) = match item {
        UserSample::Alive {
            writer_guid,
            coherent_set_sn,
            item,
            ..
        } => ('S', writer_guid, coherent_set_sn, item),
        UserSample::Lifecycle {
            writer_guid,
            coherent_set_sn,
            item,
            ..
        } => ('L', writer_guid, coherent_set_sn, item),
        UserSample::CoherentSetEnd { .. } => return " E".into(),
    };
    format!(" {kind}:{}:{}:{item}", guid_number(writer), or_dash(*set))
}

/// One random list from a fresh start.
pub fn list(seed: u64, index: u64, length: u64) -> Vec<Vec<u8>> {
    let mut attempt = 0;
    loop {
        let mut rng = Rng::of(seed, index ^ (attempt << 48));
        let (lines, covered) = random_list(&mut rng, length);
        if covered {
            return lines;
        }
        attempt += 1;
    }
}

/// Calls, and whether they are covered. The gate runs along, since the
/// places worth trying follow from what is held.
fn random_list(rng: &mut Rng, length: u64) -> (Vec<Vec<u8>>, bool) {
    let mut gate = Gate::new();
    let mut lines = vec![b"N".to_vec()];
    let writers = rng.between(1, 4);
    let least_mark = *rng.pick(&[0, 1, -3, i64::MIN, i64::MAX - 3, -(1 << 32) - 1, 1 << 40]);
    let sets = rng.between(0, 3);
    // Some lists fill the hold first.
    let full = rng.once_in(4);
    let filled = if full { rng.between(60, 64) as u64 } else { 0 };
    for item in 0..filled + length {
        let held = gate.hold.len() as u64;
        let writer = rng.between(1, writers);
        let access = u8::from(item < filled || !rng.once_in(12));
        let places = match rng.below(16) {
            _ if item < filled => 65,
            0 => held,
            1 => held + 1,
            2 => held.saturating_sub(1),
            3 => *rng.pick(&[0, 1, u64::MAX]),
            4 => wide(rng),
            _ => 65,
        };
        let mark = match item < filled || (full && !rng.once_in(12)) {
            true => least_mark,
            false => least_mark + rng.between(0, sets),
        };
        let line = match rng.below(if full { 24 } else { 12 }) {
            0 if item >= filled => {
                format!(
                    "{} {access} {writer} - {item} {places}",
                    rng.pick(&["S", "L"])
                )
            }
            1 | 2 if item >= filled => {
                let of_writer = |(w, _): &&(WriterGuid, i64)| i64::from(guid_number(w)) == writer;
                let members = gate.hold.members();
                let members = members.iter().filter(of_writer).count() as i64;
                let own = match rng.below(8) {
                    0 => "-".into(),
                    1 => rng.pick(&[i64::MIN, -1, 0, i64::MAX]).to_string(),
                    2 => mark
                        .saturating_add(members + rng.between(-2, 2))
                        .to_string(),
                    _ => mark.saturating_add(members).to_string(),
                };
                let complete = rng.pick(&["-", "-", "-", "-", "0", "1"]);
                format!("E {access} {writer} {own} {complete} {places}")
            }
            _ => {
                let kind = rng.pick(&["S", "S", "S", "L"]);
                format!("{kind} {access} {writer} {mark} {item} {places}")
            }
        };
        gate.answer(line.as_bytes());
        lines.push(line.into_bytes());
    }
    (lines, gate.covered)
}
