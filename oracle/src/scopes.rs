//! Calls on the marker and the two scopes.
//!
//! One call a line. Before the first line there is a new scope, and an
//! access scope at 0 0.
//!
//! ```text
//! M number            encode a marker       16 hex digits
//! D bytes             decode a marker       number, refused 11
//! N                   new scope             ok
//! B number            begin                 ok, refused 6
//! E                   end                   number, refused 6
//! A                   is active             0 or 1
//! C                   current marker        number, or -
//! X count generation  access scope at these ok
//! P                   access begin          ok
//! Q                   access end            ok, refused 6
//! W                   access is active      0 or 1
//! S                   current snapshot      generation
//! ```
//!
//! Bytes are lower-case hex, `-` for none. Any other line is `bad`.

use crate::coherent_set::{CoherentScope, CoherentSetMarker, GroupAccessScope};
use crate::error::DdsError;
use crate::line::{hex, or_dash, Fields};
use crate::replay::{shown, Answer, Refusal, Replay};
use crate::rng::Rng;
use rust_std::sync::Arc;

pub struct Scopes {
    scope: Arc<CoherentScope>,
    access: Arc<GroupAccessScope>,
}

impl Scopes {
    #[allow(clippy::new_without_default)]
    pub fn new() -> Self {
        Self {
            scope: CoherentScope::new(),
            access: GroupAccessScope::new(),
        }
    }

    fn run(&mut self, line: &[u8]) -> Option<Answer> {
        let mut fields = Fields::of(line);
        let call = fields.word()?;
        let ok = Ok("ok".to_string());
        // The fields are read before anything is changed.
        let answer: Answer = match call {
            b"M" | b"B" => {
                let number = fields.signed()?;
                fields.end()?;
                if call == b"B" {
                    self.scope.begin(number).map_err(refusal).and(ok)
                } else {
                    let marker = CoherentSetMarker {
                        set_first_sn: number,
                    };
                    Ok(hex(&marker.to_wire_bytes()))
                }
            }
            b"D" => {
                let bytes = fields.bytes()?;
                fields.end()?;
                let marker = <[u8; 8]>::try_from(bytes).map_err(|_| 11);
                marker.map(|bytes| number(CoherentSetMarker::from_wire_bytes(&bytes)))
            }
            b"X" => {
                let (count, generation) = (fields.unsigned()?, fields.unsigned()?);
                fields.end()?;
                self.access = Arc::new(GroupAccessScope::at(count, generation));
                ok
            }
            _ => {
                fields.end()?;
                match call {
                    b"N" => {
                        self.scope = CoherentScope::new();
                        ok
                    }
                    b"E" => self.scope.end().map_err(refusal).map(number),
                    b"A" => Ok(u8::from(self.scope.is_active()).to_string()),
                    b"C" => Ok(or_dash(self.scope.current_marker().map(number))),
                    b"P" => {
                        self.access.begin();
                        ok
                    }
                    b"Q" => self.access.end().map_err(refusal).and(ok),
                    b"W" => Ok(u8::from(self.access.is_active()).to_string()),
                    b"S" => Ok(self.access.current_snapshot().to_string()),
                    _ => return None,
                }
            }
        };
        Some(answer)
    }
}

impl Replay for Scopes {
    fn answer(&mut self, line: &[u8]) -> String {
        shown(self.run(line))
    }
}

fn number(marker: CoherentSetMarker) -> String {
    marker.set_first_sn.to_string()
}

fn refusal(error: DdsError) -> Refusal {
    match error {
        DdsError::PreconditionNotMet { .. } => 6,
        other => panic!("document 01 has no number for {other}"),
    }
}

/// Numbers at which something changes.
const NUMBERS: [i64; 22] = [
    i64::MIN,
    i64::MIN + 1,
    -(1 << 33),
    -(1 << 32) - 1,
    -(1 << 32),
    -(1 << 32) + 1,
    -(1 << 31) - 1,
    -(1 << 31),
    -256,
    -2,
    -1,
    0,
    1,
    255,
    256,
    (1 << 31) - 1,
    1 << 31,
    (1 << 32) - 1,
    1 << 32,
    (1 << 32) + 1,
    i64::MAX - 1,
    i64::MAX,
];

/// The calls at the limits.
pub fn limits() -> Vec<Vec<u8>> {
    let mut calls: Vec<String> = Vec::new();
    let mut add = |line: &str| calls.extend(line.split(", ").map(String::from));
    for number in NUMBERS {
        add(&format!("M {number}, D {}", hex(&number.to_be_bytes())));
    }
    add("D -, D ffffffff00000000, D 0000000080000000, D 7fffffffffffffff");
    for length in 1..=10 {
        add(&format!(
            "D {}, D {}",
            "00".repeat(length),
            "fe".repeat(length)
        ));
    }
    // Ends without begins, then begins that nest.
    add("A, C, E, E, Q, Q, W, S");
    for number in NUMBERS {
        add(&format!(
            "N, B {number}, A, C, B 7, C, B {number}, C, E, A, C, E, A"
        ));
    }
    add("N, B 1, E, B 2, C, E, B 2, E, E, B 1, N, A, C, E");
    add("P, W, S, P, P, S, Q, W, S, Q, Q, W, S, Q, P, S, Q");
    for count in [0, 1, 2, u32::MAX - 1, u32::MAX] {
        for generation in [0, 1, u64::from(u32::MAX), u64::MAX - 1, u64::MAX] {
            let make = format!("X {count} {generation}");
            add(&format!("{make}, W, S, P, W, S, P, W, S, P, W, S"));
            add(&format!("{make}, Q, W, S, Q, W, S, Q, W, S"));
            add(&format!("{make}, P, Q, S, Q, P, P, W, S, Q, Q, Q, W, S"));
        }
    }
    calls.into_iter().map(String::into_bytes).collect()
}

/// A list of random calls from a fresh start.
pub fn list(seed: u64, index: u64, length: u64) -> Vec<Vec<u8>> {
    let mut rng = Rng::of(seed, index);
    let fresh = ["N", "X 0 0"].map(String::from);
    let calls = (0..length).map(|_| random_call(&mut rng));
    fresh
        .into_iter()
        .chain(calls)
        .map(String::into_bytes)
        .collect()
}

fn random_call(rng: &mut Rng) -> String {
    let number = match rng.below(3) {
        0 => *rng.pick(&NUMBERS),
        1 => rng.pick(&NUMBERS).saturating_add(rng.between(-3, 3)),
        _ => rng.next() as i64,
    };
    match rng.below(16) {
        0 => format!("M {number}"),
        1 => format!("D {}", hex(&number.to_be_bytes())),
        2 if rng.once_in(3) => {
            let length = rng.below(11) as usize;
            let bytes: Vec<u8> = (0..length).map(|_| rng.next() as u8).collect();
            format!("D {}", if length == 0 { "-".into() } else { hex(&bytes) })
        }
        3 if rng.once_in(4) => {
            let near = |rng: &mut Rng, end: u64| match rng.below(3) {
                0 => rng.below(3),
                1 => end - rng.below(3),
                _ => rng.next() & end,
            };
            let count = near(rng, u32::MAX.into());
            format!("X {count} {}", near(rng, u64::MAX))
        }
        4 if rng.once_in(4) => "N".into(),
        5..=7 => format!("B {number}"),
        _ => rng
            .pick(&["E", "E", "A", "C", "C", "P", "P", "Q", "Q", "Q", "W", "S"])
            .to_string(),
    }
}
