//! Calls on `TbfHold`, with document 01's refusals 10, 8 and 5.
//!
//! One call a line. Before the first line nothing is held.
//!
//! ```text
//! N                                        new hold
//! H instance item sec nanosec sepsec sepnano  hold; the arrival, then the separation
//! S instance                               supersede
//! T sec nanosec places                     take what is due at a time
//! A                                        all that is held
//! D sec nanosec sepsec sepnano             a due time alone
//! ```
//!
//! The instance is unsigned 64-bit, item, nanosec, sepsec and sepnano
//! unsigned 32-bit, sec signed 32-bit, places (the length of the lent list)
//! unsigned 64-bit.
//!
//! `N` and `S` print `ok`, `H` prints `ok` or `refused` and the number. `T`
//! prints `refused 5`, or `out`, each sample as instance:item, `|` and how
//! many stay held. `A` prints `held` and each as instance:item:sec:nanosec;
//! `D` prints sec and nanosec, or `refused 10`. Any other line is `bad`.

use crate::calls::refuse;
use crate::line::Fields;
use crate::lists::wide;
use crate::presentation::{due_time, TbfHold};
use crate::replay::{shown, Answer, Refusal, Replay};
use crate::rng::Rng;
use crate::time::Time;

const INSTANCES: usize = 32;
const SECOND: u32 = 1_000_000_000;

pub struct Tbf {
    hold: TbfHold<u64, u32>,
}

impl Tbf {
    #[allow(clippy::new_without_default)]
    pub fn new() -> Self {
        Self {
            hold: TbfHold::default(),
        }
    }

    fn run(&mut self, line: &[u8]) -> Option<Answer> {
        let mut fields = Fields::of(line);
        let ok = Ok("ok".to_string());
        // The fields are read before anything is changed.
        let answer = match fields.word()? {
            b"N" => {
                fields.end()?;
                *self = Self::new();
                ok
            }
            b"H" => {
                let (instance, item) = (fields.unsigned()?, fields.unsigned()?);
                let (arrival, separation) = (time(&mut fields)?, separation(&mut fields)?);
                fields.end()?;
                self.hold(instance, item, arrival, separation).and(ok)
            }
            b"S" => {
                let instance = fields.unsigned()?;
                fields.end()?;
                self.hold.supersede(&instance);
                ok
            }
            b"T" => {
                let (now, places) = (time(&mut fields)?, fields.unsigned()?);
                fields.end()?;
                self.take(now, places)
            }
            b"A" => {
                fields.end()?;
                let held = self.hold.all();
                let held = held.iter().map(|(instance, item, due)| {
                    format!(" {instance}:{item}:{}:{}", due.sec, due.nanosec)
                });
                Ok(format!("held{}", held.collect::<String>()))
            }
            b"D" => {
                let (arrival, separation) = (time(&mut fields)?, separation(&mut fields)?);
                fields.end()?;
                nanoseconds(separation).map(|nanoseconds| {
                    let due = due_time(arrival, nanoseconds);
                    format!("{} {}", due.sec, due.nanosec)
                })
            }
            _ => return None,
        };
        Some(answer)
    }

    fn hold(
        &mut self,
        instance: u64,
        item: u32,
        arrival: Time,
        separation: (u32, u32),
    ) -> Result<(), Refusal> {
        let nanoseconds = nanoseconds(separation)?;
        let held = self.hold.all();
        let new = held.iter().all(|(i, ..)| *i != instance);
        refuse(new && held.len() >= INSTANCES, 8)?;
        self.hold.hold(instance, item, arrival, nanoseconds);
        Ok(())
    }

    fn take(&mut self, now: Time, places: u64) -> Answer {
        refuse(places < self.due(now), 5)?;
        let taken = self.hold.take_due(now);
        let taken = taken
            .iter()
            .map(|(instance, item)| format!(" {instance}:{item}"));
        let taken: String = taken.collect();
        Ok(format!("out{taken} | {}", self.hold.all().len()))
    }

    fn due(&self, now: Time) -> u64 {
        let held = self.hold.all();
        held.iter().filter(|(.., due)| *due <= now).count() as u64
    }
}

impl Replay for Tbf {
    fn answer(&mut self, line: &[u8]) -> String {
        shown(self.run(line))
    }
}

fn time(fields: &mut Fields) -> Option<Time> {
    Some(Time::new(fields.signed()?, fields.unsigned()?))
}

fn separation(fields: &mut Fields) -> Option<(u32, u32)> {
    Some((fields.unsigned()?, fields.unsigned()?))
}

fn nanoseconds((seconds, nanoseconds): (u32, u32)) -> Result<u128, Refusal> {
    refuse(nanoseconds >= SECOND, 10)?;
    Ok(u128::from(seconds) * u128::from(SECOND) + u128::from(nanoseconds))
}

const SECONDS: [i32; 9] = [
    i32::MIN,
    -1,
    0,
    1,
    5,
    6,
    2_147_483_641,
    i32::MAX - 1,
    i32::MAX,
];
const NANOSECONDS: [u32; 10] = [
    0,
    1,
    5,
    SECOND - 1,
    SECOND,
    SECOND + 1,
    2 * SECOND - 1,
    2 * SECOND,
    u32::MAX - 1,
    u32::MAX,
];
const SEPARATIONS: [u32; 8] = [0, 1, 2, 5, 1 << 31, (1 << 31) - 1, u32::MAX - 1, u32::MAX];

/// The due times at the limits.
pub fn limits() -> Vec<Vec<u8>> {
    let mut lines = Vec::new();
    for sec in SECONDS {
        for nanosec in NANOSECONDS {
            for separation in SEPARATIONS {
                for fraction in [0, 1, SECOND - 1, SECOND] {
                    let line = format!("D {sec} {nanosec} {separation} {fraction}");
                    lines.push(line.into_bytes());
                }
            }
        }
    }
    lines
}

/// One random list from a fresh start. The hold runs along, since the times
/// and places worth trying follow from what is held.
pub fn list(seed: u64, index: u64, length: u64) -> Vec<Vec<u8>> {
    let mut rng = Rng::of(seed, index);
    let mut tbf = Tbf::new();
    let mut lines = vec![b"N".to_vec()];
    // Some lists fill the hold first.
    let full = rng.once_in(3);
    let filled = if full { rng.between(29, 32) as u64 } else { 0 };
    let instances = if full { 36 } else { rng.between(1, 6) as u64 };
    let far = rng.once_in(4);
    // Some differ in their high or their low halves alone, and some rise in
    // one while they fall in the other.
    let spread: fn(u64) -> u64 = *rng.pick::<fn(u64) -> u64>(&[
        |k| k,
        |k| k << 32,
        |k| k << 40 | (100 - k),
        |k| k.wrapping_mul(0x9E37_79B9_7F4A_7C15),
    ]);
    for item in 0..filled + length {
        let instance = match rng.below(instances) {
            _ if item < filled => spread(item),
            0 => u64::MAX,
            k => spread(k),
        };
        let held = tbf.hold.all();
        let line = match rng.below(if full { 24 } else { 10 }) {
            _ if item < filled => format!("H {instance} {item} {item} 7 1 500000000"),
            0 => format!("S {instance}"),
            1 | 2 => {
                let now = match held.is_empty() {
                    true => random_time(&mut rng, far),
                    false => {
                        let (.., due) = *rng.pick(&held);
                        near(&mut rng, due)
                    }
                };
                let due = tbf.due(now);
                let places = match rng.below(7) {
                    0 => due.saturating_sub(1),
                    1 => due,
                    2 => due + 1,
                    3 => *rng.pick(&[0, u64::MAX]),
                    4 => wide(&mut rng),
                    _ => 32,
                };
                format!("T {} {} {places}", now.sec, now.nanosec)
            }
            3 => "A".into(),
            _ => {
                let at = random_time(&mut rng, far);
                let (seconds, fraction) = match far && rng.once_in(2) {
                    true => (*rng.pick(&SEPARATIONS), rng.next() as u32),
                    false => (rng.below(3) as u32, rng.below(u64::from(SECOND)) as u32),
                };
                let fraction = match rng.below(10) {
                    0 => SECOND,
                    1 => *rng.pick(&NANOSECONDS),
                    _ => fraction % SECOND,
                };
                let (sec, nanosec) = (at.sec, at.nanosec);
                format!("H {instance} {item} {sec} {nanosec} {seconds} {fraction}")
            }
        };
        tbf.answer(line.as_bytes());
        lines.push(line.into_bytes());
    }
    lines
}

fn random_time(rng: &mut Rng, far: bool) -> Time {
    if far {
        Time::new(*rng.pick(&SECONDS), *rng.pick(&NANOSECONDS))
    } else {
        let nanosec = rng.below(u64::from(SECOND)) as u32;
        Time::new(rng.between(-1, 6) as i32, nanosec)
    }
}

/// A due time, or one of its neighbours.
fn near(rng: &mut Rng, due: Time) -> Time {
    let Time { sec, nanosec } = due;
    match rng.below(5) {
        0 => Time::new(sec, nanosec.saturating_sub(1)),
        1 => Time::new(sec, nanosec.saturating_add(1)),
        2 => Time::new(sec.saturating_sub(1), u32::MAX),
        3 => Time::new(sec.saturating_add(1), 0),
        _ => due,
    }
}
