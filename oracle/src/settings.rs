//! Calls on console settings, by a packer of its own: fields are shifted
//! through a string of 256 bits. The Rust source has nothing of them.
//!
//! One call a line. Before the first line nothing is stored.
//!
//! ```text
//! N                                                    new store  ok
//! P timeout coherent ordered separation lifespan room  pack       count, or refused 15 or 5; then the list
//! S bytes                                              save       ok, refused 16, refused 15
//! R age                                                read       the five values, refused 15
//! D timeout coherent ordered separation lifespan       durations  ns, sec nanosec, ns; refused 15
//! ```
//!
//! Bytes are lower-case hex, `-` for none and for no lifespan. `P` lends a
//! list of room places, at most 40, each 170 before; `S` takes at most 100
//! bytes. Any other line is `bad`.

use crate::line::{hex, or_dash, unsigned, Fields};
use crate::replay::{shown, Answer, Replay};
use crate::rng::Rng;
use core::time::Duration;
use rust_std::collections::VecDeque;

/// Bits, the highest first: those of `.0`, then those of `.1`.
#[derive(Clone, Copy, Default)]
struct Bits(u128, u128);

impl Bits {
    fn of(bytes: &[u8]) -> Self {
        let mut bits = Self::default();
        for place in 0..32 {
            bits.push(8, bytes.get(place).copied().unwrap_or(0).into());
        }
        bits
    }

    fn shift(&mut self, width: u32) {
        self.0 = self.0 << width | self.1 >> (128 - width);
        self.1 <<= width;
    }

    /// A field behind all others.
    fn push(&mut self, width: u32, value: u64) {
        self.shift(width);
        self.1 |= u128::from(value);
    }

    /// The first field, which is gone then.
    fn take(&mut self, width: u32) -> u64 {
        let value = (self.0 >> (128 - width)) as u64;
        self.shift(width);
        value
    }

    /// The last `count` bytes.
    fn bytes(self, count: usize) -> Vec<u8> {
        let all = [self.0.to_be_bytes(), self.1.to_be_bytes()].concat();
        all[32 - count..].to_vec()
    }
}

/// Timeout, coherent marks, ordered marks, separation.
const WIDTHS: [u32; 4] = [12, 8, 8, 16];
const LIFESPAN: u32 = 16;
const VERSION: u32 = 4;

/// The values of the fields, and the lifespan.
#[derive(Clone, Copy)]
struct Setting([u64; 4], Option<u64>);

impl Setting {
    fn read(fields: &mut Fields) -> Option<Self> {
        let mut values = [0; 4];
        for value in &mut values {
            *value = fields.unsigned()?;
        }
        Some(Self(values, fields.optional(unsigned)?))
    }

    fn fits(&self) -> bool {
        let narrow = |value: u64, width: u32| value >> width == 0;
        let mut fields = self.0.iter().zip(WIDTHS);
        fields.all(|(value, width)| narrow(*value, width))
            && self.1.is_none_or(|value| narrow(value, LIFESPAN))
    }

    fn packed(&self) -> Vec<u8> {
        let mut bits = Bits::default();
        bits.push(VERSION, if self.1.is_some() { 2 } else { 1 });
        for (value, width) in self.0.into_iter().zip(WIDTHS) {
            bits.push(width, value);
        }
        let Some(lifespan) = self.1 else {
            return bits.bytes(6);
        };
        bits.push(LIFESPAN, lifespan);
        bits.bytes(8)
    }

    fn shown(&self) -> String {
        let values = self.0.map(|value| value.to_string()).join(" ");
        format!("{values} {}", or_dash(self.1))
    }

    fn durations(&self) -> String {
        let timeout = Duration::from_millis(self.0[0] * 10);
        let separation = Duration::from_millis(self.0[3]);
        let lifespan = self
            .1
            .map(|seconds| Duration::from_secs(seconds).as_nanos());
        let (sec, nanosec) = (separation.as_secs(), separation.subsec_nanos());
        format!(
            "{} {sec} {nanosec} {}",
            timeout.as_nanos(),
            or_dash(lifespan)
        )
    }
}

/// The last eight, the newest first.
#[derive(Default)]
pub struct Settings(VecDeque<Setting>);

impl Settings {
    fn save(&mut self, bytes: &[u8]) -> Answer {
        let mut bits = Bits::of(bytes);
        let version = bits.take(VERSION);
        let lengths = match version {
            _ if bytes.is_empty() => return Err(15),
            1 => 6..=6,
            2 => 8..=8,
            3..=7 => 8..=32,
            _ => return Err(16),
        };
        if !lengths.contains(&bytes.len()) {
            return Err(15);
        }
        let values = WIDTHS.map(|width| bits.take(width));
        let lifespan = (version > 1).then(|| bits.take(LIFESPAN));
        self.0.push_front(Setting(values, lifespan));
        self.0.truncate(8);
        Ok("ok".into())
    }

    fn run(&mut self, line: &[u8]) -> Option<Answer> {
        let mut fields = Fields::of(line);
        let answer = match fields.word()? {
            b"N" => {
                fields.end()?;
                self.0.clear();
                Ok("ok".into())
            }
            b"P" => {
                let setting = Setting::read(&mut fields)?;
                let room = fields.unsigned::<usize>()?;
                fields.end()?;
                if room > 40 {
                    return None;
                }
                Ok(pack(setting, vec![170; room]))
            }
            b"S" => {
                let bytes = fields.bytes()?;
                fields.end()?;
                if bytes.len() > 100 {
                    return None;
                }
                self.save(&bytes)
            }
            b"R" => {
                let age = fields.unsigned::<usize>()?;
                fields.end()?;
                self.0.get(age).map(Setting::shown).ok_or(15)
            }
            b"D" => {
                let setting = Setting::read(&mut fields)?;
                fields.end()?;
                setting.fits().then(|| setting.durations()).ok_or(15)
            }
            _ => return None,
        };
        Some(answer)
    }
}

/// The answer and the list after it.
fn pack(setting: Setting, mut list: Vec<u8>) -> String {
    let bytes = setting.packed();
    let answer = if !setting.fits() {
        "refused 15".into()
    } else if list.len() < bytes.len() {
        "refused 5".into()
    } else {
        list[..bytes.len()].copy_from_slice(&bytes);
        bytes.len().to_string()
    };
    format!("{answer} {}", or_dash_hex(&list))
}

fn or_dash_hex(bytes: &[u8]) -> String {
    or_dash((!bytes.is_empty()).then(|| hex(bytes)))
}

impl Replay for Settings {
    fn answer(&mut self, line: &[u8]) -> String {
        shown(self.run(line))
    }
}

/// 0, 1, the largest of a width and one above.
fn edges(width: u32) -> [u64; 4] {
    [0, 1, (1 << width) - 1, 1 << width]
}

/// Settings with every field at its edges, the others all at 0, at 1 or at
/// their largest; with a lifespan and without.
fn at_the_edges() -> Vec<Setting> {
    let mut settings = Vec::new();
    for others in 0..3 {
        let values = WIDTHS.map(|width| edges(width)[others]);
        let lifespan = edges(LIFESPAN)[others];
        for edge in 0..4 {
            for (field, width) in WIDTHS.into_iter().enumerate() {
                let mut values = values;
                values[field] = edges(width)[edge];
                settings.extend([None, Some(lifespan)].map(|last| Setting(values, last)));
            }
            settings.push(Setting(values, Some(edges(LIFESPAN)[edge])));
        }
    }
    settings
}

/// The calls at the limits: values at the edges of their fields, lists of
/// every length, every version with every length from 0 to 40.
pub fn limits() -> Vec<Vec<u8>> {
    let mut calls = vec!["N".to_string()];
    for setting in at_the_edges() {
        let (values, bytes) = (setting.shown(), setting.packed());
        let least = bytes.len();
        for room in [0, least - 1, least, 40] {
            calls.push(format!("P {values} {room}"));
        }
        calls.push(format!("D {values}"));
        if setting.fits() {
            calls.push(format!("S {}", hex(&bytes)));
            calls.push("R 0".into());
        }
    }
    for room in 0..=41 {
        for values in [
            "837 103 137 43981 -",
            "837 103 137 43981 61185",
            "4096 103 137 43981 -",
        ] {
            calls.push(format!("P {values} {room}"));
        }
    }
    let mut rng = Rng::of(0, 0);
    calls.push("S -".into());
    for version in 0..16 {
        for length in 1..=40 {
            let mut bytes: Vec<u8> = (0..length).map(|_| rng.next() as u8).collect();
            bytes[0] = bytes[0] & 15 | version << 4;
            calls.push(format!("S {}", hex(&bytes)));
            calls.push("R 0".into());
        }
        calls.extend((1..10).map(|age| format!("R {age}")));
    }
    calls.push("S -".into());
    calls.push(format!("R {}", u64::MAX));
    calls.into_iter().map(String::into_bytes).collect()
}

/// A list of random calls from a fresh start.
pub fn list(seed: u64, index: u64, length: u64) -> Vec<Vec<u8>> {
    let mut rng = Rng::of(seed, index);
    let mut calls = vec![b"N".to_vec()];
    calls.extend((0..length).map(|_| random_call(&mut rng).into_bytes()));
    calls
}

fn random_setting(rng: &mut Rng) -> Setting {
    let mut value = |width: u32| match rng.below(8) {
        0..=3 => *rng.pick(&edges(width)),
        4 if rng.once_in(4) => rng.next(),
        _ => rng.next() >> (64 - width),
    };
    let values = WIDTHS.map(&mut value);
    let lifespan = value(LIFESPAN);
    Setting(values, (!rng.once_in(3)).then_some(lifespan))
}

fn random_bytes(rng: &mut Rng) -> Vec<u8> {
    if rng.once_in(3) {
        return random_setting(rng).packed();
    }
    let length = *rng.pick(&[0, 1, 5, 6, 6, 7, 8, 8, 9, 20, 31, 32, 33, 40, 100]);
    let mut bytes: Vec<u8> = (0..length).map(|_| rng.next() as u8).collect();
    if let Some(first) = bytes.first_mut().filter(|_| rng.below(5) > 0) {
        *first = *first & 15 | ((1 + rng.below(7)) << 4) as u8;
    }
    bytes
}

fn random_call(rng: &mut Rng) -> String {
    match rng.below(10) {
        0 if rng.once_in(6) => "N".into(),
        0 | 1 => format!("D {}", random_setting(rng).shown()),
        2 | 3 => format!("P {} {}", random_setting(rng).shown(), rng.below(14)),
        4..=6 => format!("S {}", or_dash_hex(&random_bytes(rng))),
        _ => format!("R {}", rng.below(10)),
    }
}
