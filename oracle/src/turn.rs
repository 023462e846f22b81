//! Calls on `GroupOrdering`: offers and the subscriber turn, with document
//! 01's refusals.
//!
//! One call a line. `T`, `V`, `D`, `S`, `E`, `H` and `G` as in the call list;
//! `H` and `G` go to the history beneath. Besides:
//!
//! ```text
//! P group writer reader gap                                        progress row without a heartbeat
//! Q group writer reader gap first last current digest secure      progress row with one
//! U time places                                                    turn
//! R time places                                                    release of the history beneath
//! N S .. or N E ..                                                 an offer whose group was not named
//! A S .. or A E ..                                                 an offer without group information
//! B 1 or B 0                                                       GUIDs spread from here on, or not
//! K bytes                                                          group key of a GUID
//! ```
//!
//! `P` and `Q` print `ok`; their rows, in order, go to the next turn and are
//! gone after it, refused or not, and at a good `T`. `U` lends as many places
//! (unsigned 64-bit) and prints `refused` and the number, `idle` if nothing
//! waits, or `out`, the samples, `|`, the four counts since the fresh start,
//! `|` and what the turn added to them. `K` takes sixteen bytes and prints
//! the sixteen of `participant_group_key`. `R` prints what the call list's
//! prints, `N` what an offer prints, `A` `given back`, `B` `ok`. GUID k, spread,
//! is the sixteen bytes k xor 17 i; `T` ends it. Any other line is `bad`.

use core::cell::RefCell;
use core::time::Duration;
use rust_std::sync::Arc;

use crate::call::{self, Call, Content, Offer, Pair};
use crate::calls::{check_readers, Calls, History};
use crate::figures;
use crate::group_order::{GroupOrder, ReleaseCounts, WriterGuid};
use crate::line::{hex, Fields};
use crate::lists::{self, wide};
use crate::presentation::{group_key_of, GroupOrdering};
use crate::replay::{shown, Answer, Replay, LIST_WALK, TOO_LONG};
use crate::rng::Rng;
use crate::runtime::{DcpsRuntime, Place, Progress, SampleGroup, UserSample};
use crate::time::Instant;
use crate::wire_types::EntityId;

impl History for GroupOrdering<u8> {
    type Item = UserSample;

    fn fresh(timeout: Duration) -> Self {
        GroupOrdering::with_timeout(timeout)
    }

    fn order(&mut self) -> &mut GroupOrder<u8, UserSample> {
        GroupOrdering::order(self)
    }

    fn put(&mut self, offer: Offer) {
        let Pair {
            group: key,
            writer: writer_guid,
            reader,
        } = offer.pair;
        let group = Some(SampleGroup {
            writer: writer_guid,
            info: offer.info,
        });
        let item = item(offer.content, writer_guid, group);
        let named = offer.named.then_some(key);
        let runtime = DcpsRuntime {
            groups: RefCell::new(named.into_iter().collect()),
            ..DcpsRuntime::default()
        };
        Instant::set(offer.time);
        assert!(self.offer(&runtime, reader, item).is_none(), "of a group");
    }
}

fn item(content: Content, writer_guid: WriterGuid, group: Option<SampleGroup>) -> UserSample {
    match content {
        Content::Sample(item) => UserSample::Alive {
            writer_guid,
            coherent_set_sn: None,
            group,
            item,
        },
        Content::End(end) => UserSample::CoherentSetEnd {
            writer_guid,
            set_first_sn: end.first_sn,
            ecs_sn: end.ecs_sn,
            complete: None,
            group,
        },
    }
}

/// The state that the lines change.
pub struct Turn {
    calls: Calls<GroupOrdering<u8>>,
    progress: Vec<(Pair, Progress)>,
    spread: bool,
}

impl Turn {
    pub fn new(longest_walk: u64) -> Self {
        Self {
            calls: Calls::new(longest_walk),
            progress: Vec::new(),
            spread: false,
        }
    }

    /// A GUID of a line, spread or as it is.
    fn spelled(&self, guid: WriterGuid) -> WriterGuid {
        match self.spread {
            true => core::array::from_fn(|i| guid[15] ^ (17 * i) as u8),
            false => guid,
        }
    }

    fn pair(&self, pair: Pair) -> Pair {
        Pair {
            group: self.spelled(pair.group),
            writer: self.spelled(pair.writer),
            reader: pair.reader,
        }
    }

    fn call(&self, call: Call) -> Call {
        match call {
            Call::Counted(pair) => Call::Counted(self.pair(pair)),
            Call::Digest(group, digest) => Call::Digest(self.spelled(group), digest),
            Call::Offer(mut offer) => {
                offer.pair = self.pair(offer.pair);
                Call::Offer(offer)
            }
            Call::Heartbeat(group, writer, info) => {
                Call::Heartbeat(self.spelled(group), self.spelled(writer), info)
            }
            Call::Gap(pair, number) => Call::Gap(self.pair(pair), number),
            call => call,
        }
    }

    fn run(&mut self, line: &[u8]) -> Option<Answer> {
        let mut fields = Fields::of(line);
        // The fields are read before anything is changed.
        match fields.word()? {
            kind @ (b"P" | b"Q") => {
                let pair = call::pair(&mut fields)?;
                let gap_end_gsn = fields.signed()?;
                let heartbeat = match kind {
                    b"Q" => Some(call::heartbeat(&mut fields)?),
                    _ => None,
                };
                fields.end()?;
                let progress = Progress {
                    heartbeat,
                    gap_end_gsn,
                };
                self.progress.push((self.pair(pair), progress));
                Some(Ok("ok".into()))
            }
            b"U" => {
                let (now, places) = (call::time(&mut fields)?, fields.unsigned()?);
                fields.end()?;
                Some(self.turn(now, places))
            }
            b"R" => {
                let (now, places) = (call::time(&mut fields)?, fields.unsigned()?);
                fields.end()?;
                Some(self.release(now, places))
            }
            kind @ (b"N" | b"A") => {
                let Call::Offer(mut offer) = self.call(call::parse(line.get(2..)?)?) else {
                    return None;
                };
                if kind == b"A" {
                    let Pair { writer, reader, .. } = offer.pair;
                    let item = item(offer.content, writer, None);
                    let runtime = DcpsRuntime::default();
                    let back = self.calls.history.offer(&runtime, reader, item);
                    assert!(back.is_some(), "without group information");
                    return Some(Ok("given back".into()));
                }
                offer.pair.group = group_key_of(offer.pair.writer);
                offer.named = false;
                Some(self.calls.run(Call::Offer(offer), |_, _| unreachable!("an offer")))
            }
            b"B" => {
                let spread = fields.flag()?;
                fields.end()?;
                self.spread = spread;
                Some(Ok("ok".into()))
            }
            b"K" => {
                let guid = <[u8; 16]>::try_from(fields.bytes()?).ok()?;
                fields.end()?;
                Some(Ok(hex(&group_key_of(guid))))
            }
            _ => match self.call(call::parse(line)?) {
                Call::Release(_) => None,
                call => {
                    if matches!(call, Call::Fresh(_)) {
                        self.progress.clear();
                        self.spread = false;
                    }
                    Some(self.calls.run(call, |_, _| unreachable!("no release here")))
                }
            },
        }
    }

    fn release(&mut self, now: Duration, places: u64) -> Answer {
        let calls = &mut self.calls;
        calls.check_rows()?;
        calls.check_places(places)?;
        let order = calls.history.order();
        if order.walk(Some(&calls.rows), i64::MIN) > calls.longest_walk {
            calls.covered = false;
            return Ok(TOO_LONG.into());
        }
        let samples = order.release(&calls.rows, now).into_iter();
        let samples: Vec<(u8, u32)> = samples
            .map(|(reader, sample)| match sample {
                UserSample::Alive { item, .. } => (reader, item),
                other => panic!("{other:?} was never offered as a sample"),
            })
            .collect();
        calls.covered &= order.committed_sum() <= u64::MAX.into();
        Ok(figures::written(&samples) + &figures::counts(&order.counts()))
    }

    fn turn(&mut self, now: Duration, places: u64) -> Answer {
        let rows = core::mem::take(&mut self.progress);
        let calls = &mut self.calls;
        calls.check_rows()?;
        check_readers(rows.iter().map(|(pair, _)| pair.reader))?;
        let idle = calls.history.order().is_empty();
        if !idle {
            calls.check_places(places)?;
        }
        let announced = rows.iter().filter_map(|(_, progress)| progress.heartbeat);
        let announced = announced.map(|heartbeat| heartbeat.current_gsn.0).max();
        let order = calls.history.order();
        if order.walk(None, announced.unwrap_or(0)) > calls.longest_walk {
            calls.covered = false;
            return Ok(TOO_LONG.into());
        }
        let before = order.counts();
        let progress = rows.iter().map(|(pair, progress)| {
            let place = Place::Progress(pair.group, pair.writer, *progress);
            (place, pair.reader)
        });
        let counted = calls.rows.counted.iter();
        let counted = counted.map(|pair| (Place::Counted(pair.group, pair.writer), pair.reader));
        let (places, readers): (Vec<Place>, Vec<u8>) = progress.chain(counted).unzip();
        #[allow(clippy::arc_with_non_send_sync)] // The source asks for an Arc.
        let runtime = Arc::new(DcpsRuntime {
            places,
            known: order.writers(),
            digests: calls.rows.digests.clone(),
            ..DcpsRuntime::default()
        });
        let readers = readers.into_iter().enumerate();
        let readers: Vec<_> = readers
            .map(|(place, reader)| (EntityId(place), reader))
            .collect();
        let mut samples = Vec::new();
        Instant::set(now);
        calls.history.release(&runtime, &readers, |reader, sample| {
            match sample {
                UserSample::Alive { item, .. } => samples.push((*reader, item)),
                other => panic!("{other:?} was never offered as a sample"),
            }
            true
        });
        if idle {
            return Ok("idle".into());
        }
        let order = calls.history.order();
        calls.covered &= order.committed_sum() <= u64::MAX.into();
        let after = order.counts();
        let added = added(&runtime, after.discarded_samples - before.discarded_samples);
        let counts = figures::counts(&after) + " |" + &figures::counts(&added);
        Ok(figures::written(&samples) + &counts)
    }
}

/// What the turn reported, and the discarded samples, which it doesn't.
fn added(runtime: &DcpsRuntime, discarded_samples: u64) -> ReleaseCounts {
    let events = runtime.config.observability.events.borrow();
    let reported = |name: &str| {
        let event = events.iter().find(|event| event.name.ends_with(name));
        event.map_or(0, |event| event.attrs[0].1.parse().expect("a count"))
    };
    ReleaseCounts {
        skipped_after_timeout: reported("passed_after_timeout"),
        incomplete_sets: reported("incomplete_set_discarded"),
        discarded_samples,
        late_samples: reported("late_sample_discarded"),
    }
}

impl Replay for Turn {
    fn answer(&mut self, line: &[u8]) -> String {
        shown(self.run(line))
    }

    fn figures(&mut self) -> Option<String> {
        Some(figures::waiting(self.calls.history.order()))
    }

    fn covered(&self) -> bool {
        self.calls.covered
    }
}

/// Group keys to try.
pub fn limits() -> Vec<Vec<u8>> {
    let guids = ["00", "ff", "0a"].map(|byte| byte.repeat(16));
    let mixed = [
        "000102030405060708090a0b0c0d0e0f",
        "ffffffffffffffffffffffff00000001",
    ];
    let guids = guids.into_iter().chain(mixed.map(String::from));
    guids.map(|guid| format!("K {guid}").into_bytes()).collect()
}

/// One list: a call list whose heartbeats and gaps become progress rows, but
/// for some, and whose releases become turns.
pub fn list(seed: u64, index: u64) -> Vec<Vec<u8>> {
    let mut rng = Rng::of(!seed, index);
    let mut turn = Turn::new(LIST_WALK);
    let mut lines = Vec::new();
    let given = lists::list(seed, index, false).into_iter();
    let given: Vec<Vec<u8>> = given
        .flat_map(|line| match line.first() {
            Some(b'T') if call::parse(&line).is_some() && rng.once_in(2) => {
                vec![line, b"B 1".to_vec()]
            }
            _ => vec![line],
        })
        .collect();
    for line in given {
        let mut line = turned(&mut rng, &mut turn, line);
        loop {
            let answer = turn.answer(&line);
            if !turn.covered() {
                return lines;
            }
            lines.push(line.clone());
            // Some turns refused for their list are tried with a longer one.
            if answer != "refused 5" || rng.once_in(2) {
                break;
            }
            let time = line
                .rsplitn(2, |byte| *byte == b' ')
                .last()
                .unwrap_or_default();
            line = [time, b" 256"].concat();
        }
    }
    lines
}

fn turned(rng: &mut Rng, turn: &mut Turn, line: Vec<u8>) -> Vec<u8> {
    if call::parse(&line).is_none() || rng.once_in(8) {
        return line;
    }
    let text = String::from_utf8(line).expect("a good line");
    let fields: Vec<&str> = text.split(' ').collect();
    let reader = match rng.below(24) {
        0 => 8,
        _ => rng.below(3),
    };
    let turned = match fields.as_slice() {
        ["R", time] => {
            let stored = turn.calls.history.order().sample_count() as u64;
            let places = match rng.below(7) {
                0 => stored,
                1 => stored.saturating_sub(1),
                2 => rng.below(4),
                3 => wide(rng),
                _ => 256,
            };
            let call = if rng.once_in(3) { "R" } else { "U" };
            format!("{call} {time} {places}")
        }
        ["S" | "E", ..] if rng.once_in(6) => format!("N {text}"),
        ["S" | "E", ..] if rng.once_in(40) => format!("A {text}"),
        ["G", rest @ ..] => format!("P {}", rest.join(" ")),
        ["H", group, writer, rest @ ..] => {
            let gap = rng.between(-1, 3);
            format!("Q {group} {writer} {reader} {gap} {}", rest.join(" "))
        }
        _ => text,
    };
    turned.into_bytes()
}
