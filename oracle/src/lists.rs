//! Call lists to try: every second one is a short list over a small
//! alphabet until those are used up, the others are random.

mod boundary;
mod damage;
mod mixed;
mod published;
mod short;
mod text;

use crate::call_list::CallList;
use crate::replay::{Replay, LIST_WALK};
use crate::rng::Rng;

/// A line without its newline.
pub type Line = Vec<u8>;

type Generator = fn(&mut Rng) -> Vec<String>;

/// Random lists, each as often as its weight says.
const RANDOM: [(u64, Generator); 11] = [
    (40, mixed::list),
    (40, published::list),
    (20, mixed::at_the_ends),
    (6, boundary::groups),
    (6, boundary::pairs),
    (4, boundary::sets),
    (1, boundary::holes),
    (2, boundary::refused),
    (2, boundary::rows),
    (1, boundary::entries),
    (1, boundary::samples),
];

/// One list of a seed, which demand 2 covers. It begins with `T`, unless it
/// is the `first` of its process and tries the state before any `T`.
pub fn list(seed: u64, index: u64, first: bool) -> Vec<Line> {
    let mut rng = Rng::of(seed, index);
    let shorts = short::count();
    if !index.is_multiple_of(2) && index / 2 < shorts {
        // The step is prime and no divisor of the count: none is met twice.
        let place = u128::from(seed % shorts) + u128::from(index / 2) * 1_000_003;
        return lines(short::list((place % u128::from(shorts)) as u64));
    }
    let early = first && rng.once_in(2);
    loop {
        let mut list = match early {
            true => lines(mixed::before_any_fresh(&mut rng)),
            false => lines(random(&mut rng)),
        };
        if rng.once_in(5) {
            damage::list(&mut rng, &mut list[1..]);
        }
        if answers(&mut CallList::new(LIST_WALK), &list).is_some() {
            return list;
        }
    }
}

/// Calls at the limits, on their own.
pub(crate) fn limits() -> Vec<Line> {
    lines(boundary::limits())
}

fn random(rng: &mut Rng) -> Vec<String> {
    let mut left = rng.below(RANDOM.iter().map(|(weight, _)| weight).sum());
    for (weight, generator) in RANDOM {
        if left < weight {
            return generator(rng);
        }
        left -= weight;
    }
    unreachable!("the weights add up")
}

/// Places of a lent list at the ends of widths: more than are needed, but
/// few or none by their lower bits.
pub(crate) fn wide(rng: &mut Rng) -> u64 {
    let end = *rng.pick(&[8, 16, 31, 32, 33, 48, 63]);
    match rng.below(8) {
        0 => u64::MAX,
        1 => (1 << end) - 1,
        2 => (1 << end) + 1,
        _ => 1 << end,
    }
}

fn lines(texts: Vec<String>) -> Vec<Line> {
    texts.into_iter().map(String::into_bytes).collect()
}

/// The answers of the Rust, if demand 2 covers them all.
pub(crate) fn answers(replay: &mut (impl Replay + ?Sized), list: &[Line]) -> Option<Vec<String>> {
    let answers = list.iter().map(|line| {
        let answer = replay.answer(line);
        replay.covered().then_some(answer)
    });
    answers.collect()
}
