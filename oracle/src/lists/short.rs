//! All lists of up to four calls over small alphabets.

/// Calls before, the calls to choose from, and calls after.
struct Alphabet {
    before: &'static [&'static str],
    letters: &'static [&'static str],
    after: &'static [&'static str],
}

const LONGEST: u32 = 4;

const ALPHABETS: [Alphabet; 11] = [
    // Plain numbers of two writers, ruled out or not.
    Alphabet {
        before: &["T 10", "V 1 1 0", "V 1 2 1", "D 1 7"],
        letters: &[
            "S 1 1 0 1 - 7 11 0",
            "S 1 1 0 2 - 7 12 3",
            "S 1 2 1 3 - 7 13 0",
            "H 1 1 1 2 4 7 0",
            "H 1 2 3 3 3 - -",
            "G 1 2 1 2",
            "G 1 1 0 2",
            "R 9",
        ],
        after: &["R 10", "R 12", "R 13"],
    },
    // What one writer told last, and the most that it told.
    Alphabet {
        before: &["T 10", "V 1 1 0", "D 1 7"],
        letters: &[
            "G 1 1 0 3",
            "G 1 1 0 1",
            "H 1 1 4 4 5 7 0",
            "H 1 1 2 3 2 7 -",
            "H 1 2 1 0 9 - -",
            "S 1 2 0 4 - 7 11 0",
            "S 1 1 0 5 - 7 12 0",
            "R 9",
        ],
        after: &["R 9", "R 10"],
    },
    // Copies of one writer for two readers.
    Alphabet {
        before: &["T 10", "V 1 1 0", "V 1 1 1", "D 1 7"],
        letters: &[
            "S 1 1 0 1 - 7 11 0",
            "S 1 1 1 1 - 7 12 0",
            "S 1 1 0 2 - 7 13 1",
            "S 1 2 1 2 - 7 14 1",
            "G 1 1 1 1",
            "H 1 1 2 2 2 7 -",
            "H 1 1 1 1 5 - 0",
            "R 9",
        ],
        after: &["R 9", "R 10", "R 11"],
    },
    // A set of two writers: members, ends, joined ends, what makes it stale.
    Alphabet {
        before: &["T 10", "V 1 1 0", "V 1 2 1", "D 1 7"],
        letters: &[
            "S 1 1 0 1 1 7 11 0",
            "S 1 2 1 1 1 7 12 4",
            "E 1 1 0 2 1 7 1 2 0",
            "E 1 2 1 2 1 7 1 2 5",
            "E 1 2 1 1 1 7 - 2 5",
            "S 1 1 0 3 3 7 13 0",
            "S 1 1 0 3 - 7 14 0",
            "R 9",
        ],
        after: &["R 9", "R 10", "R 14"],
    },
    // Ends that join, and replace one another.
    Alphabet {
        before: &["T 10", "V 1 1 0", "V 1 2 1", "D 1 7", "S 1 1 0 1 1 7 10 0"],
        letters: &[
            "S 1 2 1 1 1 7 11 0",
            "E 1 1 0 2 1 7 1 2 0",
            "E 1 1 0 1 1 7 1 3 0",
            "E 1 1 0 1 1 7 1 2 0",
            "E 1 2 1 2 1 7 - - 0",
            "E 1 2 1 0 1 7 1 2 0",
            "R 0",
        ],
        after: &["E 1 2 1 1 1 7 - - 3", "R 9", "R 10"],
    },
    // One number that ends several sets, of both signs.
    Alphabet {
        before: &["T 10", "V 1 1 0", "D 1 7", "S 1 1 0 1 2 7 10 0"],
        letters: &[
            "E 1 1 0 2 2 7 1 2 0",
            "E 1 1 0 2 1 7 - 2 0",
            "E 1 1 0 2 -3 7 - 2 0",
            "S 1 1 0 2 -3 7 11 0",
            "E 1 2 1 1 2 7 - 2 0",
            "V 1 2 1",
            "S 1 1 0 3 - 7 12 0",
            "R 9",
        ],
        after: &["R 9", "E 1 2 1 1 1 7 - - 0", "R 9", "R 10"],
    },
    // Ends with and without first and own numbers.
    Alphabet {
        before: &["T 5", "V 1 1 0", "D 1 7", "S 1 1 0 1 1 7 10 0"],
        letters: &[
            "S 1 1 0 2 1 7 11 0",
            "E 1 1 0 2 1 7 1 2 0",
            "E 1 1 0 3 1 7 1 3 0",
            "E 1 1 0 3 1 7 - - 0",
            "E 1 1 0 3 1 7 9 - 0",
            "E 1 1 0 3 2 7 - 9 0",
            "E 1 1 0 3 - 7 1 3 0",
            "R 4",
        ],
        after: &["R 4", "R 5", "R 6"],
    },
    // Digests and secure digests, of a group with and without digest rows.
    Alphabet {
        before: &["T 10"],
        letters: &[
            "D 1 7",
            "S 1 1 0 2 - 7 11 0",
            "S 1 1 0 2 - 8 12 0",
            "H 1 1 3 3 3 7 -",
            "H 1 1 3 3 3 8 0",
            "H 1 2 3 3 3 - 1",
            "S 0 1 0 2 - 8 13 0",
            "H 0 1 3 3 3 9 0",
        ],
        after: &["R 9", "R 10"],
    },
    // Clocks that go back, timeouts met to the nanosecond.
    Alphabet {
        before: &["T 10", "V 1 1 0", "V 1 2 0", "D 1 7"],
        letters: &[
            "S 1 1 0 2 - 7 11 5",
            "S 1 1 0 2 - 7 12 0",
            "S 1 1 0 3 3 7 13 20",
            "E 1 1 0 4 3 7 2 3 0",
            "E 1 2 0 4 3 7 - 3 40",
            "R 0",
            "R 14",
            "R 15",
        ],
        after: &["R 29", "R 30", "R 31"],
    },
    // Groups in GUID order, each with its own numbers and sets.
    Alphabet {
        before: &["T 10", "V 2 1 0", "D 2 7"],
        letters: &[
            "S 2 1 0 1 - 7 11 0",
            "S 255 1 0 1 1 7 12 0",
            "S 1 1 3 1 - 7 13 0",
            "S 2 1 0 2 2 7 14 0",
            "E 2 1 0 3 2 7 1 2 0",
            "E 255 1 0 2 1 7 1 2 0",
            "H 1 1 1 0 9 - -",
            "R 3",
        ],
        after: &["S 1 1 3 3 - 7 15 0", "R 9", "R 10"],
    },
    // Refusals, bad lines and fresh starts.
    Alphabet {
        before: &["T 10", "D 1 7"],
        letters: &[
            "S 1 1 0 2 - 7 11 0",
            "S 1 1 8 1 - 7 12 0",
            "G 1 1 8 4",
            "V 1 1 8",
            "D 1 8",
            "T 0",
            "T 00",
            "S 1 1 0 1 - 7 13",
        ],
        after: &["R 9", "R 10"],
    },
];

fn count_of(alphabet: &Alphabet) -> u64 {
    let letters = alphabet.letters.len() as u64;
    (0..=LONGEST).map(|length| letters.pow(length)).sum()
}

/// How many short lists there are.
pub(super) fn count() -> u64 {
    ALPHABETS.iter().map(count_of).sum()
}

/// The list at a place below `count`.
pub(super) fn list(mut place: u64) -> Vec<String> {
    for alphabet in &ALPHABETS {
        if place >= count_of(alphabet) {
            place -= count_of(alphabet);
            continue;
        }
        let letters = alphabet.letters.len() as u64;
        let mut length = 0;
        while place >= letters.pow(length) {
            place -= letters.pow(length);
            length += 1;
        }
        let chosen = (0..length).map(|digit| {
            let letter = place / letters.pow(digit) % letters;
            alphabet.letters[letter as usize]
        });
        let before = alphabet.before.iter().copied();
        let after = alphabet.after.iter().copied();
        return before
            .chain(chosen)
            .chain(after)
            .map(String::from)
            .collect();
    }
    unreachable!("the place is below the count")
}
