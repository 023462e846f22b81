//! The call lists that are timed. None has a bad line or a refusal.

/// A call list from memory.
pub struct List {
    pub name: String,
    pub text: Vec<u8>,
    pub lines: usize,
}

pub const GROUP: u64 = 1;
pub const DIGEST: u64 = 7;
pub const ENTRIES: u64 = 256;

impl List {
    pub fn new(name: &str) -> Self {
        Self {
            name: name.into(),
            text: Vec::new(),
            lines: 0,
        }
    }

    pub fn push(&mut self, line: String) {
        self.text.extend(line.into_bytes());
        self.text.push(b'\n');
        self.lines += 1;
    }

    /// The list without its last line.
    pub fn without_last(&self) -> Self {
        let text = self.text.strip_suffix(b"\n").unwrap_or(&self.text);
        let end = text.iter().rposition(|byte| *byte == b'\n');
        Self {
            name: self.name.clone(),
            text: text[..end.map_or(0, |end| end + 1)].to_vec(),
            lines: self.lines - 1,
        }
    }

    /// A member of a set, of the group's first writer for its first reader.
    fn push_member(&mut self, number: u64, set: u64) {
        self.push(format!("S {GROUP} 1 0 {number} {set} {DIGEST} {number} 0"));
    }

    /// The end of a set: the writer's first number in it, and the end's own.
    fn push_end(&mut self, number: u64, set: u64, numbers: &str) {
        self.push(format!("E {GROUP} 1 0 {number} {set} {DIGEST} {numbers} 0"));
    }

    /// A plain sample of the group's first writer for its first reader.
    fn push_plain(&mut self, number: u64) {
        self.push(format!("S {GROUP} 1 0 {number} - {DIGEST} {number} 0"));
    }
}

/// Random numbers by xorshift, always the same.
struct Random(u64);

impl Random {
    fn once_in(&mut self, times: u64) -> bool {
        self.0 ^= self.0 << 13;
        self.0 ^= self.0 >> 7;
        self.0 ^= self.0 << 17;
        self.0.is_multiple_of(times)
    }
}

/// All lists of the first table.
pub fn all() -> Vec<List> {
    vec![
        workout(),
        out_of_order(),
        full_store(),
        heartbeats_and_gaps(),
    ]
}

/// Lists that end with their one release.
pub fn releases() -> Vec<List> {
    let mut lists = vec![
        one_set(),
        copies(),
        many_sets(),
        groups(),
        falling(),
        members_and_plain(),
        one_number(),
        many_ends(),
    ];
    for list in &mut lists {
        list.push("R 0".into());
    }
    lists
}

fn one_set() -> List {
    let mut list = List::new("one set of 254 members");
    list.push(format!("V {GROUP} 1 0"));
    (1..=254).for_each(|number| list.push_member(number, 1));
    list.push_end(255, 1, "1 255");
    list
}

fn copies() -> List {
    let mut list = List::new("32 numbers, 8 copies each");
    (0..8).for_each(|reader| list.push(format!("V {GROUP} 1 {reader}")));
    for (number, reader) in (1..=32).flat_map(|number| (0..8).map(move |r| (number, r))) {
        list.push(format!("S {GROUP} 1 {reader} {number} - {DIGEST} 1 0"));
    }
    list
}

fn many_sets() -> List {
    let mut list = List::new("80 sets of 2");
    list.push(format!("V {GROUP} 1 0"));
    for first in (0..80).map(|set| 3 * set + 1) {
        list.push_member(first, first);
        list.push_member(first + 1, first);
        list.push_end(first + 2, first, &format!("{first} {}", first + 2));
    }
    list
}

fn groups() -> List {
    let mut list = List::new("8 groups of 32");
    for (number, group) in (1..=32).flat_map(|number| (0..8).map(move |g| (number, g))) {
        list.push(format!("S {group} 1 0 {number} - {DIGEST} 1 0"));
    }
    list
}

fn falling() -> List {
    let mut list = List::new("256 numbers in falling order");
    let numbers = (1..=ENTRIES).rev();
    numbers.for_each(|number| list.push_plain(number));
    list
}

fn members_and_plain() -> List {
    let mut list = List::new("127 members, their end, 127 plain of its number");
    list.push(format!("V {GROUP} 1 0"));
    (1..=127).for_each(|number| list.push_member(number, 1));
    list.push_end(128, 1, "1 128");
    (0..127).for_each(|_| list.push_plain(128));
    list
}

fn one_number() -> List {
    let mut list = List::new("256 entries of one number, 256 equal rows");
    // The counted reader's copy comes last.
    (0..256).for_each(|_| list.push(format!("V {GROUP} 1 1")));
    (1..ENTRIES).for_each(|_| list.push_plain(1));
    list.push(format!("S {GROUP} 1 1 1 - {DIGEST} 1 0"));
    list
}

fn many_ends() -> List {
    let mut list = List::new("256 ends of 256 sets, one number");
    (1..=ENTRIES).for_each(|set| list.push_end(1, set, "- -"));
    list
}

/// Four writers, each with two of the eight readers. A set is a sample of
/// each writer and their ends; neighbours may change places, and now and then
/// what one reader gets comes only after the set's release.
fn workout() -> List {
    const SETS: u64 = 64;
    let mut random = Random(0x9E37_79B9_7F4A_7C15);
    let mut list = List::new("workout");
    for reader in 0..8 {
        list.push(format!("V {}", pair(reader)));
    }
    list.push(format!("D {GROUP} {DIGEST}"));
    for set in 0..SETS {
        let (first, end, time) = (5 * set + 1, 5 * set + 5, 1_000_000 * set);
        let own = format!("{} {}", 2 * set + 1, 2 * set + 2);
        let samples = (0..8).map(|reader| {
            let (pair, number) = (pair(reader), first + reader / 2);
            (
                reader,
                format!("S {pair} {number} {first} {DIGEST} {number} {time}"),
            )
        });
        let ends = (0..8).map(|reader| {
            let pair = pair(reader);
            (
                reader,
                format!("E {pair} {end} {first} {DIGEST} {own} {time}"),
            )
        });
        let mut lines: Vec<(u64, String)> = samples.chain(ends).collect();
        for place in 1..lines.len() {
            if random.once_in(8) {
                lines.swap(place - 1, place);
            }
        }
        let behind = random.once_in(16).then_some(set % 8);
        let (late, early): (Vec<_>, Vec<_>) = lines
            .into_iter()
            .partition(|(reader, _)| Some(*reader) == behind);
        early.into_iter().for_each(|(_, line)| list.push(line));
        let writer = set % 4 + 1;
        list.push(format!("H {GROUP} {writer} 1 {end} {end} {DIGEST} -"));
        list.push(format!("R {time}"));
        late.into_iter().for_each(|(_, line)| list.push(line));
    }
    list.push(format!("R {}", 1_000_000 * SETS));
    list
}

/// A reader with its writer, and their group.
fn pair(reader: u64) -> String {
    format!("{GROUP} {} {reader}", reader / 2 + 1)
}

/// Blocks of 128 numbers, far from their order, the least one last; a
/// release after every sixteenth.
fn out_of_order() -> List {
    const BLOCK: u64 = 128;
    let mut list = List::new("far out of order");
    for block in 0..8 {
        for place in 1..=BLOCK {
            list.push_plain(block * BLOCK + place * 77 % BLOCK + 1);
            if place % 16 == 0 {
                list.push("R 0".into());
            }
        }
    }
    list
}

/// 256 numbers, all handed out by one release; eight times.
fn full_store() -> List {
    let mut list = List::new("full store, released at once");
    for round in 0..8 {
        for place in 1..=ENTRIES {
            list.push_plain(round * ENTRIES + place);
        }
        list.push("R 0".into());
    }
    list
}

/// All 32 pairs of group and writer, for all readers.
fn heartbeats_and_gaps() -> List {
    let mut list = List::new("heartbeats and gaps");
    for turn in 0..1024 {
        let (group, writer, reader) = (turn % 8, turn / 8 % 4, turn / 32 % 8);
        let (first, last, current) = (turn / 2 + 1, turn + 1, turn + 2);
        list.push(format!("H {group} {writer} {first} {last} {current} 7 0"));
        list.push(format!("G {group} {writer} {reader} {turn}"));
    }
    list
}

/// Entries of one writer, in rising order.
pub fn rising(entries: u64) -> List {
    let mut list = List::new(&format!("{entries} numbers of one writer"));
    (1..=entries).for_each(|number| list.push_plain(number));
    list
}

/// The same, and a release that hands them all out.
pub fn released(entries: u64) -> List {
    let mut list = rising(entries);
    list.push("R 0".into());
    list
}

/// 256 entries of eight groups, 32 pairs of group and writer and all readers,
/// with a heartbeat of each writer and a gap of each pair; none is released.
pub fn spread() -> List {
    let mut list = List::new("256 entries of 8 groups, 32 writers, 8 readers");
    for (group, writer) in (0..8).flat_map(|group| (0..4).map(move |writer| (group, writer))) {
        list.push(format!("H {group} {writer} 1 9 9 {DIGEST} 0"));
        for reader in 0..8 {
            list.push(format!("G {group} {writer} {reader} 1"));
            let number = writer + 2;
            list.push(format!(
                "S {group} {writer} {reader} {number} - {DIGEST} 1 0"
            ));
        }
    }
    list
}
