//! The port's calls one by one, without reading and printing: what a library
//! that exports them is linked as (README.md, "Calls alone").

/// The words of a history, and of the rows of its releases.
const HISTORY: usize = 6984;
const VIEW: usize = 1307;

/// `R` lends this many places.
const PLACES: usize = 256;

type Guid = [u8; 16];

#[repr(C)]
#[derive(Clone, Copy)]
struct MaybeNumber {
    present: bool,
    number: i64,
}

#[repr(C)]
#[derive(Clone, Copy)]
struct MaybeDigest {
    present: bool,
    digest: u32,
}

#[repr(C)]
#[derive(Clone, Copy)]
struct Sample {
    group: Guid,
    writer: Guid,
    reader: u8,
    number: i64,
    set: MaybeNumber,
    digest: u32,
    item: u32,
    time: u64,
}

#[repr(C)]
#[derive(Clone, Copy)]
struct End {
    group: Guid,
    writer: Guid,
    reader: u8,
    number: i64,
    set: MaybeNumber,
    digest: u32,
    first: MaybeNumber,
    own: MaybeNumber,
    time: u64,
}

#[repr(C)]
#[derive(Clone, Copy)]
struct Heartbeat {
    group: Guid,
    writer: Guid,
    first: i64,
    last: i64,
    current: i64,
    digest: MaybeDigest,
    secure: MaybeDigest,
}

#[repr(C)]
#[derive(Clone, Copy)]
struct Gap {
    group: Guid,
    writer: Guid,
    reader: u8,
    number: i64,
}

#[repr(C)]
#[derive(Clone, Copy)]
struct PairRow {
    group: Guid,
    writer: Guid,
    reader: u8,
}

#[repr(C)]
#[derive(Clone, Copy)]
struct DigestRow {
    group: Guid,
    digest: u32,
}

extern "C" {
    fn gubrestal_new(history: &mut [u64; HISTORY], timeout: u64);
    fn gubrestal_offer_sample(history: &mut [u64; HISTORY], sample: Sample) -> u8;
    fn gubrestal_offer_end(history: &mut [u64; HISTORY], end: End) -> u8;
    fn gubrestal_heartbeat(history: &mut [u64; HISTORY], heartbeat: Heartbeat) -> u8;
    fn gubrestal_gap(history: &mut [u64; HISTORY], gap: Gap) -> u8;
    fn gubrestal_view_clear(view: &mut [u64; VIEW]);
    fn gubrestal_view_pair(view: &mut [u64; VIEW], row: PairRow);
    fn gubrestal_view_digest(view: &mut [u64; VIEW], row: DigestRow);
    /// 0, with the number written; else the refusal.
    fn gubrestal_release(
        history: &mut [u64; HISTORY],
        view: &[u64; VIEW],
        time: u64,
        out: *mut u64,
        places: usize,
        written: &mut u64,
    ) -> u8;
}

enum Call {
    Fresh(u64),
    Pair(PairRow),
    Digest(DigestRow),
    Sample(Sample),
    End(End),
    Heartbeat(Heartbeat),
    Gap(Gap),
    Release(u64),
}

/// A list's calls. The bench's lists have no bad line.
pub struct Parsed(Vec<Call>);

impl Parsed {
    pub fn of(text: &[u8]) -> Self {
        let text = std::str::from_utf8(text).expect("the bench's lists are text");
        Self(text.lines().map(parse).collect())
    }
}

fn parse(line: &str) -> Call {
    let mut fields = Fields(line.split(' '));
    match fields.0.next().expect("a letter") {
        "T" => Call::Fresh(fields.number()),
        "V" => Call::Pair(PairRow {
            group: fields.guid(),
            writer: fields.guid(),
            reader: fields.number(),
        }),
        "D" => Call::Digest(DigestRow {
            group: fields.guid(),
            digest: fields.number(),
        }),
        "S" => Call::Sample(Sample {
            group: fields.guid(),
            writer: fields.guid(),
            reader: fields.number(),
            number: fields.number(),
            set: fields.maybe_number(),
            digest: fields.number(),
            item: fields.number(),
            time: fields.number(),
        }),
        "E" => Call::End(End {
            group: fields.guid(),
            writer: fields.guid(),
            reader: fields.number(),
            number: fields.number(),
            set: fields.maybe_number(),
            digest: fields.number(),
            first: fields.maybe_number(),
            own: fields.maybe_number(),
            time: fields.number(),
        }),
        "H" => Call::Heartbeat(Heartbeat {
            group: fields.guid(),
            writer: fields.guid(),
            first: fields.number(),
            last: fields.number(),
            current: fields.number(),
            digest: fields.maybe_digest(),
            secure: fields.maybe_digest(),
        }),
        "G" => Call::Gap(Gap {
            group: fields.guid(),
            writer: fields.guid(),
            reader: fields.number(),
            number: fields.number(),
        }),
        "R" => Call::Release(fields.number()),
        other => panic!("no call {other}"),
    }
}

struct Fields<'a>(std::str::Split<'a, char>);

impl Fields<'_> {
    fn maybe<T: std::str::FromStr>(&mut self) -> Option<T> {
        match self.0.next().expect("a field") {
            "-" => None,
            field => Some(field.parse().ok().expect("a number of its width")),
        }
    }

    fn number<T: std::str::FromStr>(&mut self) -> T {
        self.maybe().expect("a number")
    }

    fn guid(&mut self) -> Guid {
        let mut guid = [0; 16];
        guid[15] = self.number();
        guid
    }

    fn maybe_number(&mut self) -> MaybeNumber {
        let number = self.maybe();
        MaybeNumber {
            present: number.is_some(),
            number: number.unwrap_or(0),
        }
    }

    fn maybe_digest(&mut self) -> MaybeDigest {
        let digest = self.maybe();
        MaybeDigest {
            present: digest.is_some(),
            digest: digest.unwrap_or(0),
        }
    }
}

/// A history, the rows lent to its releases and what they write to.
pub struct Port {
    history: Box<[u64; HISTORY]>,
    view: Box<[u64; VIEW]>,
    out: [u64; PLACES],
}

impl Port {
    pub fn new() -> Self {
        Self {
            history: Box::new([0; HISTORY]),
            view: Box::new([0; VIEW]),
            out: [0; PLACES],
        }
    }

    /// Runs the calls from a fresh start, and answers how many samples were
    /// handed out.
    pub fn run(&mut self, calls: &Parsed) -> u64 {
        self.fresh(1_000_000_000);
        calls.0.iter().map(|call| self.call(call)).sum()
    }

    fn fresh(&mut self, timeout: u64) {
        // SAFETY: as in `call`.
        unsafe {
            gubrestal_new(&mut self.history, timeout);
            gubrestal_view_clear(&mut self.view);
        }
    }

    fn call(&mut self, call: &Call) -> u64 {
        let (history, view) = (&mut *self.history, &mut *self.view);
        let mut written = 0;
        // SAFETY: each array has the length that the library takes, and the
        // places lent are `out`'s.
        let refusal = unsafe {
            match call {
                Call::Fresh(timeout) => {
                    self.fresh(*timeout);
                    0
                }
                Call::Pair(row) => {
                    gubrestal_view_pair(view, *row);
                    0
                }
                Call::Digest(row) => {
                    gubrestal_view_digest(view, *row);
                    0
                }
                Call::Sample(sample) => gubrestal_offer_sample(history, *sample),
                Call::End(end) => gubrestal_offer_end(history, *end),
                Call::Heartbeat(heartbeat) => gubrestal_heartbeat(history, *heartbeat),
                Call::Gap(gap) => gubrestal_gap(history, *gap),
                Call::Release(time) => {
                    let out = self.out.as_mut_ptr();
                    gubrestal_release(history, view, *time, out, PLACES, &mut written)
                }
            }
        };
        // 1 to 11 are refusals, which the bench's lists don't meet.
        debug_assert!(!(1..=11).contains(&refusal));
        written
    }
}
