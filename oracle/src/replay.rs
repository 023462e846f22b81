//! Programs that answer the lines of standard input, one line each.

use rust_std::io::{self, BufRead, Write};
use rust_std::process;

/// A refused call, by document 01's number.
pub(crate) type Refusal = u32;

/// What an answered call prints, or its refusal.
pub(crate) type Answer = Result<String, Refusal>;

/// The answer to a call that the Rust would not end in time.
pub const TOO_LONG: &str = "the Rust would walk too long";

/// How many numbers a release may walk over: in a program on its own, at the
/// limits, and in one of many lists.
pub const LONGEST_WALK: u64 = 1_000_000_000;
pub const LIMITS_WALK: u64 = 20_000_000;
pub const LIST_WALK: u64 = 400_000;

/// A state that calls change, line by line.
pub trait Replay {
    /// The answer to one line, without its newline.
    fn answer(&mut self, line: &[u8]) -> String;

    /// What `--figures` adds after each answer.
    fn figures(&mut self) -> Option<String> {
        None
    }

    /// Whether demand 2 covers every answer so far: no difference of two
    /// numbers left 64 bits, no count wrapped, no walk was too long.
    fn covered(&self) -> bool {
        true
    }
}

/// Answers with the figures, on a line of their own.
pub(crate) struct WithFigures<R>(pub R);

impl<R: Replay> Replay for WithFigures<R> {
    fn answer(&mut self, line: &[u8]) -> String {
        let answer = self.0.answer(line);
        let figures = self.0.figures().unwrap_or_default();
        format!("{answer}\n{figures}")
    }

    fn covered(&self) -> bool {
        self.0.covered()
    }
}

/// The printed form of an answer; `None` is a line of no known form.
pub(crate) fn shown(answer: Option<Answer>) -> String {
    match answer {
        Some(Ok(text)) => text,
        Some(Err(refusal)) => format!("refused {refusal}"),
        None => "bad".into(),
    }
}

/// Answers standard input on standard output.
pub fn main(mut replay: impl Replay) {
    let figures = rust_std::env::args().skip(1).any(|arg| arg == "--figures");
    if let Err(error) = answer_all(&mut replay, figures, &mut io::stdin().lock()) {
        eprintln!("{error}");
        process::exit(3);
    }
}

fn answer_all(replay: &mut impl Replay, figures: bool, input: &mut impl BufRead) -> io::Result<()> {
    let mut output = io::BufWriter::new(io::stdout().lock());
    let mut line = Vec::new();
    let mut count = 0;
    while input.read_until(b'\n', &mut line)? > 0 {
        count += 1;
        let answer = replay.answer(line.strip_suffix(b"\n").unwrap_or(&line));
        if answer == TOO_LONG {
            output.flush()?;
            return Err(io::Error::other(format!("line {count}: {TOO_LONG}")));
        }
        writeln!(output, "{answer}")?;
        if let Some(text) = replay.figures().filter(|_| figures) {
            writeln!(output, "{text}")?;
        }
        line.clear();
    }
    output.flush()
}

/// The argument at a place, as a number, or the usage and no return.
pub fn argument<T: core::str::FromStr>(place: usize, usage: &str) -> T {
    let given = rust_std::env::args()
        .nth(place)
        .and_then(|arg| arg.parse().ok());
    given.unwrap_or_else(|| {
        eprintln!("usage: {usage}");
        process::exit(2)
    })
}

/// Prints lines as they are, each with a newline.
pub fn print(lines: &[Vec<u8>]) {
    let mut output = io::BufWriter::new(io::stdout().lock());
    for line in lines {
        let printed = output
            .write_all(line)
            .and_then(|()| output.write_all(b"\n"));
        if printed.is_err() {
            return;
        }
    }
}
