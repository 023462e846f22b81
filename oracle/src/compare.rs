//! Runs a program against the Rust on many lists.

use core::time::Duration;
use rust_std::io::{self, Read, Write};
use rust_std::process::{Child, Command, ExitStatus, Stdio};
use rust_std::sync::mpsc;
use rust_std::time::Instant;
use rust_std::{env, process, thread};

use crate::kinds::{self, Kind};
use crate::lists::{answers, Line};
use crate::replay;

const USAGE: &str =
    "compare COUNT SEED PROGRAM [call-list|figures|turn|page|gate|tbf|scopes|settings [SECONDS]]";

/// Lists of one run of the program.
const BATCH: u64 = 500;

/// One of so many lists goes into the last run, which has them all: its
/// input is megabytes long.
const LONG_RUN: u64 = 5;

/// A run that takes longer, or prints so many bytes more than the Rust, is
/// ended, and no other follows.
const SECONDS: u64 = 120;
const MORE_PRINTED: usize = 1 << 16;

/// Of answers that are too many the report prints the first.
const MOST_SHOWN: usize = 20;

/// Of a longer line the report prints the start.
const LONGEST_SHOWN: usize = 2000;

/// A difference is shrunk no longer than so many runs may take.
const SHRINK_RUNS: u32 = 1;

/// After so many runs that ended before their last list, the lists that are
/// left count as failed.
const BROKEN: u64 = 5;

pub fn main() {
    let (count, seed): (u64, u64) = (replay::argument(1, USAGE), replay::argument(2, USAGE));
    let program: String = replay::argument(3, USAGE);
    let kind = env::args().nth(4).unwrap_or("call-list".into());
    let kind = kinds::by_name(&kind).filter(|_| count > 0);
    let Some(kind) = kind else {
        eprintln!("usage: {USAGE}, COUNT 1 or more");
        process::exit(2)
    };
    let seconds = match env::args().nth(5) {
        Some(_) => replay::argument(5, USAGE),
        None => SECONDS,
    };
    let mut compare = Compare {
        kind,
        program,
        time: Duration::from_secs(seconds),
        passed: 0,
        failed: 0,
        broken: 0,
    };
    let limits = (compare.kind.limits)();
    if !limits.is_empty() {
        compare.batch(&[List::of("the limits".into(), limits)], true);
    }
    let long = count - count / LONG_RUN;
    let mut start = 0;
    for run in 0.. {
        let end = match start < long {
            true => long.min(start + BATCH),
            false => count,
        };
        let lists = (start..end).map(|index| {
            let lines = (compare.kind.list)(seed, index, index == start);
            List::of(format!("list {index} of seed {seed}"), lines)
        });
        compare.batch(&lists.collect::<Vec<_>>(), run % 2 == 0);
        start = end;
        if start == count {
            break;
        }
    }
    println!("{} passed, {} failed", compare.passed, compare.failed);
    if compare.failed > 0 {
        process::exit(1);
    }
}

struct List {
    name: String,
    lines: Vec<Line>,
}

impl List {
    fn of(name: String, lines: Vec<Line>) -> Self {
        Self { name, lines }
    }
}

fn joined(lists: &[List]) -> Vec<Line> {
    let lines = lists.iter().flat_map(|list| &list.lines);
    lines.cloned().collect()
}

struct Compare {
    kind: Kind,
    program: String,
    /// The longest time of a run.
    time: Duration,
    passed: u64,
    failed: u64,
    broken: u64,
}

impl Compare {
    /// Runs lists through one process; the last line may lack its newline.
    fn batch(&mut self, mut lists: &[List], newline: bool) {
        while !lists.is_empty() {
            if self.broken >= BROKEN {
                self.failed += lists.len() as u64;
                return;
            }
            let expected = lists.iter().map(|list| self.expected(&list.lines));
            let expected = expected.collect::<Option<Vec<_>>>();
            let expected = expected.expect("lists are covered");
            let output = self.run(&joined(lists), newline, room(expected.iter().flatten()));
            let mut rest = output.answers.as_slice();
            let mut done = 0;
            for answers in &expected {
                // Without an answer for each line, the next list starts anew.
                let whole = rest.len() >= answers.len();
                let last = done + 1 == lists.len();
                let (these, others) = rest.split_at(answers.len().min(rest.len()));
                rest = others;
                done += 1;
                let ended_well = rest.is_empty() && output.fault.is_none();
                if difference(answers, these).is_none() && (!last || ended_well) {
                    self.passed += 1;
                    continue;
                }
                self.failed += 1;
                if self.failed == 1 {
                    self.report(&lists[..done], newline, &output.fault);
                }
                if !whole {
                    self.broken += 1;
                    break;
                }
            }
            if let Some(Fault::TooSlow(_) | Fault::TooMuch) = output.fault {
                self.broken = BROKEN;
            }
            lists = &lists[done..];
        }
    }

    /// The Rust's answers, if demand 2 covers them.
    fn expected(&self, list: &[Line]) -> Option<Vec<String>> {
        answers((self.kind.fresh)().as_mut(), list)
    }

    fn differs(&self, list: &[Line], newline: bool) -> bool {
        let Some(answers) = self.expected(list) else {
            return false;
        };
        let output = self.run(list, newline, room(&answers));
        output.fault.is_some() || difference(&answers, &output.answers).is_some()
    }

    /// Prints the last list, or all of them where it alone doesn't differ,
    /// without the lines that the difference does not need.
    fn report(&self, lists: &[List], newline: bool, fault: &Option<Fault>) {
        let last = lists.last().expect("a list that failed");
        println!("the first list that failed: {}", last.name);
        let mut list = last.lines.clone();
        if !self.differs(&list, newline) {
            list = joined(lists);
        }
        if !self.differs(&list, newline) {
            println!("a difference that a second run of the same lines doesn't show");
            match fault {
                Some(fault) => println!("{fault}"),
                None => println!("the program ended well"),
            }
            return;
        }
        let end = Instant::now() + self.time * SHRINK_RUNS;
        let mut part = list.len().div_ceil(2);
        while part > 0 {
            let mut place = 0;
            let before = list.len();
            while place < list.len() && Instant::now() < end {
                let mut less = list.clone();
                less.drain(place..list.len().min(place + part));
                if self.differs(&less, newline) {
                    list = less;
                } else {
                    place += part;
                }
            }
            if part == 1 && list.len() < before {
                continue;
            }
            part /= 2;
        }
        self.print(&list, newline);
    }

    fn print(&self, list: &[Line], newline: bool) {
        let expected = self.expected(list).unwrap_or_default();
        let output = self.run(list, newline, room(&expected));
        println!(
            "first difference, {} lines, the Rust's answer after each:",
            list.len()
        );
        for (place, (line, rust)) in list.iter().zip(&expected).enumerate() {
            println!("{}", shown(line));
            print_answer("", rust.as_bytes());
            match output.answers.get(place) {
                Some(answer) if same(rust, answer) => {}
                Some(answer) => print_answer("but the program: ", answer),
                None => println!("    but the program: nothing"),
            }
        }
        for answer in output.answers.iter().skip(list.len()).take(MOST_SHOWN) {
            print_answer("and the program: ", answer);
        }
        if !newline {
            println!("the last line has no newline");
        }
        if let Some(fault) = output.fault {
            println!("{fault}");
        }
    }

    fn run(&self, lines: &[Line], newline: bool, room: usize) -> Output {
        let mut input = lines.join(&b'\n');
        // Without a newline an empty last line would be none.
        if lines.last().is_some_and(|line| newline || line.is_empty()) {
            input.push(b'\n');
        }
        let spawned = Command::new(&self.program)
            .stdin(Stdio::piped())
            .stdout(Stdio::piped())
            .spawn();
        let child = spawned.unwrap_or_else(|error| {
            eprintln!("{}: {error}", self.program);
            process::exit(2)
        });
        let (printed, fault) = talk(child, input, self.time, room);
        let unfinished = printed.last().is_some_and(|byte| *byte != b'\n');
        let mut printed: Vec<_> = printed.split(|byte| *byte == b'\n').collect();
        if !unfinished {
            printed.pop();
        }
        let answers = printed.chunks(self.kind.lines);
        Output {
            answers: answers.map(|lines| lines.join(&b'\n')).collect(),
            fault: fault.or(unfinished.then_some(Fault::Unfinished)),
        }
    }
}

/// The second line of an answer stands below its first.
fn print_answer(who: &str, answer: &[u8]) {
    for line in answer.split(|byte| *byte == b'\n') {
        println!("    {who}{}", shown(line));
    }
}

fn shown(line: &[u8]) -> String {
    let start = &line[..line.len().min(LONGEST_SHOWN)];
    let more = match line.len() - start.len() {
        0 => String::new(),
        more => format!(" and {more} bytes more"),
    };
    format!("{}{more}", start.escape_ascii())
}

/// The place of the first answer that is missing, too many or another.
fn difference(expected: &[String], answers: &[Vec<u8>]) -> Option<usize> {
    let most = expected.len().max(answers.len());
    (0..most).find(|place| match (expected.get(*place), answers.get(*place)) {
        (Some(rust), Some(answer)) => !same(rust, answer),
        _ => true,
    })
}

/// The most bytes that a program may print.
fn room<'a>(expected: impl IntoIterator<Item = &'a String>) -> usize {
    let lengths = expected.into_iter().map(|answer| answer.len() + 1);
    lengths.sum::<usize>() + MORE_PRINTED
}

/// The one place where an answer is compared with the Rust's.
fn same(rust: &str, answer: &[u8]) -> bool {
    rust.as_bytes() == answer
}

struct Output {
    /// The printed lines of each answer, a newline between them.
    answers: Vec<Vec<u8>>,
    /// How the program ended, unless by itself and without an error.
    fault: Option<Fault>,
}

enum Fault {
    TooSlow(Duration),
    TooMuch,
    Unfinished,
    Status(ExitStatus),
    Unknown(io::Error),
}

impl core::fmt::Display for Fault {
    fn fmt(&self, f: &mut core::fmt::Formatter) -> core::fmt::Result {
        match self {
            Self::TooSlow(time) => {
                write!(f, "the program didn't end within {} s", time.as_secs())
            }
            Self::TooMuch => write!(f, "the program printed too much"),
            Self::Unfinished => write!(f, "the program's last line has no newline"),
            Self::Status(status) => write!(f, "the program ended with {status}"),
            Self::Unknown(error) => write!(f, "the program's end is unknown: {error}"),
        }
    }
}

/// What the program prints, and its fault. It ends in time, whatever the
/// program does.
fn talk(mut child: Child, input: Vec<u8>, time: Duration, room: usize) -> (Vec<u8>, Option<Fault>) {
    let end = Instant::now() + time;
    let (mut stdin, mut stdout) = match (child.stdin.take(), child.stdout.take()) {
        (Some(stdin), Some(stdout)) => (stdin, stdout),
        _ => unreachable!("both are piped"),
    };
    // Neither thread is waited for: a program that reads nothing, or a child
    // of its that keeps its output open, may hold them up for good. A program
    // that stops reading shows in its answers.
    thread::spawn(move || drop(stdin.write_all(&input)));
    let (sender, parts) = mpsc::sync_channel(16);
    thread::spawn(move || {
        let mut part = vec![0; 1 << 16];
        while let Ok(length @ 1..) = stdout.read(&mut part) {
            if sender.send(part[..length].to_vec()).is_err() {
                return;
            }
        }
    });
    let mut output = Vec::new();
    let fault = loop {
        let left = end.saturating_duration_since(Instant::now());
        match parts.recv_timeout(left) {
            // A part is there even when no time is left.
            Ok(_) if left.is_zero() => break Some(Fault::TooSlow(time)),
            Ok(part) => output.extend(part),
            Err(mpsc::RecvTimeoutError::Timeout) => break Some(Fault::TooSlow(time)),
            // Its output is closed; it may live on.
            Err(mpsc::RecvTimeoutError::Disconnected) => {
                break match ended(&mut child, end) {
                    Ok(Some(status)) if status.success() => None,
                    Ok(Some(status)) => Some(Fault::Status(status)),
                    Ok(None) => Some(Fault::TooSlow(time)),
                    Err(error) => Some(Fault::Unknown(error)),
                };
            }
        }
        if output.len() > room {
            break Some(Fault::TooMuch);
        }
    };
    if fault.is_some() {
        // It may have ended.
        let _ = child.kill();
        let _ = child.wait();
    }
    (output, fault)
}

/// How the program ended, unless it lives on at the time given.
fn ended(child: &mut Child, end: Instant) -> io::Result<Option<ExitStatus>> {
    let mut pause = Duration::from_micros(20);
    loop {
        let status = child.try_wait()?;
        if status.is_some() || Instant::now() >= end {
            return Ok(status);
        }
        thread::sleep(pause);
        pause = (pause * 2).min(Duration::from_millis(10));
    }
}
