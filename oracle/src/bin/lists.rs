use std::{fs, path::Path, process};

use oracle::{lists, replay};

const USAGE: &str = "lists SEED COUNT DIR|-";

/// Writes call lists, each to a file of its own, or all to standard output.
fn main() {
    let (seed, count) = (replay::argument(1, USAGE), replay::argument(2, USAGE));
    let target: String = replay::argument(3, USAGE);
    for index in 0..count {
        if target == "-" {
            replay::print(&lists::list(seed, index, index == 0));
            continue;
        }
        let mut text = lists::list(seed, index, true).join(&b'\n');
        text.push(b'\n');
        let file = Path::new(&target).join(format!("{index:06}"));
        let written = fs::create_dir_all(&target).and_then(|()| fs::write(&file, text));
        if let Err(error) = written {
            eprintln!("{}: {error}", file.display());
            process::exit(1);
        }
    }
}
