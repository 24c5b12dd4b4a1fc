//! Says what differs between two command streams, for people: the names of packets and fields beside each offset that differs.
#![forbid(unsafe_code)]

mod colour;
mod report;

use colour::When;
use std::ffi::{OsStr, OsString};
use std::fs::File;
use std::io::{self, BufWriter, ErrorKind, Read, Write};
use std::path::Path;
use std::process::exit;
use zelezmut::diff::{Difference, Refused, Which};

const USAGE: &str = include_str!("usage.txt");

const EQUAL: i32 = 0;
const DIFFER: i32 = 1;
const TROUBLE: i32 = 2;

/// No stream has more bytes: its size is a number of 32 bits.
const MOST: u64 = u32::MAX as u64;

/// What a command line asks for.
enum Wish {
    Help,
    Compare { files: [OsString; 2], when: When },
}

/// The wish of these words; behind `--` a word is a file, whatever it begins with.
fn wish(words: &[OsString]) -> Option<Wish> {
    let (mut when, mut files, mut all_files) = (When::Auto, Vec::new(), false);
    for word in words {
        let text = word.to_string_lossy();
        if all_files || text == "-" || !text.starts_with('-') {
            files.push(word.clone());
        } else if text == "--" {
            all_files = true;
        } else if text == "-h" || text == "--help" {
            return Some(Wish::Help);
        } else {
            when = text.strip_prefix("--colour=").and_then(When::named)?;
        }
    }
    let files = <[OsString; 2]>::try_from(files).ok()?;
    let twice = files.iter().all(|name| name == "-");
    Some(Wish::Compare { files, when }).filter(|_| !twice)
}

fn read(name: &OsStr) -> io::Result<Vec<u8>> {
    let mut bytes = Vec::new();
    if name == "-" {
        io::stdin().lock().take(MOST).read_to_end(&mut bytes)?;
    } else {
        File::open(name)?.take(MOST).read_to_end(&mut bytes)?;
    }
    Ok(bytes)
}

/// Says on standard error what went wrong. That may be closed, too.
fn complain(words: &str) -> i32 {
    let _ = io::stderr().write_all(words.as_bytes());
    TROUBLE
}

/// Writes what `write` writes; nobody may be there any more to read it.
fn print(write: impl FnOnce(&mut BufWriter<io::StdoutLock<'_>>) -> io::Result<()>) -> Option<i32> {
    let stdout = io::stdout();
    let mut out = BufWriter::new(stdout.lock());
    match write(&mut out).and_then(|()| out.flush()) {
        Err(error) if error.kind() != ErrorKind::BrokenPipe => Some(complain(&format!(
            "diff_streams: the report cannot be written: {}\n",
            error
        ))),
        _ => None,
    }
}

/// Reads both files and prints the report; the exit code.
fn compare(files: &[OsString; 2], when: When) -> i32 {
    let mut streams = [Vec::new(), Vec::new()];
    for (stream, name) in streams.iter_mut().zip(files) {
        *stream = match read(name) {
            Ok(bytes) => bytes,
            Err(error) => return complain(&about(name, &format!("cannot be read: {}", error))),
        };
    }
    let [first, second] = &streams;
    match Difference::of(first, second) {
        Ok(difference) => {
            let coloured = when.is_now();
            let failed = print(|out| report::write_report(out, &difference, coloured));
            let differ = difference.parts().is_some();
            failed.unwrap_or(if differ { DIFFER } else { EQUAL })
        }
        Err(Refused { error, stream }) => {
            let name = match stream {
                Which::First => &files[0],
                Which::Second => &files[1],
            };
            let refused = format!("refused={} stream={}", error.number(), stream.number());
            complain(&about(name, &format!("{}: {}", refused, error)))
        }
    }
}

fn about(name: &OsStr, words: &str) -> String {
    format!("diff_streams: {}: {}\n", Path::new(name).display(), words)
}

fn main() {
    let words: Vec<OsString> = std::env::args_os().skip(1).collect();
    exit(match wish(&words) {
        Some(Wish::Compare { files, when }) => compare(&files, when),
        Some(Wish::Help) => print(|out| out.write_all(USAGE.as_bytes())).unwrap_or(EQUAL),
        None => complain(USAGE),
    });
}
