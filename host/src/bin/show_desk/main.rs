//! Shows a saved desk in words: its form, registers, memory, resources with all their names, and tokens. What is wrong with a bad file is told
//! by its place and its field, with exit code 1.
#![forbid(unsafe_code)]

use std::ffi::{OsStr, OsString};
use std::fs::File;
use std::io::{self, ErrorKind, Read, Write};
use std::path::Path;
use std::process::exit;
use zelezmut::{SavedDesk, LONGEST_SAVED_DESK};

const USAGE: &str = include_str!("usage.txt");

const FAILED: i32 = 1;
const BAD_USE: i32 = 2;

/// A file's bytes, and one more of a file that is too long to be a saved desk: what is wrong with it stands before that.
fn read_file(name: &OsStr) -> io::Result<Vec<u8>> {
    let mut bytes = Vec::new();
    let most = LONGEST_SAVED_DESK as u64 + 1;
    File::open(name)?.take(most).read_to_end(&mut bytes)?;
    Ok(bytes)
}

/// Shows the file, or says on standard error why it cannot.
fn show(name: &OsStr, out: &mut impl Write) -> io::Result<i32> {
    let shown = match read_file(name) {
        Ok(bytes) => SavedDesk::read(&bytes).map_err(|bad| format!("no saved desk: {}", bad)),
        Err(error) => Err(format!("cannot be read: {}", error)),
    };
    match shown {
        Ok(saved) => {
            out.write_all(saved.to_string().as_bytes())?;
            Ok(0)
        }
        Err(wrong) => {
            eprintln!("show_desk: {}: {}", Path::new(name).display(), wrong);
            Ok(FAILED)
        }
    }
}

/// What the words ask for; behind `--` a word is a file, whatever it begins with.
fn act(words: &[OsString], out: &mut impl Write) -> io::Result<i32> {
    match words {
        [word] if word == "-h" || word == "--help" => {
            out.write_all(USAGE.as_bytes())?;
            Ok(0)
        }
        [dashes, file] if dashes == "--" => show(file, out),
        [file] if !file.to_string_lossy().starts_with('-') => show(file, out),
        _ => {
            eprint!("{}", USAGE);
            Ok(BAD_USE)
        }
    }
}

fn main() {
    let words: Vec<OsString> = std::env::args_os().skip(1).collect();
    let mut out = io::stdout();
    exit(match act(&words, &mut out) {
        Ok(status) => status,
        // Whoever reads us has seen enough.
        Err(error) if error.kind() == ErrorKind::BrokenPipe => 0,
        Err(error) => {
            eprintln!("show_desk: the desk cannot be written: {}", error);
            FAILED
        }
    });
}
