//! Plays desk scripts through the proved front and prints their transcripts; with no script, a sample night that explains itself.
#![forbid(unsafe_code)]

mod sample;

use std::ffi::{OsStr, OsString};
use std::fs::File;
use std::io::{self, ErrorKind, Read, Write};
use std::path::Path;
use std::process::exit;
use zelezmut::script::{self, Player};

/// A file of its own, since the script ./play prints it too, before this program is built.
const USAGE: &str = include_str!("usage.txt");

const FAILED: i32 = 1;
const BAD_USE: i32 = 2;

/// A script's bytes, and one more of a file that is too long to be one.
fn read_script(name: &OsStr) -> io::Result<Vec<u8>> {
    let mut bytes = Vec::new();
    let most = script::LONGEST_SCRIPT as u64 + 1;
    File::open(name)?.take(most).read_to_end(&mut bytes)?;
    Ok(bytes)
}

/// Plays one file; what is wrong with it comes back in words.
fn play_file(name: &OsStr, out: &mut impl Write) -> io::Result<Option<String>> {
    let bytes = match read_script(name) {
        Ok(bytes) => bytes,
        Err(error) => return Ok(Some(format!("cannot be read: {}", error))),
    };
    let script = script::decode(&bytes);
    writeln!(out, "script {}", Path::new(name).display())?;
    out.write_all(script::transcript(&script).as_bytes())?;
    out.flush()?;
    Ok(script
        .fault
        .map(|fault| format!("{} (operations played: {})", fault, script.operations.len())))
}

/// Plays every file, also after one that went wrong.
fn play_files(names: &[OsString], out: &mut impl Write) -> io::Result<i32> {
    let mut status = 0;
    for name in names {
        if name.is_empty() {
            eprintln!("play: a file's name is empty");
            status = FAILED;
        } else if let Some(wrong) = play_file(name, out)? {
            eprintln!("play: {}: {}", Path::new(name).display(), wrong);
            status = FAILED;
        }
    }
    Ok(status)
}

/// Both halves of the sample night, one after the other.
fn play_sample(out: &mut impl Write) -> io::Result<()> {
    sample::print_title(out)?;
    let mut player = Player::new(sample::MEMORY);
    let refused = |refused| io::Error::new(ErrorKind::Other, refused);
    for half in sample::halves().map_err(refused)? {
        sample::play(&half, &mut player, out)?;
    }
    Ok(())
}

/// A word that begins with a dash is an option; behind `--` all words are files.
fn play(words: &[OsString], out: &mut impl Write) -> io::Result<i32> {
    let dashes = words.iter().position(|word| word == "--");
    let (before, behind) = match dashes {
        Some(at) => (&words[..at], &words[at + 1..]),
        None => (words, &[][..]),
    };
    let option = before
        .iter()
        .find(|word| word.to_string_lossy().starts_with('-'));
    match option.map(|word| word.to_string_lossy()) {
        Some(word) if word == "-h" || word == "--help" => {
            out.write_all(USAGE.as_bytes())?;
            Ok(0)
        }
        Some(word) => {
            eprint!("play: there is no option {}\n\n{}", word, USAGE);
            Ok(BAD_USE)
        }
        None if before.is_empty() && behind.is_empty() => {
            play_sample(out)?;
            Ok(0)
        }
        None => play_files(&[before, behind].concat(), out),
    }
}

fn main() {
    let words: Vec<OsString> = std::env::args_os().skip(1).collect();
    let stdout = io::stdout();
    let mut out = io::BufWriter::new(stdout.lock());
    let played = play(&words, &mut out).and_then(|status| out.flush().map(|()| status));
    exit(match played {
        Ok(status) => status,
        // Whoever reads us has seen enough.
        Err(error) if error.kind() == ErrorKind::BrokenPipe => 0,
        Err(error) => {
            eprintln!("play: the transcript cannot be written: {}", error);
            FAILED
        }
    });
}
