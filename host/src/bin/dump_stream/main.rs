//! Lists a raw command stream for people: of a file, of standard input, or of every submission of a desk script. The lines are the proved
//! front's; what is wrong is told on standard error, with exit code 1.
#![forbid(unsafe_code)]

mod desk;
mod words;

use std::ffi::{OsStr, OsString};
use std::fs::File;
use std::io::{self, ErrorKind, Read, Write};
use std::path::Path;
use std::process::exit;
use words::{Asked, Source};
use zelezmut::dump::{self, Line, What};
use zelezmut::script::{self, LONGEST_SCRIPT};

const USAGE: &str = include_str!("usage.txt");

const FAILED: i32 = 1;
const BAD_USE: i32 = 2;

/// Standard error may be closed or full: that is no reason to fail in another way.
fn tell(words: &str) {
    let _ = writeln!(io::stderr(), "dump_stream: {}", words);
}

/// What messages call a source.
fn name_of(source: &Source) -> String {
    match source {
        Source::StandardInput => "standard input".to_string(),
        Source::File(name) => Path::new(name).display().to_string(),
    }
}

/// The bytes of a source, as far as they are asked for.
fn read(source: &Source, most: u64) -> io::Result<Vec<u8>> {
    let mut bytes = Vec::new();
    match source {
        Source::StandardInput => io::stdin().lock().take(most).read_to_end(&mut bytes)?,
        Source::File(name) => File::open(name)?.take(most).read_to_end(&mut bytes)?,
    };
    Ok(bytes)
}

/// Why a listing ends before its stream does, in words.
fn wrong_with(last: &Line) -> Option<String> {
    let at = last.offset();
    match last.what() {
        What::Error(error) => Some(format!(
            "error {} at byte {}: {}",
            error.number(),
            at,
            error
        )),
        What::Stopped { opcode, .. } => Some(format!(
            "stopped at byte {}: opcode {} is unknown",
            at, opcode
        )),
        What::Packet { .. } | What::Unknown { .. } => None,
    }
}

/// Lists a stream; what is wrong with it comes back in words.
fn list(stream: &[u8], strict: bool, out: &mut impl Write) -> io::Result<Option<String>> {
    let mut last = None;
    for line in dump::lines(stream, strict) {
        writeln!(out, "{}", line)?;
        last = Some(line);
    }
    Ok(last.as_ref().and_then(wrong_with))
}

/// Lists the streams of a script; what is wrong with it comes back in words.
fn list_desk(bytes: &[u8], strict: bool, out: &mut impl Write) -> io::Result<Option<String>> {
    let script = script::decode(bytes);
    desk::list(&script, strict, out)?;
    let played = script.operations.len();
    Ok(script
        .fault
        .map(|fault| format!("{} (operations played: {})", fault, played)))
}

/// Lists what is asked for: the exit code.
fn act(asked: &Asked, out: &mut impl Write) -> io::Result<i32> {
    let most = match asked.desk {
        // One more of a file that is too long to be a script.
        true => LONGEST_SCRIPT as u64 + 1,
        false => u64::MAX,
    };
    let wrong = match read(&asked.source, most) {
        Ok(bytes) if asked.desk => list_desk(&bytes, asked.strict, out)?,
        Ok(bytes) => list(&bytes, asked.strict, out)?,
        Err(error) => Some(format!("cannot be read: {}", error)),
    };
    out.flush()?;
    Ok(match wrong {
        Some(wrong) => {
            tell(&format!("{}: {}", name_of(&asked.source), wrong));
            FAILED
        }
        None => 0,
    })
}

fn main() {
    let words: Vec<OsString> = std::env::args_os().skip(1).collect();
    let words: Vec<&OsStr> = words.iter().map(OsString::as_os_str).collect();
    let stdout = io::stdout();
    let mut out = io::BufWriter::new(stdout.lock());
    let acted = match Asked::of(&words) {
        Ok(Some(asked)) => act(&asked, &mut out),
        Ok(None) => out
            .write_all(USAGE.as_bytes())
            .and_then(|()| out.flush())
            .map(|()| 0),
        Err(wrong) => {
            tell(&format!("{}\n\n{}", wrong, USAGE.trim_end()));
            Ok(BAD_USE)
        }
    };
    exit(match acted {
        Ok(status) => status,
        // Whoever reads us has seen enough.
        Err(error) if error.kind() == ErrorKind::BrokenPipe => 0,
        Err(error) => {
            tell(&format!("the listing cannot be written: {}", error));
            FAILED
        }
    });
}
