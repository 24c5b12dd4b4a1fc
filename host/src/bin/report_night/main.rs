//! The sample night of `play` as a report: its transcript, the listings of streams that were refused at a packet, and the night in numbers.
#![forbid(unsafe_code)]

mod report;
// Here the night is played as a report, not as `play` does it.
#[allow(dead_code)]
#[path = "../play/sample.rs"]
mod sample;
mod tally;

use std::ffi::OsString;
use std::io::{self, ErrorKind, Write};
use std::process::exit;
use tally::Tally;
use zelezmut::script::Player;

const USAGE: &str = include_str!("usage.txt");

const FAILED: i32 = 1;
const BAD_USE: i32 = 2;

/// Both halves of the night, one after the other, and its totals.
fn report(out: &mut impl Write) -> io::Result<()> {
    sample::print_title(out)?;
    let mut player = Player::new(sample::MEMORY);
    let refused = |refused| io::Error::new(ErrorKind::Other, refused);
    let mut tally = Tally::default();
    for half in sample::halves().map_err(refused)? {
        report::play(&half, &mut player, &mut tally, out)?;
    }
    report::print_totals(tally.month(), out)
}

/// What the words ask for: the exit code.
fn act(words: &[OsString], out: &mut impl Write) -> io::Result<i32> {
    match words {
        [] => {
            report(out)?;
            Ok(0)
        }
        [word] if word == "-h" || word == "--help" => {
            out.write_all(USAGE.as_bytes())?;
            Ok(0)
        }
        _ => {
            eprint!("{}", USAGE);
            Ok(BAD_USE)
        }
    }
}

fn main() {
    let words: Vec<OsString> = std::env::args_os().skip(1).collect();
    let stdout = io::stdout();
    let mut out = io::BufWriter::new(stdout.lock());
    let acted = act(&words, &mut out).and_then(|status| out.flush().map(|()| status));
    exit(match acted {
        Ok(status) => status,
        // Whoever reads us has seen enough.
        Err(error) if error.kind() == ErrorKind::BrokenPipe => 0,
        Err(error) => {
            eprintln!("report_night: the report cannot be written: {}", error);
            FAILED
        }
    });
}
