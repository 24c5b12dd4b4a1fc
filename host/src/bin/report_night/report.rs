//! The sample night, played as `play` plays it, with a listing below each line in which the guest reads which packet was refused, and what
//! the night comes to in numbers.
use crate::sample::{operations, Scene, LINE};
use crate::tally::Tally;
use std::io::{self, Write};
use zelezmut::script::{Operation, Outcome, Player, Submission, Watch};
use zelezmut::{dump, registers, Month, Place};

/// What the line above the first listing means where there is none.
const UNLISTED: &str = "detail: the packet 40 bytes into the stream, after header and destroy";
/// And here.
const LISTED: &str =
    "detail: the packet 40 bytes into the stream, 28 in hex; the stream's listing has an arrow there";

const DETAIL: Operation = Operation::Read {
    offset: registers::ERROR_DETAIL,
};

/// The listing of a submission that was refused at a packet, with an arrow at that packet.
fn listing_of(submission: &Submission) -> Option<String> {
    let stream = submission.stream.as_ref()?;
    match submission.outcome {
        Outcome::Refused(error) => match error.place {
            Place::Packet(_) => Some(dump::with_arrow(stream, false, error.place)),
            _ => None,
        },
        _ => None,
    }
}

/// Plays scenes, counts what finishes in them, and prints them. Where the guest reads which packet was refused, the listing of that
/// submission is below.
pub fn play(
    scenes: &[Scene],
    player: &mut Player,
    tally: &mut Tally,
    out: &mut impl Write,
) -> io::Result<()> {
    let mut watch = Watch::new(player.clone());
    let mut refused = None;
    let mut operations = operations(scenes).into_iter();
    for scene in scenes {
        writeln!(out, "\n{}", scene.heading)?;
        for ((_, meaning), operation) in scene.steps.iter().zip(&mut operations) {
            for submission in watch.play(&operation) {
                refused = listing_of(&submission);
            }
            tally
                .watch(player, &operation)
                .map_err(|full| io::Error::new(io::ErrorKind::Other, full))?;
            print_line(&player.play(&operation), meaning, out)?;
            if operation == DETAIL {
                print_listing(&refused.take().unwrap_or_default(), out)?;
            }
        }
    }
    Ok(())
}

/// Prints a line of the transcript and what it means.
fn print_line(line: &str, meaning: &str, out: &mut impl Write) -> io::Result<()> {
    let meaning = match meaning {
        UNLISTED => LISTED,
        _ => meaning,
    };
    if line.len() < LINE {
        writeln!(out, "  {:LINE$}{}", line, meaning)
    } else {
        writeln!(out, "  {}\n  {:LINE$}{}", line, "", meaning)
    }
}

/// Prints a listing where meanings are.
fn print_listing(listing: &str, out: &mut impl Write) -> io::Result<()> {
    for line in listing.lines() {
        writeln!(out, "  {:LINE$}{}", "", line)?;
    }
    Ok(())
}

/// Prints what the night ends with.
pub fn print_totals(month: &Month, out: &mut impl Write) -> io::Result<()> {
    writeln!(
        out,
        "\nThe night in numbers: every submission counted once, as it finished. All other errors have 0."
    )?;
    let text = month.to_string();
    let counted = |line: &&str| !(line.starts_with("refused_") && line.ends_with("=0"));
    for line in text.lines().filter(counted) {
        writeln!(out, "  {}", line)?;
    }
    Ok(())
}
