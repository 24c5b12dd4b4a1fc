//! The streams of a night: a head line for each submission, and its listing below.
use std::io::{self, Write};
use zelezmut::guest::Part;
use zelezmut::script::{self, Outcome, Script, Submission};
use zelezmut::{dump, Place};

/// Lists every submission of a script. They count from 1.
pub fn list(script: &Script, strict: bool, out: &mut impl Write) -> io::Result<()> {
    for (submission, number) in script::submissions(script).zip(1_u64..) {
        writeln!(out, "submission {}: {}", number, head(&submission))?;
        out.write_all(listing(&submission, strict).as_bytes())?;
    }
    Ok(())
}

/// What became of a submission. An error's own line has the fence.
fn head(submission: &Submission) -> String {
    let became = match submission.outcome {
        Outcome::Refused(error) => return error.to_string(),
        Outcome::Accepted => "accepted",
        Outcome::Dropped => "dropped by a reset or a load",
        Outcome::InWork => "in work",
    };
    format!("{}, fence {}", became, submission.fence)
}

/// The listing, with an arrow at the packet that was refused.
fn listing(submission: &Submission, strict: bool) -> String {
    let place = match submission.outcome {
        Outcome::Refused(error) => error.place,
        _ => Place::Nowhere,
    };
    match &submission.stream {
        _ if submission.commands == Part::default() => "   no stream\n".to_string(),
        None => "   its stream is not within memory\n".to_string(),
        Some(stream) => dump::with_arrow(stream, strict, place),
    }
}
