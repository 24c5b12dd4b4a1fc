//! The program `report_night`, called as a user calls it.
mod project;

use project::{said, started, Said};
use std::path::Path;

const LISTED: &str = include_str!("sample_night_listed.txt");
const SAMPLE: &str = include_str!("sample_night.txt");

fn report(words: &[&str]) -> Said {
    let mut command = started(Path::new(env!("CARGO_BIN_EXE_report_night")));
    command.args(words);
    said(command)
}

#[test]
fn it_plays_the_sample_night_with_listings_and_totals() {
    let night = report(&[]);
    for (i, (line, stored)) in night.all.lines().zip(LISTED.lines()).enumerate() {
        assert_eq!(line, stored, "line {}", i + 1);
    }
    assert_eq!((night.status, night.all.as_str()), (Some(0), LISTED));
}

/// One line means more in the report, since a listing is below.
#[test]
fn what_play_prints_stands_in_the_report() {
    let mut report = LISTED.lines();
    for line in SAMPLE.lines() {
        let line = line.trim_end_matches("after header and destroy");
        let found = report.any(|other| other.starts_with(line));
        assert!(found, "{}", line);
    }
}

#[test]
fn bad_use_shows_how_it_is_called() {
    let help = report(&["--help"]);
    assert_eq!(help.status, Some(0));
    assert!(help.all.starts_with("usage: report_night\n"));
    for words in [&["night.desk"][..], &["--loud"], &["-h", "-h"]] {
        let bad = report(words);
        assert_eq!((bad.status, &bad.all), (Some(2), &help.all), "{:?}", words);
    }
}
