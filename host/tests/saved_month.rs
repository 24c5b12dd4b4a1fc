//! The example that saves a desk and a month's totals in one program and goes on with both in another, called as a user calls it.
mod project;

use project::{said, started, Folder};
use std::fs;
use std::path::{Path, PathBuf};

const LISTED: &str = include_str!("sample_night_listed.txt");

/// Cargo builds examples before it runs tests, and puts them beside the folder of these.
fn program() -> PathBuf {
    let here = std::env::current_exe().expect("a path to this program");
    let folder = here.parent().and_then(Path::parent).expect("two folders");
    let program = folder.join("examples").join("saved_month");
    assert!(program.is_file(), "`cargo test` builds {:?}", program);
    program
}

fn play(words: &[&str]) -> project::Said {
    let mut command = started(&program());
    command.args(words);
    said(command)
}

#[test]
fn the_night_cut_in_two_is_the_report() {
    let _alone = Folder::new("saved-month-twice");
    let night = play(&[]);
    for (i, (line, stored)) in night.all.lines().zip(LISTED.lines()).enumerate() {
        assert_eq!(line, stored, "line {}", i + 1);
    }
    assert_eq!((night.status, night.all.as_str()), (Some(0), LISTED));
}

#[test]
fn desk_memory_and_month_go_from_one_program_to_the_other() {
    let folder = Folder::new("saved-month");
    let file = folder.path("desk");
    let name = file.to_str().expect("a path of text");
    let [first, second] = ["save", "play"].map(|word| play(&[word, name]));
    assert!(first.good() && second.good());
    assert_eq!(first.all + &second.all, LISTED);
    let saved = fs::read(&file).unwrap();
    assert_eq!((saved[0], saved.len()), (2, 272));
    assert_eq!(fs::read(folder.path("desk.memory")).unwrap().len(), 16_384);
    assert_eq!(fs::read(folder.path("desk.month")).unwrap().len(), 208);
}

#[test]
fn totals_that_do_not_fit_are_told() {
    let folder = Folder::new("saved-month-bad");
    let file = folder.path("desk");
    let name = file.to_str().expect("a path of text");
    assert!(play(&["save", name]).good());
    fs::write(folder.path("desk.month"), [0; 207]).unwrap();
    let totals = play(&["play", name]);
    assert_eq!(totals.status, Some(1));
    assert_eq!(totals.all, "saved_month: the totals are not 26 words\n");
    assert_eq!(play(&["sing", name]).status, Some(1));
}
