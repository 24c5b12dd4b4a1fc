//! The example that saves a desk in one program and plays on in another, called as a user calls it.
mod project;

use project::{said, started, Folder};
use std::fs;
use std::path::{Path, PathBuf};

const SAMPLE: &str = include_str!("sample_night.txt");

/// Cargo builds examples before it runs tests, and puts them beside the folder of these.
fn program() -> PathBuf {
    let here = std::env::current_exe().expect("a path to this program");
    let folder = here.parent().and_then(Path::parent).expect("two folders");
    let program = folder.join("examples").join("saved_desk");
    assert!(program.is_file(), "`cargo test` builds {:?}", program);
    program
}

fn play(words: &[&str]) -> project::Said {
    let mut command = started(&program());
    command.args(words);
    said(command)
}

#[test]
fn the_night_cut_in_two_is_the_night() {
    let _alone = Folder::new("saved-desk-twice");
    let night = play(&[]);
    for (i, (line, stored)) in night.all.lines().zip(SAMPLE.lines()).enumerate() {
        assert_eq!(line, stored, "line {}", i + 1);
    }
    assert_eq!((night.status, night.all.as_str()), (Some(0), SAMPLE));
}

#[test]
fn desk_and_memory_go_from_one_program_to_the_other() {
    let folder = Folder::new("saved-desk");
    let file = folder.path("desk");
    let name = file.to_str().expect("a path of text");
    let [first, second] = ["save", "play"].map(|word| play(&[word, name]));
    assert!(first.good() && second.good());
    assert_eq!(first.all + &second.all, SAMPLE);
    let mut saved = fs::read(&file).unwrap();
    assert_eq!((saved[0], saved.len()), (2, 272));
    assert_eq!(fs::read(folder.path("desk.memory")).unwrap().len(), 16_384);
    // It is the file that says what is played on with: in this one the device is disabled.
    saved[36] = 0;
    fs::write(&file, saved).unwrap();
    let disabled = play(&["play", name]);
    assert!(disabled.good());
    assert!(disabled.all.contains("  run 0 0 idle  "));
}

#[test]
fn files_that_do_not_fit_are_told() {
    let folder = Folder::new("saved-desk-bad");
    let file = folder.path("desk");
    let name = file.to_str().expect("a path of text");
    assert!(play(&["save", name]).good());
    let saved = fs::read(&file).unwrap();
    fs::write(&file, &saved[..200]).unwrap();
    let short = play(&["play", name]);
    assert_eq!(short.status, Some(1));
    let words = "saved_desk: a field is missing at byte 200, the kind of resource 2\n";
    assert_eq!(short.all, words);
    fs::write(&file, &saved).unwrap();
    fs::write(folder.path("desk.memory"), [0; 100]).unwrap();
    let other = play(&["play", name]);
    assert_eq!(other.status, Some(1));
    assert!(other.all.contains("another length"), "{}", other.all);
    assert_eq!(play(&["sing", name]).status, Some(1));
}
