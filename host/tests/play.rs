//! The program `play`, called as a user calls it: transcripts on standard output, what is wrong on standard error.
use std::env;
use std::fs;
use std::path::PathBuf;
use std::process::Command;
use zelezmut::script::{encode, Operation};

const SAMPLE: &str = include_str!("sample_night.txt");

struct Said {
    status: Option<i32>,
    out: String,
    err: String,
}

/// Where these tests run under an emulator, so does the program.
fn program() -> Command {
    let path = env!("CARGO_BIN_EXE_play");
    match env::var_os("CARGO_TARGET_X86_64_UNKNOWN_LINUX_GNU_RUNNER") {
        Some(runner) => {
            let mut command = Command::new(runner);
            command.arg(path);
            command
        }
        None => Command::new(path),
    }
}

fn play(words: &[&str]) -> Said {
    let output = program().args(words).output().expect("play can be started");
    Said {
        status: output.status.code(),
        out: String::from_utf8(output.stdout).expect("text"),
        err: String::from_utf8(output.stderr).expect("text"),
    }
}

/// A file of these bytes, in a folder that cargo keeps for tests.
fn file(name: &str, bytes: &[u8]) -> String {
    let path = PathBuf::from(env!("CARGO_TARGET_TMPDIR")).join(name);
    fs::write(&path, bytes).expect("a file can be written");
    path.into_os_string().into_string().expect("a path of text")
}

#[test]
fn without_a_file_it_plays_the_sample_night() {
    let said = play(&[]);
    for (i, (line, stored)) in said.out.lines().zip(SAMPLE.lines()).enumerate() {
        assert_eq!(line, stored, "line {}", i + 1);
    }
    assert_eq!(said.out, SAMPLE);
    assert_eq!((said.status, said.err.as_str()), (Some(0), ""));
}

#[test]
fn each_file_has_its_name_and_its_transcript() {
    let read = file("read.desk", &encode(16, &[Operation::Read { offset: 4 }]));
    let empty = file("empty.desk", &encode(16, &[]));
    let said = play(&[&read, &empty, &read]);
    let once = format!("script {}\nread 0 65539\n", read);
    assert_eq!(said.out, format!("{}script {}\n{}", once, empty, once));
    assert_eq!((said.status, said.err.as_str()), (Some(0), ""));
}

#[test]
fn version_2_is_played_and_version_1_is_not() {
    let first = file("first.desk", b"DESK\x10\x00\x00\x00\x04\x01\x00");
    let second = file("second.desk", b"DSK2\x10\x00\x00\x00any.\x04\x01\x00");
    let said = play(&[&first, &second]);
    assert_eq!(
        said.out,
        format!(
            "script {}\nbad script\nscript {}\nrun 0 0 idle\n",
            first, second
        )
    );
    assert_eq!(said.status, Some(1));
    assert_eq!(
        said.err,
        format!(
            "play: {}: no desk script of version 2: it does not begin with \"DSK2\" (operations played: 0)\n",
            first
        )
    );
    let short = file("short_head.desk", b"DSK2\x10\x00\x00\x00any");
    let said = play(&[&short]);
    assert_eq!(said.out, format!("script {}\ntruncated\n", short));
    assert_eq!(said.status, Some(1));
}

#[test]
fn the_stored_script_gives_the_stored_transcript() {
    let path = concat!(
        env!("CARGO_MANIFEST_DIR"),
        "/../crates/program_replay/stdin"
    );
    let said = play(&[path]);
    let stored = include_str!("../../crates/program_replay/stdout");
    assert_eq!(said.out, format!("script {}\n{}", path, stored));
}

#[test]
fn a_file_that_is_no_script_is_told_and_the_next_is_played() {
    let no_script = file("no_script.txt", b"This is no desk script.");
    let good = file("good.desk", &encode(16, &[Operation::Run { allowance: 1 }]));
    let said = play(&[&no_script, &good]);
    assert_eq!(
        said.out,
        format!(
            "script {}\nbad script\nscript {}\nrun 0 0 idle\n",
            no_script, good
        )
    );
    assert_eq!(said.status, Some(1));
    assert_eq!(
        said.err,
        format!(
            "play: {}: no desk script of version 2: it does not begin with \"DSK2\" (operations played: 0)\n",
            no_script
        )
    );
}

#[test]
fn a_short_script_is_played_as_far_as_it_goes() {
    let mut bytes = encode(
        16,
        &[
            Operation::Read { offset: 4 },
            Operation::Run { allowance: 1 },
        ],
    );
    bytes.pop();
    let short = file("short.desk", &bytes);
    let said = play(&[&short]);
    assert_eq!(
        said.out,
        format!("script {}\nread 0 65539\ntruncated\n", short)
    );
    assert_eq!(said.status, Some(1));
    assert!(
        said.err.contains("cut short (operations played: 1)"),
        "{}",
        said.err
    );
}

#[test]
fn an_unknown_tag_is_told() {
    let mut bytes = encode(16, &[]);
    bytes.push(77);
    let unknown = file("unknown.desk", &bytes);
    let said = play(&[&unknown]);
    assert_eq!(said.out, format!("script {}\nunknown tag 77\n", unknown));
    assert_eq!(said.status, Some(1));
    assert!(said.err.contains("no operation has tag 77"), "{}", said.err);
}

#[test]
fn a_file_of_more_than_1_mib_is_bad() {
    let long = file("long.desk", &vec![0; (1 << 20) + 1]);
    let said = play(&[&long]);
    assert_eq!(said.out, format!("script {}\nbad script\n", long));
    assert_eq!(said.status, Some(1));
    assert!(said.err.contains("longer than"), "{}", said.err);
}

#[test]
fn a_file_that_is_not_there_is_told() {
    let said = play(&["there/is/no/such.desk"]);
    assert_eq!((said.status, said.out.as_str()), (Some(1), ""));
    assert!(
        said.err
            .starts_with("play: there/is/no/such.desk: cannot be read: "),
        "{}",
        said.err
    );
    let folder = play(&["."]);
    assert_eq!((folder.status, folder.out.as_str()), (Some(1), ""));
    assert!(
        folder.err.starts_with("play: .: cannot be read: "),
        "{}",
        folder.err
    );
}

#[test]
fn bad_use_shows_how_it_is_called() {
    let help = play(&["--help"]);
    assert_eq!(help.status, Some(0));
    assert!(help.out.starts_with("usage: play [--] [FILE..]\n"));
    let said = play(&["--loud"]);
    assert_eq!((said.status, said.out.as_str()), (Some(2), ""));
    assert!(
        said.err.starts_with("play: there is no option --loud\n"),
        "{}",
        said.err
    );
}

#[test]
fn behind_two_dashes_all_words_are_files() {
    let read = file("dashes.desk", &encode(16, &[Operation::Read { offset: 4 }]));
    let said = play(&["--", &read, "--help"]);
    assert_eq!(said.out, format!("script {}\nread 0 65539\n", read));
    assert_eq!(said.status, Some(1));
    assert!(
        said.err.starts_with("play: --help: cannot be read: "),
        "{}",
        said.err
    );
    assert_eq!(play(&["--"]).out, SAMPLE);
}

#[test]
fn an_empty_name_is_told() {
    let said = play(&[""]);
    assert_eq!((said.status, said.out.as_str()), (Some(1), ""));
    assert_eq!(said.err, "play: a file's name is empty\n");
}
