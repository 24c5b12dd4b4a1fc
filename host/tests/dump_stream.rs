//! The program `dump_stream`, called as a user calls it: listings on standard output, what is wrong on standard error.
mod project;

use project::{started, Folder};
use std::fs::{self, File};
use std::io::Write;
use std::path::Path;
use std::process::{Command, Stdio};
use zelezmut::guest::{self, Packet};
use zelezmut::script::{encode, Operation};

const STORED_SCRIPT: &str = concat!(
    env!("CARGO_MANIFEST_DIR"),
    "/../crates/program_replay/stdin"
);

struct Said {
    status: Option<i32>,
    out: String,
    err: String,
}

fn program() -> Command {
    started(Path::new(env!("CARGO_BIN_EXE_dump_stream")))
}

/// Calls the program with bytes on its standard input.
fn call_with(input: &[u8], words: &[&str]) -> Said {
    let mut command = program();
    command.args(words).stdin(Stdio::piped());
    command.stdout(Stdio::piped()).stderr(Stdio::piped());
    let mut child = command.spawn().expect("it can be started");
    let mut stdin = child.stdin.take().expect("a pipe");
    // It may end before it has read all, where it is not called as it should be.
    let _ = stdin.write_all(input);
    drop(stdin);
    let output = child.wait_with_output().expect("it ends");
    Said {
        status: output.status.code(),
        out: String::from_utf8(output.stdout).expect("text"),
        err: String::from_utf8(output.stderr).expect("text"),
    }
}

fn call(words: &[&str]) -> Said {
    call_with(b"", words)
}

/// Calls it for a file of these bytes, which stands as `stream` in messages.
fn listed(bytes: &[u8], words: &[&str]) -> Said {
    let folder = Folder::new("dump-stream");
    let file = folder.path("stream");
    fs::write(&file, bytes).expect("a file can be written");
    let name = file.to_str().expect("a path of text");
    let mut said = call(&[words, &[name]].concat());
    said.err = said.err.replace(name, "stream");
    said
}

fn stream() -> Vec<u8> {
    guest::stream(&[
        Packet::Destroy { handle: 7 },
        Packet::Unknown {
            opcode: 9,
            size: 12,
        },
        Packet::Release { token: 5 },
    ])
}

const LISTING: &str = "0x00000018 Destroy size_bytes=16 handle=7\n\
    0x00000028 UNKNOWN size_bytes=12 opcode=9\n\
    0x00000034 Release size_bytes=16 token=5\n";

#[test]
fn a_file_and_standard_input_are_listed() {
    let behind = [stream(), vec![1, 2, 3]].concat();
    let all = [
        listed(&stream(), &[]),
        listed(&behind, &["--"]),
        call_with(&stream(), &[]),
        call_with(&stream(), &["-"]),
        call_with(&stream(), &["--", "-"]),
    ];
    for said in all {
        assert_eq!(said.out, LISTING);
        assert_eq!((said.status, said.err.as_str()), (Some(0), ""));
    }
    let empty = listed(&guest::stream(&[]), &["--strict"]);
    assert_eq!((empty.status, empty.out.as_str()), (Some(0), ""));
}

#[test]
fn a_strict_listing_ends_at_an_unknown_opcode() {
    let said = listed(&stream(), &["--strict"]);
    let stopped = "0x00000028 STOPPED size_bytes=12 opcode=9\n";
    assert!(said.out.ends_with(stopped), "{}", said.out);
    assert_eq!(said.out.lines().count(), 2);
    let words = "dump_stream: stream: stopped at byte 40: opcode 9 is unknown\n";
    assert_eq!((said.status, said.err.as_str()), (Some(1), words));
}

#[test]
fn a_damaged_file_is_listed_up_to_the_damage() {
    let mut damaged = stream();
    damaged[56] = 15;
    let said = listed(&damaged, &[]);
    let expected = LISTING.replace("0x00000034 Release size_bytes=16 token=5", "error=17");
    assert_eq!(said.out, expected);
    let words = "dump_stream: stream: error 17 at byte 52: ";
    assert!(said.err.starts_with(words), "{}", said.err);
    assert_eq!(said.status, Some(1));
    for short in [&b""[..], b"This is no stream.", &stream()[..60]] {
        let said = listed(short, &[]);
        assert_eq!((said.status, said.out.as_str()), (Some(1), "error=16\n"));
        let words = "dump_stream: stream: error 16 at byte 0: ";
        assert!(said.err.starts_with(words), "{}", said.err);
    }
}

/// The program of the proved tree reads 64 KiB at most; this one any length.
#[test]
fn a_long_file_is_listed_whole() {
    let count = 30_000;
    let packet = Packet::Unknown { opcode: 9, size: 8 };
    let long = guest::stream(&vec![packet; count]);
    for said in [listed(&long, &[]), call_with(&long, &[])] {
        assert_eq!(said.status, Some(0), "{}", said.err);
        assert_eq!(said.out.lines().count(), count);
        let last = format!("0x{:08x} UNKNOWN size_bytes=8 opcode=9\n", 16 + 8 * count);
        assert!(said.out.ends_with(&last));
    }
}

#[test]
fn the_streams_of_a_night_are_listed() {
    let said = call(&["--desk", STORED_SCRIPT]);
    // Its last operation is cut short on purpose.
    let words = format!("dump_stream: {}: the script is cut short", STORED_SCRIPT);
    assert!(said.err.starts_with(&words), "{}", said.err);
    assert_eq!(said.status, Some(1));
    let begins = "submission 1: accepted, fence 1\n   no stream\n\
        submission 2: accepted, fence 2\n   \
        0x00000018 CreateBuffer size_bytes=40 handle=1 size=256 backing_id=5 backing_offset=64\n   \
        0x00000040 DirtyRange size_bytes=32 handle=1 offset=16 size=32\n";
    assert!(said.out.starts_with(begins), "{}", said.out);
    let heads = said.out.lines().filter(|line| line.starts_with("sub"));
    assert!(heads.count() > 20);
    // Each arrow is below the head of a submission that a packet has ended, and at that packet.
    let mut refused_at = None;
    let mut arrows = 0;
    for line in said.out.lines() {
        if let Some(head) = line.strip_prefix("submission ") {
            assert_eq!(refused_at, None, "{}", line);
            refused_at = head
                .split(" at byte ")
                .nth(1)
                .and_then(|words| words.split(' ').next())
                .map(|number| number.parse::<u32>().expect("a number"));
        } else if let Some(packet) = line.strip_prefix("-> ") {
            let place = refused_at.take().expect("a packet that was refused");
            let offset = format!("0x{:08x} ", place);
            assert!(
                packet.starts_with(&offset) || packet == "error=17",
                "{}",
                line
            );
            arrows += 1;
        } else {
            assert!(line.starts_with("   "), "{}", line);
        }
    }
    assert!(arrows >= 10, "{} arrows", arrows);
}

#[test]
fn a_script_that_is_cut_is_listed_as_far_as_it_goes() {
    let mut bytes = fs::read(STORED_SCRIPT).expect("the stored script");
    bytes.truncate(bytes.len() / 2);
    bytes.push(77);
    let whole = call(&["--desk", STORED_SCRIPT]).out;
    let folder = Folder::new("dump-desk");
    let file = folder.path("desk");
    fs::write(&file, &bytes).expect("a file can be written");
    let name = file.to_str().expect("a path of text");
    let said = call(&["--strict", "--desk", name]);
    assert_eq!(said.status, Some(1));
    let words = format!("dump_stream: {}: ", name);
    assert!(said.err.starts_with(&words), "{}", said.err);
    assert!(said.err.contains("(operations played: "), "{}", said.err);
    let first = whole.lines().take(4).eq(said.out.lines().take(4));
    assert!(first && said.out.len() < whole.len(), "{}", said.out);
    // A script on standard input, with no submission; and what is none.
    let none = call_with(&encode(16, &[Operation::State]), &["--desk", "-"]);
    assert_eq!((none.status, none.out.as_str()), (Some(0), ""));
    let bad = call_with(&stream(), &["--desk", "-"]);
    assert_eq!((bad.status, bad.out.as_str()), (Some(1), ""));
    let words = "dump_stream: standard input: no desk script";
    assert!(bad.err.starts_with(words), "{}", bad.err);
}

#[test]
fn what_cannot_be_read_is_told() {
    for name in ["there/is/no/such.stream", "."] {
        for words in [&[name][..], &["--desk", name]] {
            let said = call(words);
            assert_eq!((said.status, said.out.as_str()), (Some(1), ""));
            let words = format!("dump_stream: {}: cannot be read: ", name);
            assert!(said.err.starts_with(&words), "{}", said.err);
        }
    }
}

#[test]
fn bad_use_shows_how_it_is_called() {
    let help = call(&["--help"]);
    assert_eq!((help.status, help.err.as_str()), (Some(0), ""));
    let usage = "usage: dump_stream [--strict] [--] [FILE]\n";
    assert!(help.out.starts_with(usage), "{}", help.out);
    for (words, wrong) in [
        (&["--loud"][..], "there is no option --loud"),
        (&["one", "two"], "there is more than one file"),
        (&["--desk"], "--desk needs a script"),
        (&["--desk", "one", "two"], "there is a file beside --desk"),
        (
            &["--desk", "one", "--desk", "two"],
            "there is one --desk at most",
        ),
        (&[""], "a file's name is empty"),
        (&["--desk", ""], "a file's name is empty"),
    ] {
        let said = call(words);
        assert_eq!((said.status, said.out.as_str()), (Some(2), ""));
        assert_eq!(said.err, format!("dump_stream: {}\n\n{}", wrong, help.out));
    }
    let dashes = call(&["--", "--help"]);
    assert_eq!(dashes.status, Some(1));
    assert!(dashes
        .err
        .starts_with("dump_stream: --help: cannot be read"));
}

/// A pipe whose reader has ended.
fn closed_pipe() -> Stdio {
    let mut reader = program();
    reader
        .arg("--help")
        .stdin(Stdio::piped())
        .stdout(Stdio::null());
    let mut reader = reader.spawn().expect("it can be started");
    let pipe = reader.stdin.take().expect("a pipe");
    reader.wait().expect("it ends");
    pipe.into()
}

/// A reader that has gone away is no error; a place that takes no bytes is one, and is told.
#[test]
fn an_output_that_cannot_be_written_is_no_panic() {
    let long = guest::stream(&vec![Packet::Unknown { opcode: 9, size: 8 }; 30_000]);
    let folder = Folder::new("dump-closed");
    let file = folder.path("stream");
    fs::write(&file, &long).expect("a file can be written");
    for words in [
        &[file.to_str().expect("a path of text")][..],
        &["--desk", STORED_SCRIPT],
        &["--help"],
    ] {
        let mut closed = program();
        closed.args(words).stdout(closed_pipe());
        let output = closed.output().expect("it ends");
        assert_eq!(output.status.code(), Some(0));
        assert!(output.stderr.is_empty());

        let full = File::create("/dev/full").expect("the device that is always full");
        let mut told = program();
        let output = told.args(words).stdout(full).output().expect("it ends");
        assert_eq!(output.status.code(), Some(1));
        let err = String::from_utf8(output.stderr).expect("text");
        let words = "dump_stream: the listing cannot be written: ";
        assert!(err.starts_with(words), "{}", err);
        assert_eq!(err.lines().count(), 1);

        let full = || File::create("/dev/full").expect("the device that is always full");
        let mut mute = program();
        let status = mute.args(["--loud"]).stdout(full()).stderr(full()).status();
        assert_eq!(status.expect("it ends").code(), Some(2));
    }
}
