//! The program `diff_streams`, called as a user calls it: a report with names, colour when asked for, and its exit codes.
mod project;

use project::{started, Folder};
use std::fs;
use std::io::Write;
use std::path::Path;
use std::process::{Command, Stdio};
use zelezmut::guest::{self, Clear, Packet};

struct Said {
    status: Option<i32>,
    out: String,
    err: String,
}

fn program(words: &[&str]) -> Command {
    let mut command = started(Path::new(env!("CARGO_BIN_EXE_diff_streams")));
    command.args(words);
    command
}

fn said(mut command: Command) -> Said {
    let output = command.output().expect("it can be started");
    Said {
        status: output.status.code(),
        out: String::from_utf8(output.stdout).expect("text"),
        err: String::from_utf8(output.stderr).expect("text"),
    }
}

/// Compares files of these bytes; a message has their names alone, `one` and `other`.
fn compared(options: &[&str], first: &[u8], second: &[u8]) -> Said {
    let folder = Folder::new("diff-streams");
    for (name, bytes) in [("one", first), ("other", second)] {
        fs::write(folder.path(name), bytes).expect("a file can be written");
    }
    let mut command = program(options);
    command.args(["one", "other"]).current_dir(folder.root());
    said(command)
}

fn clear(flags: u32, stencil: u32) -> Packet {
    Packet::Clear(Clear {
        flags,
        colour: [0.0, 0.5, 1.0, 1.0],
        depth: 1.0,
        stencil,
    })
}

/// Two streams with a pair of every class, and differing bytes of every kind.
fn two() -> [Vec<u8>; 2] {
    let unknown = |opcode| Packet::Unknown { opcode, size: 16 };
    let mut unnamed = Packet::Destroy { handle: 6 }.to_bytes();
    unnamed[12..16].fill(1);
    let mut payload = unknown(7).to_bytes();
    payload[8..10].fill(9);
    payload[12] = 9;
    let first = [
        clear(1, 2).to_bytes(),
        clear(1, 2).to_bytes(),
        Packet::Target { handle: 5 }.to_bytes(),
        Packet::Destroy { handle: 6 }.to_bytes(),
        unknown(7).to_bytes(),
        Packet::Release { token: 5 }.to_bytes(),
        unknown(8).to_bytes(),
    ];
    let second = [
        clear(1, 2).to_bytes(),
        clear(7, u32::MAX).to_bytes(),
        unknown(9).to_bytes(),
        unnamed,
        payload,
        Packet::Release { token: 1 << 40 }.grown(&[1, 2]),
        unknown(8).to_bytes(),
        Packet::Target { handle: 5 }.to_bytes(),
        unknown(10).to_bytes(),
    ];
    [guest::stream_of(&first), guest::stream_of(&second)]
}

const REPORT: &str = "\
first=1
0 equal Clear
1 same_opcode Clear offsets=8 flags, 32-35 stencil
2 other_opcode Target, UNKNOWN opcode=9
3 same_opcode Destroy offsets=12-15 unnamed
4 same_opcode UNKNOWN opcode=7 offsets=8-9 payload, 12 payload
5 same_opcode Release offsets=4 header, 8 token, 13 token, 16-23 appended
6 equal UNKNOWN opcode=8
7 only_second Target
8 only_second UNKNOWN opcode=10
";

#[test]
fn a_report_has_names_beside_the_offsets() {
    let [first, second] = two();
    let said = compared(&[], &first, &second);
    assert_eq!((said.out.as_str(), said.err.as_str()), (REPORT, ""));
    assert_eq!(said.status, Some(1));
    let said = compared(&["--colour=never"], &second, &first);
    let swapped = REPORT
        .replace("only_second", "only_first")
        .replace("Target, UNKNOWN opcode=9", "UNKNOWN opcode=9, Target");
    assert_eq!((said.out, said.status), (swapped, Some(1)));
}

#[test]
fn equal_packets_are_no_difference_whatever_is_around_them() {
    let [first, _] = two();
    let mut around = [&first[..], &[1, 2, 3]].concat();
    around[4] ^= 1;
    around[12..24].fill(0xA5);
    let said = compared(&["--colour=auto"], &first, &around);
    let lines: Vec<&str> = said.out.lines().collect();
    assert_eq!(lines.len(), 8);
    assert_eq!(lines[..2], ["first=none", "0 equal Clear"]);
    assert!(lines[1..].iter().all(|line| line.contains(" equal ")));
    assert_eq!((said.status, said.err.as_str()), (Some(0), ""));
    let empty = guest::stream(&[]);
    let said = compared(&[], &empty, &empty);
    assert_eq!((said.status, said.out.as_str()), (Some(0), "first=none\n"));
}

#[test]
fn colour_is_for_terminals_or_those_who_ask_for_it() {
    let [first, second] = two();
    let said = compared(&["--colour=always"], &first, &second);
    let mut coloured = REPORT.to_string();
    for (word, code) in [
        ("same_opcode", 33),
        ("other_opcode", 35),
        ("only_second", 32),
    ] {
        coloured = coloured.replace(word, &format!("\x1b[{}m{}\x1b[0m", code, word));
    }
    assert_eq!((said.out, said.status), (coloured, Some(1)));
}

#[test]
fn a_bad_stream_is_told_by_its_rule_and_its_file() {
    let [first, second] = two();
    let mut bad_packet = first.clone();
    bad_packet[28] = 4;
    let header = "the stream's header breaks a rule";
    let packet = "a packet's size breaks a rule, or bytes are left over";
    for (first, second, words) in [
        (
            &first[..20],
            &second[..],
            format!("one: refused=16 stream=1: {}", header),
        ),
        (
            &bad_packet,
            &[],
            format!("one: refused=17 stream=1: {}", packet),
        ),
        (
            &first,
            &bad_packet,
            format!("other: refused=17 stream=2: {}", packet),
        ),
        (
            &first,
            &[],
            format!("other: refused=16 stream=2: {}", header),
        ),
    ] {
        let said = compared(&[], first, second);
        assert_eq!(said.err, format!("diff_streams: {}\n", words));
        assert_eq!((said.status, said.out.as_str()), (Some(2), ""));
    }
}

/// And nobody need be there to read the report.
#[test]
fn one_of_them_may_be_standard_input() {
    let folder = Folder::new("diff-streams-input");
    let [first, second] = two();
    fs::write(folder.path("other"), &second).expect("a file can be written");
    for read_it in [true, false] {
        let mut command = program(&["-", "other"]);
        command
            .current_dir(folder.root())
            .stdin(Stdio::piped())
            .stdout(Stdio::piped())
            .stderr(Stdio::piped());
        let mut child = command.spawn().expect("it can be started");
        if !read_it {
            drop(child.stdout.take());
        }
        let mut input = child.stdin.take().expect("a pipe");
        input.write_all(&first).expect("it reads all");
        drop(input);
        let output = child.wait_with_output().expect("it ends");
        let expected = if read_it { REPORT } else { "" };
        assert_eq!(String::from_utf8_lossy(&output.stdout), expected);
        assert_eq!(String::from_utf8_lossy(&output.stderr), "");
        assert_eq!(output.status.code(), Some(1));
    }
}

#[test]
fn what_it_is_not_called_with_is_told() {
    let lost = said(program(&["there/is/no.dump", "there/is/none"]));
    assert_eq!((lost.status, lost.out.as_str()), (Some(2), ""));
    let words = "diff_streams: there/is/no.dump: cannot be read: ";
    assert!(lost.err.starts_with(words), "{}", lost.err);
    let help = said(program(&["--help"]));
    assert_eq!((help.status, help.err.as_str()), (Some(0), ""));
    let usage = "usage: diff_streams [--colour=WHEN] [--] FILE FILE\n";
    assert!(help.out.starts_with(usage));
    for words in [
        &[][..],
        &["one"],
        &["one", "two", "three"],
        &["-", "-"],
        &["--loud", "one", "two"],
        &["--colour=red", "one", "two"],
    ] {
        let said = said(program(words));
        assert_eq!((said.status, said.out.as_str()), (Some(2), ""));
        assert_eq!(said.err, help.out);
    }
    let dashes = said(program(&["--", "--help", "two"]));
    assert_eq!(dashes.status, Some(2));
    assert!(dashes
        .err
        .starts_with("diff_streams: --help: cannot be read"));
}
