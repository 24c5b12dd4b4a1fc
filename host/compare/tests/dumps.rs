//! Random dumps are listed the same by the proved front and by the plain program; and by the proved program that reads a dump, where it is built.

use compare::dumps::{
    cut, every_packet, some_dump, stream_of_length, Dump, Reached, KNOWN_NAMES, LONGEST_DUMP,
    REACHED,
};
use compare::random::Random;
use std::env;
use std::io::Write;
use std::path::Path;
use std::process::{Command, Stdio};
use zelezmut::dump;

const BAD_INPUT: &str = "bad input\n";

/// Lists a dump by both, and gives the text.
fn listed(dump: &Dump) -> String {
    let Dump { stream, strict } = dump;
    let (proved, plain) = (
        dump::text(stream, *strict),
        plain::dump::dump(stream, *strict),
    );
    assert!(
        proved == plain,
        "strict {}, stream {:?}\nproved:\n{}\nplain:\n{}",
        strict,
        stream,
        proved,
        plain
    );
    proved
}

#[test]
fn random_dumps_are_listed_the_same() {
    let mut random = Random::new(40);
    let mut reached = Reached::default();
    let dumps = 5_000;
    for _ in 0..dumps {
        let dump = some_dump(&mut random);
        let text = listed(&dump);
        let lines = dump::lines(&dump.stream, dump.strict);
        let again: String = lines.map(|line| line.to_string() + "\n").collect();
        assert_eq!(again, text);
        reached.note(&dump, &text);
    }
    let names = KNOWN_NAMES.map(|(name, _)| name);
    let grown = names.map(|name| format!("{} grown", name));
    let all = REACHED.iter().chain(&names).copied();
    for key in all.chain(grown.iter().map(String::as_str)) {
        let times = reached.times(key);
        assert!(times >= 50, "{} only {} times: {:?}", key, times, reached);
    }
}

/// All of it, cut at every byte: with the size that the header had, and with the size that is left.
#[test]
fn dumps_cut_at_every_byte_are_listed_the_same() {
    let whole = every_packet(&mut Random::new(41));
    let mut endings = [0; 3];
    for strict in [false, true] {
        for at in 0..=whole.len() {
            let stream = whole[..at].to_vec();
            let text = listed(&Dump { stream, strict });
            assert_eq!(text == "error=16\n", at < whole.len());
            let mut stream = whole.clone();
            cut(at, &mut stream);
            let text = listed(&Dump { stream, strict });
            let ending = match text.lines().last() {
                Some("error=17") => 0,
                Some(line) if line.contains(" STOPPED ") => 1,
                _ => 2,
            };
            endings[ending] += 1;
        }
    }
    assert!(endings.iter().all(|&count| count > 40), "{:?}", endings);
}

#[test]
fn dumps_of_these_lengths_are_listed_the_same() {
    let mut random = Random::new(42);
    for length in [0, 1, 23] {
        let noise = vec![7; length];
        for strict in [false, true] {
            let stream = noise.clone();
            assert_eq!(listed(&Dump { stream, strict }), "error=16\n");
        }
    }
    for length in (24..=64).chain(65_530..=65_540).chain([1 << 20]) {
        let stream = stream_of_length(&mut random, length);
        for strict in [false, true] {
            let stream = stream.clone();
            let lines = listed(&Dump { stream, strict }).lines().count();
            let packets = (length - 24) / 8;
            assert_eq!(lines, if strict { packets.min(1) } else { packets });
        }
    }
}

/// What is expected of the proved program, from the export and the rule for inputs.
fn listing(input: &[u8]) -> String {
    match input {
        [first @ (0 | 1), stream @ ..] if stream.len() <= LONGEST_DUMP => {
            dump::text(stream, *first == 1)
        }
        _ => BAD_INPUT.to_string(),
    }
}

/// The proved program, where `rt` has built it, as the gate has by then.
fn program() -> Option<Command> {
    let path = Path::new(concat!(
        env!("CARGO_MANIFEST_DIR"),
        "/../../target/bin/program_dump"
    ));
    if !path.is_file() {
        return None;
    }
    Some(
        match env::var_os("CARGO_TARGET_X86_64_UNKNOWN_LINUX_GNU_RUNNER") {
            Some(runner) => {
                let mut command = Command::new(runner);
                command.arg(path);
                command
            }
            None => Command::new(path),
        },
    )
}

/// What the program prints for an input that comes in pieces.
fn printed(mut command: Command, input: &[u8]) -> String {
    command.stdin(Stdio::piped()).stdout(Stdio::piped());
    let mut child = command.spawn().expect("the program can be started");
    let mut stdin = child.stdin.take().expect("a pipe");
    // It reads no more than it needs, so that the last bytes of a longer one may find no reader.
    for piece in input.chunks(999) {
        let _ = stdin.write_all(piece);
    }
    drop(stdin);
    let output = child.wait_with_output().expect("the program ends");
    String::from_utf8(output.stdout).expect("text")
}

/// The plain program's text for an input, held against the export's, and against the proved program's where that is built.
fn check_input(input: &[u8]) -> String {
    let plain = plain::dump::listing(input);
    assert_eq!(plain, listing(input), "{} bytes", input.len());
    if let Some(command) = program() {
        assert_eq!(plain, printed(command, input), "{} bytes", input.len());
    }
    plain
}

#[test]
fn inputs_of_every_first_byte_are_listed_the_same() {
    let mut random = Random::new(43);
    let stream = every_packet(&mut random);
    assert_eq!(check_input(&[]), BAD_INPUT);
    for first in 0..=u8::MAX {
        let text = check_input(&[&[first], &stream[..]].concat());
        assert_eq!(text == BAD_INPUT, first > 1);
    }
    for first in [0, 1] {
        assert_eq!(check_input(&[first]), "error=16\n");
        for length in [65_535, 65_536, 65_537] {
            let stream = stream_of_length(&mut random, length);
            let text = check_input(&[&[first], &stream[..]].concat());
            assert_eq!(text == BAD_INPUT, length > LONGEST_DUMP);
        }
    }
}

#[test]
fn random_inputs_are_listed_the_same() {
    let mut random = Random::new(44);
    let mut empty = 0;
    for _ in 0..300 {
        let text = check_input(&some_dump(&mut random).input());
        empty += u32::from(text.is_empty());
    }
    assert!((1..150).contains(&empty), "{} are empty", empty);
}
