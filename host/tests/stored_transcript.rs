//! The gate holds crates/program_replay to a stored script and transcript; the desk gives the same, line by line.
use zelezmut::script::{decode, encode, transcript, Script};

const SCRIPT: &[u8] = include_bytes!("../../crates/program_replay/stdin");
const TRANSCRIPT: &str = include_str!("../../crates/program_replay/stdout");

#[test]
fn the_stored_script_gives_the_stored_transcript() {
    let given = transcript(&decode(SCRIPT));
    for (i, (line, stored)) in given.lines().zip(TRANSCRIPT.lines()).enumerate() {
        assert_eq!(line, stored, "line {}", i + 1);
    }
    assert_eq!(given, TRANSCRIPT);
}

#[test]
fn written_anew_it_is_the_same_script() {
    let Script {
        memory,
        operations,
        fault,
    } = decode(SCRIPT);
    let again = decode(&encode(memory, &operations));
    assert_eq!(again.operations, operations);
    // The stored script may end in a fault on purpose; what can be written has none.
    assert_eq!(again.fault, None);
    let mut lines = transcript(&again);
    if let Some(fault) = fault {
        lines.push_str(&fault.line());
        lines.push('\n');
    }
    assert_eq!(lines, TRANSCRIPT);
}
