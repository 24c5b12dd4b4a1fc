//! A desk and its month that move from one program to another: the sample night as `report_night` prints it, with listings and totals, of
//! which the second half is played elsewhere. `saved_desk` moves the desk alone.
//!
//! `save FILE` plays the first half and saves the desk into FILE, guest memory into FILE.memory and the month's totals into FILE.month;
//! `play FILE` loads the three, plays on, and merges the totals of both halves.
//! Without words this program does the first by itself, and starts itself again for the second. What both print together is the
//! night as `report_night` prints it.
//!
//! A saved desk has no guest memory in it: whoever moves a desk moves the memory, too. And a desk is saved at rest. A host that wants to
//! save while a submission waits carries that out and answers it first; while one is in work it runs on until it waits or ends.
//!
//!     cargo run --example saved_month
#[path = "../src/bin/report_night/report.rs"]
mod report;
// Here the night is played as a report, not as `play` does it.
#[allow(dead_code)]
#[path = "../src/bin/play/sample.rs"]
mod sample;
#[path = "../src/bin/report_night/tally.rs"]
mod tally;

use std::env;
use std::error::Error;
use std::ffi::OsString;
use std::fs;
use std::io::{self, Write};
use std::path::{Path, PathBuf};
use std::process::{self, Command};
use tally::Tally;
use zelezmut::script::Player;
use zelezmut::{Desk, Form, Month};

type Done = Result<(), Box<dyn Error>>;

/// Where guest memory and the month's totals go: beside the desk.
fn memory_file(file: &Path) -> PathBuf {
    beside(file, ".memory")
}

fn month_file(file: &Path) -> PathBuf {
    beside(file, ".month")
}

fn beside(file: &Path, ending: &str) -> PathBuf {
    let mut name = file.as_os_str().to_os_string();
    name.push(ending);
    name.into()
}

/// The totals as bytes: 26 words, little-endian, in the published order.
fn month_bytes(month: &Month) -> Vec<u8> {
    let words = month.words();
    words.iter().flat_map(|word| word.to_le_bytes()).collect()
}

/// The month of such bytes, `None` for another number of them.
fn month_of(bytes: &[u8]) -> Option<Month> {
    let mut words = [0; 26];
    if bytes.len() != 8 * words.len() {
        return None;
    }
    for (word, bytes) in words.iter_mut().zip(bytes.chunks_exact(8)) {
        *word = u64::from_le_bytes(bytes.try_into().ok()?);
    }
    Some(Month::from_words(words))
}

/// The first half of the night. Then desk, memory and totals go to files: a surface has two names by then, and a token, so the form is 2.
fn save(file: &Path, out: &mut impl Write) -> Done {
    let [first, _] = sample::halves()?;
    let mut player = Player::new(sample::MEMORY);
    sample::print_title(out)?;
    let mut tally = Tally::default();
    report::play(&first, &mut player, &mut tally, out)?;
    fs::write(file, player.desk().save_as(Form::Two)?)?;
    fs::write(memory_file(file), player.memory())?;
    fs::write(month_file(file), month_bytes(tally.month()))?;
    Ok(())
}

/// The second half, with what the files say.
fn play_on(file: &Path, out: &mut impl Write) -> Done {
    let [_, second] = sample::halves()?;
    let desk = Desk::from_saved(&fs::read(file)?)?;
    let memory = fs::read(memory_file(file))?;
    // Another length than the desk's is no danger: every call that is lent it is refused. But then the files do not belong together.
    if memory.len() != desk.memory_len() {
        return Err("the memory is not this desk's: it has another length".into());
    }
    let first = fs::read(month_file(file))?;
    let mut month = month_of(&first).ok_or("the totals are not 26 words")?;
    let mut player = Player::with(desk, memory);
    let mut tally = Tally::default();
    report::play(&second, &mut player, &mut tally, out)?;
    month.merge(tally.month())?;
    report::print_totals(&month, out)?;
    Ok(())
}

/// This program, to be started again. Where it runs under an emulator, so does what it starts: cargo knows that one by this name.
fn myself() -> io::Result<Command> {
    let program = env::current_exe()?;
    let runner = env::var_os("CARGO_TARGET_X86_64_UNKNOWN_LINUX_GNU_RUNNER");
    let mut command = Command::new(runner.as_deref().unwrap_or(program.as_os_str()));
    if runner.is_some() {
        command.arg(program);
    }
    Ok(command)
}

/// Both halves, the second in another process.
fn save_and_play_on(out: &mut impl Write) -> Done {
    let file = env::temp_dir().join(format!("zelezmut-saved-month-{}", process::id()));
    save(&file, out)?;
    out.flush()?;
    let ended = myself()?.arg("play").arg(&file).status()?;
    fs::remove_file(month_file(&file))?;
    fs::remove_file(memory_file(&file))?;
    fs::remove_file(&file)?;
    match ended.success() {
        true => Ok(()),
        false => Err("the program that was to play on has failed".into()),
    }
}

/// What the words ask for.
fn act(words: &[OsString]) -> Done {
    let mut out = io::stdout();
    let word = words.first().and_then(|word| word.to_str());
    match (word, words.get(1).map(Path::new), words.len()) {
        (None, None, 0) => save_and_play_on(&mut out),
        (Some("save"), Some(file), 2) => save(file, &mut out),
        (Some("play"), Some(file), 2) => play_on(file, &mut out),
        _ => Err("usage: saved_month [save FILE | play FILE]".into()),
    }
}

fn main() {
    let words: Vec<OsString> = env::args_os().skip(1).collect();
    if let Err(error) = act(&words) {
        eprintln!("saved_month: {}", error);
        process::exit(1);
    }
}
