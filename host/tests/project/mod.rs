//! For tests that write files and start programs as a user does, cargo among them, in a folder of their own. What is built there is
//! x86-64 code, as all of it is.
// Each file of tests takes what it needs of this.
#![allow(dead_code)]

use std::env;
use std::ffi::OsString;
use std::fs;
use std::path::{Path, PathBuf};
use std::process::{self, Command};
use std::sync::{Mutex, MutexGuard, PoisonError};

pub const TARGET: &str = "x86_64-unknown-linux-gnu";
pub const LIBRARY_VARIABLE: &str = "ZELEZMUT_LIB_DIR";

/// Cargo's names for the linker and the emulator, where the machine is not an x86-64 one.
pub const LINKER_VARIABLE: &str = "CARGO_TARGET_X86_64_UNKNOWN_LINUX_GNU_LINKER";
pub const RUNNER_VARIABLE: &str = "CARGO_TARGET_X86_64_UNKNOWN_LINUX_GNU_RUNNER";

/// Held by whoever has a [`Folder`], so that of all tests in a file one at a time writes files and starts programs.
///
/// A program that is started has the files that this process is just writing open too, until it has become the other program. If one of
/// these files is a script that another test then starts, that fails: the file is busy. Under an emulator this is no rare case, since
/// starting takes longer there; and it is not even told, but looks like a program that ended with 127.
static ALONE: Mutex<()> = Mutex::new(());

/// An empty folder outside the project, for as long as this value lives.
pub struct Folder {
    root: PathBuf,
    _alone: MutexGuard<'static, ()>,
}

impl Drop for Folder {
    fn drop(&mut self) {
        // What cannot be removed is left to the machine: a test that passed is not failed for it.
        let _ = fs::remove_dir_all(&self.root);
    }
}

impl Folder {
    pub fn new(name: &str) -> Folder {
        // That another test has failed is no reason for this one to fail.
        let alone = ALONE.lock().unwrap_or_else(PoisonError::into_inner);
        let path = env::temp_dir().join(format!("zelezmut-{}-{}", name, process::id()));
        // A process that had this number before may have died here.
        let _ = fs::remove_dir_all(&path);
        fs::create_dir_all(&path).expect("a folder can be made");
        Folder {
            root: path.canonicalize().expect("a path to a folder"),
            _alone: alone,
        }
    }

    pub fn root(&self) -> &Path {
        &self.root
    }

    pub fn path(&self, name: &str) -> PathBuf {
        self.root.join(name)
    }

    pub fn put(&self, name: &str, text: &str) {
        let path = self.path(name);
        fs::create_dir_all(path.parent().expect("a folder")).expect("a folder can be made");
        fs::write(path, text).expect("a file can be written");
    }

    /// Copies what a user needs of the project: the crate, without what was built there.
    pub fn copy_project(&self, name: &str) {
        let here = Path::new(env!("CARGO_MANIFEST_DIR"));
        copy(here, &self.path(name).join("host"));
    }

    /// A user's program in a package of its own, beside a copy of the project.
    pub fn put_emulator(&self, name: &str, program: &str) {
        self.copy_project("zelezmut");
        self.put(
            &format!("{}/Cargo.toml", name),
            &format!(
                "[package]\nname = \"{}\"\nversion = \"0.1.0\"\nedition = \"2021\"\n\n\
                 [dependencies]\nzelezmut = {{ path = \"../zelezmut/host\" }}\n",
                name
            ),
        );
        self.put(&format!("{}/src/main.rs", name), program);
    }

    /// A program that was built here, to be started.
    pub fn program(&self, name: &str) -> Command {
        started(&self.path("target").join(TARGET).join("debug").join(name))
    }
}

/// A program of ours to be started: where these tests run under an emulator, so does it.
pub fn started(program: &Path) -> Command {
    let mut command = match env::var_os(RUNNER_VARIABLE) {
        Some(runner) => {
            let mut command = Command::new(runner);
            command.arg(program);
            command
        }
        None => Command::new(program),
    };
    command.env_remove("LD_LIBRARY_PATH");
    command
}

fn copy(from: &Path, to: &Path) {
    fs::create_dir_all(to).expect("a folder can be made");
    for entry in fs::read_dir(from).expect("a folder can be read") {
        let entry = entry.expect("a folder can be read");
        let (path, name) = (entry.path(), entry.file_name());
        if path.is_file() {
            fs::copy(&path, to.join(&name)).expect("a file can be copied");
        } else if name != "target" {
            copy(&path, &to.join(&name));
        }
    }
}

/// The folder of the library that these tests are linked with.
pub fn library_folder() -> OsString {
    match env::var_os(LIBRARY_VARIABLE) {
        Some(folder) if !folder.is_empty() => folder,
        _ => concat!(env!("CARGO_MANIFEST_DIR"), "/../target/staticlib").into(),
    }
}

pub struct Said {
    pub status: Option<i32>,
    /// All that it said, on both ways.
    pub all: String,
}

impl Said {
    pub fn good(&self) -> bool {
        self.status == Some(0)
    }
}

/// Starts a program and waits for its end.
pub fn said(mut command: Command) -> Said {
    let output = command.output().expect("a program can be started");
    let all = [output.stdout, output.stderr].concat();
    Said {
        status: output.status.code(),
        all: String::from_utf8_lossy(&all).into_owned(),
    }
}

/// The C compiler for what these tests are built for.
pub fn c_compiler() -> Command {
    let compiler = env::var_os(LINKER_VARIABLE).unwrap_or_else(|| "cc".into());
    let mut command = Command::new(compiler);
    command.env_remove("LD_LIBRARY_PATH");
    command
}

/// What cargo and rustc take from their environment for the build that these tests are part of; the linker alone is this machine's.
fn belongs_to_this_build(name: &str) -> bool {
    let of_cargo = name.starts_with("CARGO_") && name != "CARGO_HOME" && name != LINKER_VARIABLE;
    let of_rustc = ["RUSTFLAGS", "RUSTDOCFLAGS", "RUSTC", "RUSTDOC"].contains(&name);
    of_cargo || of_rustc || name.starts_with("RUSTC_") || name == "LD_LIBRARY_PATH"
}

/// Cargo, the one that builds these tests, to be called in a folder: with no network, with a target folder there, and with nothing of
/// the build that these tests are part of.
pub fn cargo(folder: &Path, target: &str, words: &[&str]) -> Command {
    let mut command = Command::new(env!("CARGO"));
    for (name, _) in env::vars_os() {
        if belongs_to_this_build(&name.to_string_lossy()) {
            command.env_remove(name);
        }
    }
    command
        .current_dir(folder)
        // As where another program than a shell starts cargo.
        .env("PWD", "/")
        .env("CARGO_TERM_COLOR", "never")
        .args(words)
        .args(["--offline", "--target", target, "--target-dir", "target"]);
    command
}

/// Calls cargo with the library that these tests are linked with.
pub fn build(folder: &Folder, words: &[&str]) -> Said {
    build_with(folder, words, library_folder())
}

/// Calls cargo with the library of a folder.
pub fn build_with(folder: &Folder, words: &[&str], library: impl Into<OsString>) -> Said {
    let mut command = cargo(folder.root(), TARGET, words);
    command.env(LIBRARY_VARIABLE, library.into());
    said(command)
}
