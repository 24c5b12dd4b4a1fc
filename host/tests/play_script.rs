//! The script ./play itself, over a tree in which all that it calls is a stand-in: what it does, and before what.
mod project;

use project::Folder;
use std::fs;
use std::os::unix::fs::{symlink, PermissionsExt};
use std::path::Path;
use std::process::{Child, Command, Stdio};

const PLAY: &str = include_str!("../../play");
const USAGE: &str = include_str!("../src/bin/play/usage.txt");

/// In place of host/machine.sh: nothing is installed or built, and the program prints its words.
const MACHINE: &str = r#"
host_folder=$root/host
host_ready() { :; }
host_library() { (cd "$root" && rt lib); }
host_cargo() { echo "cargo $*" >>"$root/log" && [ -f "$root/target/staticlib/libzelezmut.a" ]; }
host_program() { echo "$root/host/target/$1"; }
host_run() { shift && printf 'played\n' && printf '<%s>\n' "$@"; }
"#;

/// In place of the kit's: it takes a while, and bears no second one beside it.
const RT: &str = r#"#!/bin/sh
echo "rt $*" >>log
mkdir busy || exit 1
sleep 1
mkdir -p target/staticlib
: >target/staticlib/libzelezmut.a
rmdir busy
"#;

struct Tree(Folder);

struct Said {
    status: Option<i32>,
    out: String,
    err: String,
}

impl Tree {
    /// A project whose front was never built.
    fn new(name: &str) -> Tree {
        let folder = Folder::new(name);
        folder.put("tree/play", PLAY);
        folder.put("tree/host/machine.sh", MACHINE);
        folder.put("tree/host/src/bin/play/usage.txt", USAGE);
        folder.put("tree/host/build.rs", "");
        folder.put("tree/host/Cargo.toml", "");
        folder.put("tree/crates.txt", "");
        folder.put("tree/crates/rules/src/lib.rt", "");
        folder.put("kit/rt", RT);
        for program in ["tree/play", "kit/rt"] {
            fs::set_permissions(folder.path(program), PermissionsExt::from_mode(0o755)).unwrap();
        }
        Tree(folder)
    }

    /// One whose front and program were built, the program last.
    fn built(name: &str) -> Tree {
        let tree = Tree::new(name);
        tree.0.put("tree/target/staticlib/libzelezmut.a", "");
        tree.0.put("tree/host/target/play", "");
        tree
    }

    fn command(&self, program: &Path) -> Command {
        let mut command = Command::new(program);
        let path = std::env::var("PATH").unwrap();
        let kit = self.0.path("kit");
        command
            .current_dir(self.0.root())
            .env("PATH", format!("{}:{}", kit.display(), path))
            .env_remove("CDPATH")
            .env_remove("LD_LIBRARY_PATH");
        command
    }

    fn play(&self, words: &[&str]) -> Said {
        let mut command = self.command(&self.0.path("tree/play"));
        command.args(words);
        said(command)
    }

    /// What was called of rt and cargo.
    fn log(&self) -> String {
        fs::read_to_string(self.0.path("tree/log")).unwrap_or_default()
    }
}

fn said(mut command: Command) -> Said {
    let output = command.output().expect("a script can be started");
    Said {
        status: output.status.code(),
        out: String::from_utf8(output.stdout).expect("text"),
        err: String::from_utf8(output.stderr).expect("text"),
    }
}

#[test]
fn what_the_words_alone_tell_is_told_before_anything_is_proved() {
    let tree = Tree::new("play-words");
    tree.0.put("here.desk", "");
    for help in [
        &["--help"][..],
        &["-h"],
        &["there/is/no.desk", "--help"],
        &["here.desk", "--help", "--"],
    ] {
        let said = tree.play(help);
        assert_eq!((said.status, said.out.as_str()), (Some(0), USAGE));
    }
    let said = tree.play(&["--loud"]);
    assert_eq!((said.status, said.out.as_str()), (Some(2), ""));
    assert_eq!(
        said.err,
        format!("play: there is no option --loud\n\n{}", USAGE)
    );
    let said = tree.play(&["no.desk", "here.desk", "", "kit", "--", "--help"]);
    assert_eq!((said.status, said.out.as_str()), (Some(1), ""));
    assert_eq!(
        said.err,
        "play: no.desk: cannot be read: there is no such file\n\
         play: a file's name is empty\n\
         play: kit: cannot be read: it is a folder\n\
         play: --help: cannot be read: there is no such file\n"
    );
    assert_eq!(tree.log(), "");
}

#[test]
fn behind_two_dashes_all_words_are_files() {
    let tree = Tree::built("play-dashes");
    tree.0.put("--help", "");
    let said = tree.play(&["--", "--help"]);
    assert_eq!((said.status, said.err.as_str()), (Some(0), ""));
    assert_eq!(said.out, "played\n<-->\n<--help>\n");
}

#[test]
fn it_works_by_a_link_and_with_cdpath() {
    let tree = Tree::built("play-link");
    symlink("tree/play", tree.0.path("link")).unwrap();
    fs::create_dir(tree.0.path("elsewhere")).unwrap();
    symlink("../link", tree.0.path("elsewhere/link of a link")).unwrap();
    tree.0.put("here.desk", "");
    for name in ["link", "elsewhere/link of a link", "tree/play"] {
        // Called by bash and a relative name, as `bash tree/play` does.
        let mut command = tree.command(Path::new("bash"));
        command
            .args([name, "here.desk"])
            .env("CDPATH", tree.0.root());
        let said = said(command);
        assert_eq!((said.status, said.err.as_str()), (Some(0), ""), "{}", name);
        assert_eq!(said.out, "played\n<here.desk>\n");
    }
}

fn started(tree: &Tree) -> Child {
    tree.command(&tree.0.path("tree/play"))
        .stdout(Stdio::piped())
        .stderr(Stdio::piped())
        .spawn()
        .expect("a script can be started")
}

#[test]
fn two_at_once_prove_once_and_both_play() {
    let tree = Tree::new("play-two");
    let both = [started(&tree), started(&tree)];
    for play in both {
        let output = play.wait_with_output().unwrap();
        let err = String::from_utf8_lossy(&output.stderr).into_owned();
        assert!(output.status.success(), "{}", err);
        assert!(output.stdout.starts_with(b"played\n"), "{}", err);
    }
    assert!(tree.0.path("tree/target/staticlib/libzelezmut.a").is_file());
    assert_eq!(tree.log().matches("rt lib\n").count(), 1);
}

#[test]
fn a_library_that_was_not_finished_is_not_left() {
    let tree = Tree::new("play-unfinished");
    tree.0.put(
        "kit/rt",
        "#!/bin/sh\nmkdir -p target/staticlib\n: >target/staticlib/libzelezmut.a\nexit 1\n",
    );
    let said = tree.play(&[]);
    assert_eq!((said.status, said.out.as_str()), (Some(2), ""));
    assert!(!tree.0.path("tree/target/staticlib/libzelezmut.a").exists());
}

/// Root may write everywhere, so there it is played as nobody.
#[test]
fn a_tree_that_is_built_and_cannot_be_written_is_played() {
    let tree = Tree::built("play-read-only");
    let unwritable = |on: bool| {
        let mode = if on { "a-w" } else { "u+w" };
        let status = Command::new("chmod")
            .args(["-R", mode])
            .arg(tree.0.path("tree"))
            .status();
        assert!(status.unwrap().success());
    };
    unwritable(true);
    let whoami = said(Command::new("whoami"));
    let played = if whoami.out == "root\n" {
        let mut command = tree.command(Path::new("setpriv"));
        command
            .args(["--reuid=65534", "--regid=65534", "--clear-groups"])
            .arg(tree.0.path("tree/play"));
        said(command)
    } else {
        tree.play(&[])
    };
    unwritable(false);
    assert_eq!((played.status, played.err.as_str()), (Some(0), ""));
    assert!(played.out.starts_with("played\n"));
    assert_eq!(tree.log(), "");
}
