//! A library of another version than the crate: told in words before anything is lent to it, or not linked at all.
mod project;

use project::{build_with, c_compiler, said, Folder, Said};
use std::process::Command;

/// In place of the library: its layout is whatever number is defined, if any, and no other function may be called.
const OTHER_LIBRARY: &str = r#"
#include <stdint.h>
#include <stdlib.h>
#ifdef LAYOUT
uint64_t zelezmut_layout(void) { return LAYOUT; }
#endif
#define NEVER(name) void name(void) { exit(3); }
NEVER(zelezmut_make)
NEVER(zelezmut_write)
NEVER(zelezmut_read)
NEVER(zelezmut_run)
NEVER(zelezmut_record)
NEVER(zelezmut_answer)
NEVER(zelezmut_packed_size)
NEVER(zelezmut_table_error)
NEVER(zelezmut_table_place)
NEVER(zelezmut_load)
NEVER(zelezmut_move)
"#;

/// A host whose first call is the one that it is told.
const HOST: &str = r#"
fn main() {
    match std::env::args().nth(1).as_deref() {
        Some("make") => println!("{:?}", zelezmut::Desk::new(4096)),
        Some("size") => println!("{:?}", zelezmut::packed_size(1, 5, 3, 3, 1, 20)),
        Some("move") => println!("{:?}", zelezmut::saved::move_form(&[])),
        _ => println!("{:?}", zelezmut::table_error(&[], 64)),
    }
}
"#;

/// Makes the other library in a folder of this name.
fn put_library(folder: &Folder, name: &str, definition: &[&str]) {
    folder.put(&format!("{}/other.c", name), OTHER_LIBRARY);
    let there = folder.path(name);
    let mut compiler = c_compiler();
    compiler.current_dir(&there).args(["-c", "other.c"]);
    let compiled = said(with(compiler, definition));
    assert!(compiled.good(), "{}", compiled.all);
    let archiver = said(with(c_compiler(), &["-print-prog-name=ar"])).all;
    let mut archive = Command::new(archiver.trim());
    archive.current_dir(&there);
    let archived = said(with(archive, &["crs", "libzelezmut.a", "other.o"]));
    assert!(archived.good(), "{}", archived.all);
}

fn with(mut command: Command, words: &[&str]) -> Command {
    command.args(words);
    command
}

fn build(folder: &Folder, library: &str) -> Said {
    let words = ["build", "--manifest-path", "emulator/Cargo.toml"];
    build_with(folder, &words, folder.path(library))
}

#[test]
fn a_library_of_another_layout_is_told_and_not_called() {
    let folder = Folder::new("layout");
    folder.put_emulator("emulator", HOST);
    put_library(&folder, "newer", &["-DLAYOUT=0x7fff0201002c0140"]);
    let built = build(&folder, "newer");
    assert!(built.good(), "{}", built.all);
    for call in ["make", "size", "move", "table"] {
        let said = said(with(folder.program("emulator"), &[call]));
        assert_eq!(said.status, Some(101), "{}", said.all);
        let words = "zelezmut: the libzelezmut.a that is linked has layout 0x7fff0201002c0140, and this crate has 0x";
        assert!(said.all.contains(words), "{}", said.all);
        let advice = "they are of different versions of the project. Build the library anew,";
        assert!(said.all.contains(advice), "{}", said.all);
    }

    // One from before there was such a number.
    put_library(&folder, "oldest", &[]);
    let built = build(&folder, "oldest");
    assert!(!built.good());
    assert!(built.all.contains("zelezmut_layout"), "{}", built.all);
}

/// What such a library has beside that for hosts that list, compare and count: none of these may be called either.
const LATER_CALLS: &str = r#"
#include <stdlib.h>
#define LATER(name) void name(void) { exit(3); }
LATER(zelezmut_dump)
LATER(zelezmut_difference_check)
LATER(zelezmut_difference_start)
LATER(zelezmut_month_make)
LATER(zelezmut_month_feed)
LATER(zelezmut_month_merge)
LATER(zelezmut_month_total)
"#;

/// A host whose first call is one of those.
const LATER_HOST: &str = r#"
fn main() {
    match std::env::args().nth(1).as_deref() {
        Some("dump") => println!("{:?}", zelezmut::dump::text(&[], false)),
        Some("check") => println!("{:?}", zelezmut::diff::check(&[], &[])),
        Some("diff") => println!("{:?}", zelezmut::diff::Difference::of(&[], &[]).is_ok()),
        _ => println!("{:?}", zelezmut::Month::new()),
    }
}
"#;

#[test]
fn no_later_call_is_made_to_it_either() {
    let folder = Folder::new("layout-later");
    folder.put_emulator("emulator", LATER_HOST);
    folder.put("newer/later.h", LATER_CALLS);
    let definition = "-DLAYOUT=0x7fff0201002c0140";
    put_library(&folder, "newer", &[definition, "-include", "later.h"]);
    let built = build(&folder, "newer");
    assert!(built.good(), "{}", built.all);
    for call in ["dump", "check", "diff", "month"] {
        let said = said(with(folder.program("emulator"), &[call]));
        assert_eq!(said.status, Some(101), "{}", said.all);
        let words = "zelezmut: the libzelezmut.a that is linked has layout 0x7fff0201002c0140, and this crate has 0x";
        assert!(said.all.contains(words), "{}", said.all);
        let advice = "they are of different versions of the project. Build the library anew,";
        assert!(said.all.contains(advice), "{}", said.all);
    }
}
