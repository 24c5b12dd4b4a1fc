//! The C header and its example: built by a C compiler with the library, and run.
mod project;

use project::{c_compiler, library_folder, said, started, Folder, Said};
use std::path::Path;
use zelezmut::NotCounted;
use zelezmut::{BadFile, Form, Refused, LONGEST_SAVED_DESK};

/// Calls the C compiler, with every warning an error.
fn compile(words: &[&str]) -> Said {
    let mut compiler = c_compiler();
    compiler
        .current_dir(env!("CARGO_MANIFEST_DIR"))
        .args(["-Wall", "-Wextra", "-Wpedantic", "-Werror", "-Iinclude"])
        .args(words);
    said(compiler)
}

#[test]
fn the_c_example_plays_a_submission() {
    let folder = Folder::new("c-header");
    let program = folder.path("submission");
    let library = Path::new(&library_folder()).join("libzelezmut.a");
    let built = compile(&[
        "-std=c99",
        "examples/submission.c",
        library.to_str().expect("a path of text"),
        "-o",
        program.to_str().expect("a path of text"),
    ]);
    assert!(built.good(), "{}", built.all);
    let played = said(started(&program));
    assert_eq!(
        played.all,
        "write 0\nwrite 0\nwrite 0\nwrite 0\n\
         run 0 4 waiting\n\
         record 0: kind 1, handle 1, id 5, 256 bytes at 8256\n\
         record 1: kind 2, handle 1, id 5, 32 bytes at 8272\n\
         answer 0 1 idle\n\
         fence 1\n\
         save 0, 144 bytes\n\
         load 7, byte 140\n\
         move 0, 156 bytes\n\
         load 0\n\
         fence 1\n"
    );
    assert_eq!(played.status, Some(0));
}

#[test]
fn the_c_example_lists_a_stream() {
    let folder = Folder::new("c-listing");
    let program = folder.path("listing");
    let library = Path::new(&library_folder()).join("libzelezmut.a");
    let built = compile(&[
        "-std=c99",
        "examples/listing.c",
        library.to_str().expect("a path of text"),
        "-o",
        program.to_str().expect("a path of text"),
    ]);
    assert!(built.good(), "{}", built.all);
    let listed = said(started(&program));
    assert_eq!(
        listed.all,
        "dump 6, 0 bytes\n\
         dump 0, 150 bytes\n\
         0x00000018 CreateBuffer size_bytes=40 handle=1 size=256 backing_id=5 backing_offset=64\n\
         0x00000040 DirtyRange size_bytes=32 handle=1 offset=16 size=32\n"
    );
    assert_eq!(listed.status, Some(0));
}

/// A library of another layout: one more version, nothing else.
const OTHER_LAYOUT: &str = "#include \"zelezmut.h\"\n\
    uint64_t zelezmut_layout(void) { return ZELEZMUT_LAYOUT + (UINT64_C(1) << 60); }\n";

#[test]
fn the_c_example_tells_a_library_of_another_layout() {
    let folder = Folder::new("c-layout");
    folder.put("other.c", OTHER_LAYOUT);
    let [other, program] = ["other.c", "submission"].map(|name| folder.path(name));
    let library = Path::new(&library_folder()).join("libzelezmut.a");
    let text = |path: &Path| path.to_str().expect("a path of text").to_string();
    // The first of two that the linker meets counts.
    let built = compile(&[
        "examples/submission.c",
        &text(&other),
        &text(&library),
        "-Wl,--allow-multiple-definition",
        "-o",
        &text(&program),
    ]);
    assert!(built.good(), "{}", built.all);
    let played = said(started(&program));
    assert!(played.all.starts_with("the library has layout 0x"));
    assert!(played.all.ends_with(": build the two from one tree\n"));
    assert_eq!(played.status, Some(1));
}

/// An array of one byte if the numbers are the same, else of a length that no array has.
const LONGEST: &str = "#include \"zelezmut.h\"\n\
    typedef char longest[ZELEZMUT_LONGEST_SAVED == LONGEST ? 1 : -1];\n\
    typedef char longest_form_1[ZELEZMUT_LONGEST_FORM_1 == LONGEST_FORM_1 ? 1 : -1];\n";

#[test]
fn the_header_has_the_length_of_the_longest_file() {
    let folder = Folder::new("c-longest");
    for (length, good) in [(LONGEST_SAVED_DESK, true), (LONGEST_SAVED_DESK + 1, false)] {
        folder.put("longest.c", LONGEST);
        let [source, object] = ["longest.c", "longest.o"].map(|name| folder.path(name));
        let built = compile(&[
            &format!("-DLONGEST={}", length),
            &format!("-DLONGEST_FORM_1={}", Form::One.longest()),
            "-c",
            source.to_str().expect("a path of text"),
            "-o",
            object.to_str().expect("a path of text"),
        ]);
        assert_eq!(built.good(), good, "{}", built.all);
    }
}

/// The numbers of the call answers are those that refusals have in Rust.
#[test]
fn the_header_has_the_call_answers() {
    let header = include_str!("../include/zelezmut.h");
    for (refused, name) in [
        (Refused::OtherMemory, "OTHER_MEMORY"),
        (Refused::NoRegister, "NO_REGISTER"),
        (Refused::NothingWaits, "NOTHING_WAITS"),
        (Refused::NoRecord, "NO_RECORD"),
        (Refused::InWork, "IN_WORK"),
        (Refused::TooShort, "TOO_SHORT"),
        (Refused::NotInForm, "NOT_IN_FORM"),
    ] {
        let number = number_behind(header, &format!(" ZELEZMUT_{} = ", name));
        assert_eq!(Some(number as u32), refused.number(), "{}", name);
    }
    let bad = BadFile::GoesOn { place: 96 }.number();
    assert_eq!(number_behind(header, " ZELEZMUT_BAD_FILE = "), bad.into());
}

/// Those of a month, likewise.
#[test]
fn the_header_has_the_answers_of_a_month() {
    let header = include_str!("../include/zelezmut.h");
    for (refused, name) in [
        (NotCounted::TooMuch, "TOO_MUCH"),
        (NotCounted::BadFeed, "BAD_FEED"),
    ] {
        let number = number_behind(header, &format!(" ZELEZMUT_{} = ", name));
        assert_eq!(number as u32, refused.number(), "{}", name);
    }
}

/// The number that stands behind these words.
fn number_behind(text: &str, words: &str) -> u64 {
    let behind = text
        .split(words)
        .nth(1)
        .unwrap_or_else(|| panic!("{}", words));
    let digits: String = behind.chars().take_while(char::is_ascii_digit).collect();
    digits.parse().unwrap_or_else(|_| panic!("{}", words))
}

/// What stands before each size, in Rust and in C.
const SIZES: [(&str, &str); 8] = [
    (
        "const LAYOUT_VERSION: u64 = ",
        "define ZELEZMUT_LAYOUT_VERSION ",
    ),
    ("const MOST: usize = ", "define ZELEZMUT_MOST "),
    ("type Words = [u64; ", "define ZELEZMUT_WORDS "),
    (
        "const ENTRY_WORDS: usize = ",
        "define ZELEZMUT_ENTRIES (ZELEZMUT_MOST * ",
    ),
    (
        "const RESOURCE_WORDS: usize = ",
        "define ZELEZMUT_RESOURCES (ZELEZMUT_MOST * ",
    ),
    (
        "const MOST_TOKENS: usize = ",
        "define ZELEZMUT_MOST_TOKENS ",
    ),
    (
        "const TOKEN_WORDS: usize = ",
        "define ZELEZMUT_TOKENS (ZELEZMUT_MOST_TOKENS * ",
    ),
    (
        "const RECORD_WORDS: usize = ",
        "define ZELEZMUT_RECORDS (ZELEZMUT_MOST * ",
    ),
];

/// The header's sizes are those of the boundary in Rust, which the library is called by in all other tests.
#[test]
fn the_header_has_the_sizes_of_the_boundary() {
    let (state, boundary) = (
        include_str!("../src/state.rs"),
        include_str!("../src/front.rs"),
    );
    let header = include_str!("../include/zelezmut.h");
    for (rust, c) in SIZES {
        assert_eq!(
            number_behind(state, rust),
            number_behind(header, c),
            "{}",
            c
        );
    }
    for line in boundary.lines().map(str::trim_start) {
        if let Some(export) = line.strip_prefix("pub fn zelezmut_") {
            let name = export.split('(').next().expect("a name");
            assert!(header.contains(&format!(" zelezmut_{}(", name)), "{}", name);
        }
    }
}

/// The words of a month's totals likewise.
#[test]
fn the_header_has_the_size_of_a_months_totals() {
    let (rust, c) = ("type TotalsWords = [u64; ", "define ZELEZMUT_TOTALS ");
    let state = include_str!("../src/state.rs");
    let header = include_str!("../include/zelezmut.h");
    assert_eq!(number_behind(state, rust), number_behind(header, c));
}

/// It declares the exports that have a file of their own in Rust, too.
#[test]
fn the_header_has_the_exports_of_a_difference() {
    let boundary = include_str!("../src/front/difference.rs");
    let header = include_str!("../include/zelezmut.h");
    for line in boundary.lines().map(str::trim_start) {
        if let Some(export) = line.strip_prefix("pub fn zelezmut_") {
            let name = export.split('(').next().expect("a name");
            assert!(header.contains(&format!(" zelezmut_{}(", name)), "{}", name);
        }
    }
}

/// A month in C: one submission counted twice by a merge, and one refused. It exits with 0 if all is as it should be.
const MONTH: &str = r#"
#include "zelezmut.h"
int main(void) {
    uint64_t all[ZELEZMUT_TOTALS], part[ZELEZMUT_TOTALS], records[ZELEZMUT_RECORDS] = {0};
    zelezmut_month_make(all);
    zelezmut_month_make(part);
    records[0] = ZELEZMUT_WRITES;
    records[4] = 100;
    records[5] = ZELEZMUT_READS;
    records[9] = 7;
    if (zelezmut_month_feed(part, 0, 4, 2, records) != ZELEZMUT_DONE) return 1;
    if (zelezmut_month_feed(part, 27, 4, 2, records) != ZELEZMUT_BAD_FEED) return 2;
    if (zelezmut_month_feed(part, 27, 4, 0, records) != ZELEZMUT_DONE) return 3;
    if (zelezmut_month_merge(all, part) != ZELEZMUT_DONE) return 4;
    if (zelezmut_month_merge(all, part) != ZELEZMUT_DONE) return 5;
    if (zelezmut_month_total(all, ZELEZMUT_TOTAL_ACCEPTED) != 2 || zelezmut_month_total(all, 27 - 9) != 2) return 6;
    if (zelezmut_month_total(all, ZELEZMUT_TOTAL_UNITS) != 16) return 7;
    if (zelezmut_month_total(all, ZELEZMUT_TOTAL_BYTES_READ) != 14) return 8;
    if (zelezmut_month_total(all, ZELEZMUT_TOTAL_BYTES_WRITTEN) != 200) return 9;
    if (zelezmut_month_total(all, ZELEZMUT_TOTAL_LARGEST_WRITE) != 100) return 10;
    all[ZELEZMUT_TOTAL_UNITS] = UINT64_MAX;
    return zelezmut_month_merge(all, part) == ZELEZMUT_TOO_MUCH ? 0 : 11;
}
"#;

#[test]
fn a_month_is_counted_in_c() {
    let folder = Folder::new("c-month");
    folder.put("month.c", MONTH);
    let [source, program] = ["month.c", "month"].map(|name| folder.path(name));
    let library = Path::new(&library_folder()).join("libzelezmut.a");
    let built = compile(&[
        "-std=c99",
        source.to_str().expect("a path of text"),
        library.to_str().expect("a path of text"),
        "-o",
        program.to_str().expect("a path of text"),
    ]);
    assert!(built.good(), "{}", built.all);
    let counted = said(started(&program));
    assert_eq!((counted.status, counted.all.as_str()), (Some(0), ""));
}
