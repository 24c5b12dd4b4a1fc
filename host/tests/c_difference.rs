//! The C header's calls for the difference of two streams: a C program that walks over all packets, built with the library, and run.
mod project;

use project::{c_compiler, library_folder, said, started, Folder};
use std::fmt::Write as _;
use std::fs;
use std::path::Path;
use zelezmut::diff::{Class, Difference};
use zelezmut::guest::{self, Packet};

const WALK: &str = r#"
#include <stdio.h>
#include "zelezmut.h"

static size_t read_all(const char *name, uint8_t *bytes, size_t most) {
    FILE *file = fopen(name, "rb");
    size_t length = file ? fread(bytes, 1, most, file) : 0;
    if (file) fclose(file);
    return length;
}

int main(int count, char **names) {
    static uint8_t first[65536], second[65536];
    uint64_t cursor[2], pair[5], said;
    if (count != 3 || zelezmut_layout() != ZELEZMUT_LAYOUT) return 2;
    size_t a = read_all(names[1], first, sizeof first), b = read_all(names[2], second, sizeof second);
    uint32_t answer = zelezmut_difference_start(first, a, second, b, cursor, &said);
    if (answer != ZELEZMUT_FOUND) return printf("refused %u %u\n", (unsigned)answer, (unsigned)said), 0;
    for (unsigned index = 0;; index++) {
        zelezmut_difference_pair(first, a, second, b, cursor, pair);
        if (pair[0] == ZELEZMUT_NEITHER) return 0;
        if (zelezmut_difference_class(first, a, second, b, index, &said) != ZELEZMUT_FOUND || said != pair[0]) return 3;
        printf("%u:", (unsigned)pair[0]);
        for (uint64_t from = 0;; from = said + 1) {
            uint64_t asked;
            answer = zelezmut_difference_pair_next(first, a, second, b, cursor, from, &said);
            if (zelezmut_difference_next(first, a, second, b, index, from, &asked) != answer || asked != said) return 4;
            if (answer == ZELEZMUT_NONE) break;
            printf(" %u", (unsigned)said);
        }
        putchar('\n');
        zelezmut_difference_onward(first, a, second, b, cursor);
    }
}
"#;

/// What the program prints, told by the crate.
fn walked(first: &[u8], second: &[u8]) -> String {
    let difference = match Difference::of(first, second) {
        Ok(difference) => difference,
        Err(refused) => {
            return format!(
                "refused {} {}\n",
                refused.error.number(),
                refused.stream.number()
            )
        }
    };
    let mut text = String::new();
    for pair in difference.pairs() {
        write!(text, "{}:", pair.class.number()).expect("text");
        for offset in pair.offsets() {
            write!(text, " {}", offset).expect("text");
        }
        text.push('\n');
    }
    text
}

fn text(path: &Path) -> String {
    path.to_str().expect("a path of text").to_string()
}

/// The walk, built with the library.
fn built(folder: &Folder) -> String {
    folder.put("walk.c", WALK);
    let [source, program] = ["walk.c", "walk"].map(|name| text(&folder.path(name)));
    let library = text(&Path::new(&library_folder()).join("libzelezmut.a"));
    let mut compiler = c_compiler();
    compiler
        .current_dir(env!("CARGO_MANIFEST_DIR"))
        .args(["-std=c99", "-Wall", "-Wextra", "-Wpedantic", "-Werror"])
        .args(["-Iinclude", &source, &library, "-o", &program]);
    let built = said(compiler);
    assert!(built.good(), "{}", built.all);
    program
}

#[test]
fn a_walk_in_c_is_a_walk_in_rust() {
    let folder = Folder::new("c-difference");
    let program = built(&folder);
    let destroy = |handle| Packet::Destroy { handle };
    let [one, two] = [destroy(1).to_bytes(), destroy(2).grown(&[5])];
    let first = guest::stream_of(&[one, two, destroy(3).to_bytes()]);
    let target = Packet::Target { handle: 3 };
    let second = guest::stream(&[destroy(1), destroy(0x0102), target, destroy(4)]);
    let (empty, nothing) = (guest::stream(&[]), Vec::new());
    let mut cut = first.clone();
    cut[28] = 4;
    for (first, second, expected) in [
        (&first, &second, "0:\n1: 4 9 16 17 18 19\n2:\n4:\n"),
        (&second, &first, "0:\n1: 4 9 16 17 18 19\n2:\n3:\n"),
        (&first, &first, "0:\n0:\n0:\n"),
        (&empty, &empty, ""),
        (&first, &nothing, "refused 16 2\n"),
        (&cut, &nothing, "refused 17 1\n"),
    ] {
        let files = ["one", "other"].map(|name| folder.path(name));
        for (file, stream) in files.iter().zip([first, second]) {
            fs::write(file, stream).expect("a file can be written");
        }
        let mut walk = started(Path::new(&program));
        walk.args(&files);
        let walk = said(walk);
        assert_eq!((walk.status, walk.all.as_str()), (Some(0), expected));
        assert_eq!(walked(first, second), expected);
    }
}

#[test]
fn the_header_has_the_numbers_of_the_classes() {
    let header = include_str!("../include/zelezmut.h");
    for class in Class::ALL {
        let name = format!(" ZELEZMUT_{} = ", class.to_string().to_uppercase());
        let behind = header.split(&name).nth(1).expect("its name");
        let number = format!("{}", class.number());
        assert!(behind.starts_with(&number), "{}", name);
    }
}
