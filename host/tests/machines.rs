//! The library is code for one kind of machine: a build for any other is refused in words, before anything is linked.
mod project;

use project::{cargo, said, Folder};

#[test]
fn a_program_for_another_machine_is_refused_in_words() {
    let folder = Folder::new("machines");
    folder.copy_project("zelezmut");
    for target in [
        "aarch64-unknown-linux-gnu",
        // Other sizes of pointers, and other rules for calls.
        "i686-unknown-linux-gnu",
        "x86_64-unknown-linux-gnux32",
        "x86_64-pc-windows-gnu",
        "x86_64-apple-darwin",
    ] {
        let built = said(cargo(&folder.path("zelezmut/host"), target, &["check"]));
        assert!(!built.good());
        let words = format!(
            "zelezmut: the proved front is code for 64-bit Linux on x86-64 and cannot be linked into a program for {}.",
            target
        );
        assert!(built.all.contains(&words), "{}", built.all);
    }
}
