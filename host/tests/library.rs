//! Where the library is looked for, and what is said and still works where it is missing.
mod project;

use project::{cargo, library_folder, said, Folder, Said, LIBRARY_VARIABLE, TARGET};
use std::fs;
use std::path::Path;

/// Calls cargo in a user's folder for a copy of the project below it.
fn call(folder: &Folder, library: Option<&str>, words: &[&str]) -> Said {
    let mut command = cargo(folder.root(), TARGET, words);
    command.args(["--manifest-path", "zelezmut/host/Cargo.toml", "--lib"]);
    match library {
        Some(named) => command.env(LIBRARY_VARIABLE, named),
        None => command.env_remove(LIBRARY_VARIABLE),
    };
    said(command)
}

fn missing_in(folder: &Path) -> String {
    format!(
        "the proved front is missing: there is no libzelezmut.a in {}, ",
        folder.display()
    )
}

#[test]
fn a_missing_library_is_a_warning_until_something_is_linked() {
    let folder = Folder::new("missing-library");
    folder.copy_project("zelezmut");
    let own = missing_in(&folder.path("zelezmut/target/staticlib"));

    let checked = call(&folder, None, &["check"]);
    assert!(checked.good(), "{}", checked.all);
    assert!(checked.all.contains(&own), "{}", checked.all);
    // An empty name is none.
    let documented = call(&folder, Some(""), &["doc"]);
    assert!(documented.good(), "{}", documented.all);
    assert!(documented.all.contains(&own), "{}", documented.all);

    let built = call(&folder, Some(""), &["build"]);
    assert!(!built.good());
    assert!(built.all.contains(&own), "{}", built.all);
    let error = "could not find native static library `zelezmut`";
    assert!(built.all.contains(error), "{}", built.all);
}

#[test]
fn a_relative_folder_is_one_below_where_cargo_was_started() {
    let folder = Folder::new("relative-library");
    folder.copy_project("zelezmut");
    fs::create_dir(folder.path("proved")).unwrap();

    let checked = call(&folder, Some("proved"), &["check"]);
    assert!(checked.good(), "{}", checked.all);
    // Cargo's own folder counts, whatever PWD says: see `cargo` of these tests.
    let there = missing_in(&folder.path("proved"));
    assert!(checked.all.contains(&there), "{}", checked.all);

    let library = Path::new(&library_folder()).join("libzelezmut.a");
    fs::copy(library, folder.path("proved/libzelezmut.a")).unwrap();
    let built = call(&folder, Some("proved"), &["build"]);
    assert!(built.good(), "{}", built.all);
    assert!(!built.all.contains("missing"), "{}", built.all);
}
