//! The crate as a user has it: a folder in a workspace that is not ours, built by cargo as a user builds it, with no network.
mod project;

use project::{build, said, Folder};

const EMULATOR: &str = r#"
use zelezmut::{registers, Desk};

fn main() {
    let desk = Desk::new(4096);
    println!("version {}", desk.read(registers::VERSION).unwrap());
}
"#;

#[test]
fn a_workspace_with_the_project_as_a_folder_builds() {
    let folder = Folder::new("users-workspace");
    let workspace = "[workspace]\nresolver = \"2\"\nmembers = [\"emulator\"]\n";
    folder.put("Cargo.toml", workspace);
    folder.put_emulator("emulator", EMULATOR);

    let built = build(&folder, &["build", "--package", "emulator"]);
    assert!(built.good(), "{}", built.all);
    assert!(!built.all.contains("warning"), "{}", built.all);
    assert_eq!(said(folder.program("emulator")).all, "version 65539\n");
}
