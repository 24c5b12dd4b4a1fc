//! Links libzelezmut.a, the proved front, and says what to run where it is missing.
use std::env;
use std::path::{Path, PathBuf};
use std::process::exit;

const LIBRARY: &str = "libzelezmut.a";

/// Names a folder that has the library, in place of the project's own.
const FOLDER_VARIABLE: &str = "ZELEZMUT_LIB_DIR";

fn fail(message: &str) -> ! {
    eprintln!("zelezmut: {}", message);
    exit(1);
}

/// Cargo sets these for every build script.
fn from_cargo(name: &str) -> String {
    env::var(name).unwrap_or_else(|_| fail(&format!("cargo has not set {}", name)))
}

/// What the library's code is for: its calls, pointers and words are those of 64-bit Linux on x86-64, and `src/front.rs` declares
/// them so.
const MACHINE: [(&str, &str); 3] = [
    ("CARGO_CFG_TARGET_ARCH", "x86_64"),
    ("CARGO_CFG_TARGET_POINTER_WIDTH", "64"),
    ("CARGO_CFG_TARGET_OS", "linux"),
];

fn check_machine() {
    if MACHINE
        .iter()
        .any(|(name, needed)| from_cargo(name) != *needed)
    {
        fail(&format!(
            "the proved front is code for 64-bit Linux on x86-64 and cannot be linked into a program for {}.\n\
             Build for x86_64-unknown-linux-gnu. On an Arm machine such a program runs under qemu-user: ./play in the \
             project's root does both.",
            from_cargo("TARGET")
        ));
    }
}

/// Where the library is looked for, and why there.
struct Looked {
    folder: PathBuf,
    why: &'static str,
}

/// The folder that the variable names; it is empty where a shell has only half unset it.
///
/// Cargo starts this program in the crate's folder. A user's relative folder is one below the folder that cargo was started in.
fn named_folder() -> Option<Looked> {
    println!("cargo:rerun-if-env-changed={}", FOLDER_VARIABLE);
    let named = PathBuf::from(env::var_os(FOLDER_VARIABLE).filter(|named| !named.is_empty())?);
    if named.is_absolute() {
        return Some(Looked {
            folder: named,
            why: "which ZELEZMUT_LIB_DIR names",
        });
    }
    let start = start_folder().unwrap_or_else(|| {
        fail(&format!(
            "{} is a relative folder, {}, and nothing says where cargo was started. Name the whole path.",
            FOLDER_VARIABLE,
            named.display()
        ))
    });
    Some(Looked {
        folder: start.join(named),
        why: "which ZELEZMUT_LIB_DIR names, from where cargo was started",
    })
}

/// The folder that cargo was started in. PWD has it where a shell started cargo; another program may have left that as it was.
fn start_folder() -> Option<PathBuf> {
    println!("cargo:rerun-if-env-changed=PWD");
    cargos_folder().or_else(|| env::var_os("PWD").map(PathBuf::from))
}

/// Cargo is this program's parent.
#[cfg(unix)]
fn cargos_folder() -> Option<PathBuf> {
    let cargo = std::os::unix::process::parent_id();
    std::fs::read_link(format!("/proc/{}/cwd", cargo)).ok()
}

#[cfg(not(unix))]
fn cargos_folder() -> Option<PathBuf> {
    None
}

/// `host/library` writes to target/staticlib in the project's root, the folder above this crate.
fn own_folder() -> Looked {
    let here = PathBuf::from(from_cargo("CARGO_MANIFEST_DIR"));
    let root = here.parent().map(Path::to_path_buf).unwrap_or(here);
    Looked {
        folder: root.join("target").join("staticlib"),
        why: "the project's own, since ZELEZMUT_LIB_DIR names none",
    }
}

/// Checking and documenting need no library, so that it is missing is no error yet: rustc gives one when it links.
fn warn_of_missing(looked: &Looked) {
    for line in [
        format!(
            "the proved front is missing: there is no {} in {}, {}.",
            LIBRARY,
            looked.folder.display(),
            looked.why
        ),
        "Until it is there nothing can be linked. `host/library` in the project's root proves and builds it; ./play \
         there does all."
            .to_string(),
        format!(
            "If it stands in another folder, name that folder in {}.",
            FOLDER_VARIABLE
        ),
    ] {
        println!("cargo:warning={}", line);
    }
}

fn main() {
    println!("cargo:rerun-if-changed=build.rs");
    check_machine();

    let looked = named_folder().unwrap_or_else(own_folder);
    let library = looked.folder.join(LIBRARY);
    println!("cargo:rerun-if-changed={}", library.display());
    if !library.is_file() {
        warn_of_missing(&looked);
    }
    println!("cargo:rustc-link-search=native={}", looked.folder.display());
    println!("cargo:rustc-link-lib=static=zelezmut");
}
