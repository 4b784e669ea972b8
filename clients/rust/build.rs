//! Links the C library's archive, and the kit's archive that calls `malloc`, `realloc` and `free`.

use std::env;
use std::path::{Path, PathBuf};

const ARCHIVE: &str = "librudzkvano_c.a";
const HEAP: &str = "liblibc_c.a";

fn main() {
    println!("cargo::rerun-if-env-changed=RUDZKVANO_LIBRARY_DIR");
    println!("cargo::rerun-if-env-changed=PATH");
    let library = env::var_os("RUDZKVANO_LIBRARY_DIR").map_or_else(repository, PathBuf::from);
    assert!(
        library.join(ARCHIVE).is_file(),
        "there is no {ARCHIVE} in {}: run clients/build, or set RUDZKVANO_LIBRARY_DIR",
        library.display()
    );
    let heap = [Some(library.clone()), kit()]
        .into_iter()
        .flatten()
        .find(|folder| folder.join(HEAP).is_file())
        .unwrap_or_else(|| panic!("there is no {HEAP} beside {ARCHIVE}, nor a kit in PATH that has it"));
    link(&library, "rudzkvano_c", ARCHIVE);
    link(&heap, "libc_c", HEAP);
}

/// Where `clients/build` leaves the archive.
fn repository() -> PathBuf {
    Path::new(env!("CARGO_MANIFEST_DIR")).join("../../crates/rudzkvano_c/out")
}

/// The folder of the kit's archives, which is told by the place of its command `rt`.
fn kit() -> Option<PathBuf> {
    let path = env::var_os("PATH")?;
    let command = env::split_paths(&path).map(|folder| folder.join("rt")).find(|command| command.is_file())?;
    Some(command.canonicalize().ok()?.parent()?.parent()?.join("c"))
}

fn link(folder: &Path, name: &str, file: &str) {
    println!("cargo::rerun-if-changed={}", folder.join(file).display());
    println!("cargo::rustc-link-search=native={}", folder.display());
    println!("cargo::rustc-link-lib=static={name}");
}
