//! Finds the static library, or builds it.
//!
//! `RANGEKEEPER_LIB_DIR` names a folder that has `librangekeeper.a`. Without it the repository that this crate stands in is asked for
//! `target/native/librangekeeper.a`, and where that is not there yet, `tools/native-lib` makes it: that proves the library first. An archive
//! that is there is taken as it is: whoever changes the library's source runs `tools/native-lib` again.

use std::env;
use std::path::{Path, PathBuf};
use std::process::Command;

const ARCHIVE: &str = "librangekeeper.a";

fn main() {
    println!("cargo:rerun-if-env-changed=RANGEKEEPER_LIB_DIR");
    println!("cargo:rerun-if-changed=build.rs");
    let folder = match env::var_os("RANGEKEEPER_LIB_DIR") {
        Some(folder) => PathBuf::from(folder),
        None => native(),
    };
    let archive = folder.join(ARCHIVE);
    if !archive.is_file() {
        panic!("{} is not there", archive.display());
    }
    println!("cargo:rerun-if-changed={}", archive.display());
    println!("cargo:rustc-link-search=native={}", folder.display());
    println!("cargo:rustc-link-lib=static=rangekeeper");
}

/// The folder of the repository's own archive, which is made for the processor of this machine.
fn native() -> PathBuf {
    let (host, target) = (variable("HOST"), variable("TARGET"));
    if host.split('-').next() != target.split('-').next() {
        panic!("no library for {target} is made on {host}: set RANGEKEEPER_LIB_DIR");
    }
    let root = Path::new(&variable("CARGO_MANIFEST_DIR")).join("../..");
    let folder = root.join("target/native");
    if !folder.join(ARCHIVE).is_file() {
        let made = Command::new(root.join("tools/native-lib")).current_dir(&root).status();
        match made {
            Ok(status) if status.success() => {}
            Ok(status) => panic!("tools/native-lib: {status}"),
            Err(error) => panic!("tools/native-lib: {error}: set RANGEKEEPER_LIB_DIR"),
        }
    }
    folder
}

fn variable(name: &str) -> String {
    env::var(name).unwrap_or_else(|_| panic!("cargo sets {name}"))
}
