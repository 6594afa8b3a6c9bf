//! Finds the static library: the file that ALARM_REGISTER_LIB names, or target/staticlib/libstation.a of the repository.
use std::env;
use std::path::{Path, PathBuf};

const VARIABLE: &str = "ALARM_REGISTER_LIB";

/// The archive that is to be linked.
fn archive() -> PathBuf {
    if let Some(named) = env::var_os(VARIABLE) {
        return PathBuf::from(named);
    }
    let here = env::var_os("CARGO_MANIFEST_DIR").expect("cargo names the folder of the crate");
    let root = Path::new(&here).ancestors().nth(2).expect("the crate lies in rust/ of the repository");
    root.join("target/staticlib/libstation.a")
}

/// The name by which the linker is told of an archive: `station` for libstation.a.
fn link_name(archive: &Path) -> Option<&str> {
    archive.file_name()?.to_str()?.strip_prefix("lib")?.strip_suffix(".a")
}

fn main() {
    let archive = archive();
    println!("cargo::rerun-if-env-changed={VARIABLE}");
    println!("cargo::rerun-if-changed={}", archive.display());
    match (archive.canonicalize(), link_name(&archive)) {
        (Ok(found), Some(name)) => {
            let folder = found.parent().expect("a file lies in a folder");
            println!("cargo::rustc-link-search=native={}", folder.display());
            println!("cargo::rustc-link-lib=static={name}");
        }
        _ => println!(
            "cargo::error=no static library at {}: make it with `make lib` at the repository's root (it runs `rt lib` in crates/station_c), \
             or give the whole path of one, lib*.a, in {VARIABLE}",
            archive.display()
        ),
    }
}
