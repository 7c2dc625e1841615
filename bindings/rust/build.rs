//! Links the library for C, libelfmap.a, of the folder that `ELFMAP_LIB_DIR` names, else of `lib` in
//! the packed crate, else of a release that has this crate, else of the folder where this
//! repository makes it.

use std::env;
use std::ffi::OsString;
use std::path::PathBuf;

const LIBRARY: &str = "libelfmap.a";

fn main() {
    println!("cargo:rerun-if-env-changed=ELFMAP_LIB_DIR");
    let folder = folder_of_library(env::var_os("ELFMAP_LIB_DIR"));
    println!("cargo:rerun-if-changed={}", folder.join(LIBRARY).display());
    println!("cargo:rustc-link-search=native={}", folder.display());
    println!("cargo:rustc-link-lib=static=elfmap");
}

/// The folder that has the library: no other than the one that is named, if one is.
pub fn folder_of_library(named: Option<OsString>) -> PathBuf {
    let own = PathBuf::from(env!("CARGO_MANIFEST_DIR"));
    let top = own.join("../..");
    let folders = match named {
        Some(folder) => vec![PathBuf::from(folder)],
        None => vec![
            own.join("lib"),
            top.join("lib"),
            top.join("crates/elf_c/out"),
        ],
    };
    let folder = folders.iter().find(|it| it.join(LIBRARY).is_file());
    let folder = folder.unwrap_or_else(|| panic!("{LIBRARY} is in none of {folders:?}"));
    folder.canonicalize().expect("it has the library")
}
