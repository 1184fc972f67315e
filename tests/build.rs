//! Links the static library when one of the library features is on, and an earlier archive
//! of it for the benchmark when the feature `earlier` is; otherwise does nothing.

use std::env;
use std::path::{Path, PathBuf};
use std::process::{exit, Command};

const ARCHIVE: &str = "libbivamolune.a";

fn main() {
    if env::var_os("CARGO_FEATURE_LINK").is_some() {
        let folder = library_folder();
        require(&folder, "run `.ci/archive`, or set BIVAMOLUNE_LIB_DIR");
        link(&folder, "bivamolune");
        let archive = folder.join(ARCHIVE);
        println!("cargo:rustc-env=BIVAMOLUNE_ARCHIVE={}", archive.display());
    }
    if env::var_os("CARGO_FEATURE_EARLIER").is_some() {
        let folder = folder_of("BIVAMOLUNE_EARLIER_DIR").unwrap_or_default();
        require(
            &folder,
            "set BIVAMOLUNE_EARLIER_DIR to the folder of an earlier one",
        );
        link(&renamed(&folder), "bivamolune_earlier");
    }
    println!("cargo:rerun-if-changed=build.rs");
    println!("cargo:rerun-if-env-changed=BIVAMOLUNE_LIB_DIR");
    println!("cargo:rerun-if-env-changed=BIVAMOLUNE_EARLIER_DIR");
}

/// The folder named by the environment, or else `../target/staticlib` beside the package.
fn library_folder() -> PathBuf {
    let package = folder_of("CARGO_MANIFEST_DIR").unwrap_or_default();
    folder_of("BIVAMOLUNE_LIB_DIR").unwrap_or_else(|| package.join("../target/staticlib"))
}

fn folder_of(variable: &str) -> Option<PathBuf> {
    env::var_os(variable).map(PathBuf::from)
}

fn link(folder: &Path, name: &str) {
    println!("cargo:rustc-link-search=native={}", folder.display());
    println!("cargo:rustc-link-lib=static={name}");
}

/// Stops with one line where the folder has no archive.
fn require(folder: &Path, what_to_do: &str) {
    let archive = folder.join(ARCHIVE);
    if !archive.is_file() {
        stop(&format!("{} is missing: {what_to_do}", archive.display()));
    }
    println!("cargo:rerun-if-changed={}", archive.display());
}

/// A copy of the archive in which deliver has a name of its own and nothing else is seen.
fn renamed(folder: &Path) -> PathBuf {
    let out = folder_of("OUT_DIR").unwrap_or_default();
    let objcopy = Command::new("objcopy")
        .arg("--redefine-sym=bivamolune_deliver=earlier_bivamolune_deliver")
        .arg("--keep-global-symbol=earlier_bivamolune_deliver")
        .arg(folder.join(ARCHIVE))
        .arg(out.join("libbivamolune_earlier.a"))
        .status();
    match objcopy {
        Ok(status) if status.success() => out,
        _ => stop("objcopy cannot rename the earlier archive's functions"),
    }
}

fn stop(why: &str) -> ! {
    eprintln!("bivamolune: {why}");
    exit(1)
}
