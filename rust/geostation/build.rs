//! Finds the library that `c/build PREFIX` built: under `GEOSTATION_PREFIX`, or with pkg-config,
//! for which `PKG_CONFIG_PATH` may name the folder of `geostation.pc`. The static library is
//! linked, so a program needs no other file. With `GEOSTATION_SHARED=1` the shared library is
//! linked.
//!
//! A library of another version or ABI is rejected, because its structs may differ from those of
//! this crate.

use std::env;
use std::fs;
use std::path::{Path, PathBuf};
use std::process::Command;

#[path = "src/abi.rs"]
mod abi;

/// The folders of an installed library.
struct Folders {
    /// The folder of the library, with `pkgconfig/geostation.pc`.
    libraries: PathBuf,
    /// The folder of `geostation.h`.
    headers: PathBuf,
}

fn main() {
    for name in ["GEOSTATION_PREFIX", "GEOSTATION_SHARED", "PKG_CONFIG_PATH"] {
        println!("cargo:rerun-if-env-changed={name}");
    }
    let folders = find_folders();
    let shared = env::var_os("GEOSTATION_SHARED").is_some_and(|value| value == "1");
    let (kind, file) =
        if shared { ("dylib", "libgeostation.so") } else { ("static", "libgeostation.a") };
    let library = folders.libraries.join(file);
    assert!(library.is_file(), "there is no {}: build it with 'c/build PREFIX'", library.display());
    check_version(&folders.libraries);
    check_header(&folders.headers);
    if shared {
        check_shared(&library);
    }
    println!("cargo:rerun-if-changed={}", library.display());
    println!("cargo:rustc-link-search=native={}", folders.libraries.display());
    println!("cargo:rustc-link-lib={kind}=geostation");
}

/// Rejects a library of another version.
fn check_version(folder: &Path) {
    let file = folder.join("pkgconfig/geostation.pc");
    let text = fs::read_to_string(&file).unwrap_or_default();
    let version = text.lines().find_map(|line| line.strip_prefix("Version: "));
    let own = env!("CARGO_PKG_VERSION");
    assert!(
        version == Some(own),
        "{} is version {}, but this crate needs {own}",
        file.display(),
        version.unwrap_or("none")
    );
}

/// Rejects a library whose header has another ABI.
fn check_header(folder: &Path) {
    let file = folder.join("geostation.h");
    println!("cargo:rerun-if-changed={}", file.display());
    let text = fs::read_to_string(&file).unwrap_or_default();
    let number = text.lines().find_map(|line| line.strip_prefix("#define GEOSTATION_ABI "));
    check_abi(&file, number);
}

/// Rejects a shared library with another ABI: its file name ends in the number.
fn check_shared(library: &Path) {
    let file = library.canonicalize().unwrap_or_else(|_| library.to_path_buf());
    let name = file.to_string_lossy().into_owned();
    check_abi(&file, name.rsplit_once(".so.").map(|(_, number)| number));
}

/// Rejects another number than that of this crate.
fn check_abi(file: &Path, number: Option<&str>) {
    let (number, own) = (number.map_or("none", str::trim), abi::ABI);
    assert!(
        number == own.to_string(),
        "{} has ABI {number}, but this crate needs ABI {own}",
        file.display()
    );
}

/// Returns the folders of the library.
fn find_folders() -> Folders {
    if let Some(prefix) = env::var_os("GEOSTATION_PREFIX") {
        let prefix = PathBuf::from(prefix);
        return Folders { libraries: prefix.join("lib"), headers: prefix.join("include") };
    }
    Folders { libraries: ask_pkg_config("libdir"), headers: ask_pkg_config("includedir") }
}

/// Returns a variable of `geostation.pc`.
fn ask_pkg_config(variable: &str) -> PathBuf {
    let program = env::var_os("PKG_CONFIG").unwrap_or_else(|| "pkg-config".into());
    let variable = format!("--variable={variable}");
    match Command::new(program).args([variable.as_str(), "geostation"]).output() {
        Ok(answer) if answer.status.success() => {
            PathBuf::from(String::from_utf8_lossy(&answer.stdout).trim())
        }
        _ => panic!(
            "libgeostation was not found: set GEOSTATION_PREFIX to the PREFIX of 'c/build PREFIX', \
             or PKG_CONFIG_PATH to its lib/pkgconfig"
        ),
    }
}
