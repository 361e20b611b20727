//! Links `libiox2sd.a`, from the folder that `IOX2SD_LIB_DIR` names, or else from where
//! `bindings/build.sh`, `bindings/install.sh` or `bindings/package.sh` puts it. Where it is missing,
//! `cargo check` and `cargo doc` pass, and what links says that it is.

use std::env;
use std::path::PathBuf;
use std::process::exit;

const ARCHIVE: &str = "libiox2sd.a";

/// What the library is built for, by the variables of cargo that say what is built here.
const TARGET: [(&str, &str); 3] = [
    ("CARGO_CFG_TARGET_ARCH", "x86_64"),
    ("CARGO_CFG_TARGET_OS", "linux"),
    ("CARGO_CFG_TARGET_POINTER_WIDTH", "64"),
];

/// The folders of the archive, seen from this crate's: in the repository, where it is installed, and
/// in the packed crate.
const FOLDERS: [&str; 3] = ["../out", "../../../lib", "."];

/// Why a target is refused, whose variables of cargo are given.
pub(crate) fn refusal(variable: impl Fn(&str) -> Option<String>) -> Option<String> {
    let other = |(name, needed): &&(&str, &str)| variable(name).as_deref() != Some(*needed);
    TARGET.iter().find(other).map(|(name, needed)| {
        let found = variable(name).unwrap_or_default();
        format!("libiox2sd is built for x86-64 Linux alone: {name} is {found:?}, not {needed:?}")
    })
}

fn folder() -> PathBuf {
    if let Some(named) = env::var_os("IOX2SD_LIB_DIR") {
        return named.into();
    }
    let own = PathBuf::from(env::var_os("CARGO_MANIFEST_DIR").unwrap());
    let folders = FOLDERS.map(|folder| own.join(folder));
    let has_it = |folder: &&PathBuf| folder.join(ARCHIVE).is_file();
    folders.iter().find(has_it).unwrap_or(&folders[0]).clone()
}

fn main() {
    if let Some(refusal) = refusal(|name| env::var(name).ok()) {
        eprintln!("{refusal}");
        exit(1);
    }
    println!("cargo:rerun-if-env-changed=IOX2SD_LIB_DIR");
    let folder = folder();
    let archive = folder.join(ARCHIVE);
    println!("cargo:rerun-if-changed={}", archive.display());
    if !archive.is_file() {
        println!(
            "cargo:warning={} is missing, so nothing can be linked: run bindings/build.sh of \
             service_descriptions, which makes the library, or set IOX2SD_LIB_DIR to its folder",
            archive.display()
        );
    }
    println!("cargo:rustc-link-search=native={}", folder.display());
    println!("cargo:rustc-link-lib=static=iox2sd");
}
