//! Finds `libfoamlattice.a`, the proved library, or has it made, and tells cargo to link it. Where neither can be done the build
//! ends with a message that says what to do.

use std::env;
use std::path::{Path, PathBuf};
use std::process::Command;

const ARCHIVE: &str = "libfoamlattice.a";

fn main() {
    if let Err(message) = link() {
        println!("cargo::error={message}");
    }
}

fn link() -> Result<(), String> {
    println!("cargo::rerun-if-changed=build.rs");
    println!("cargo::rerun-if-env-changed=FOAMLATTICE_LIB");
    check_target()?;
    let directory = match env::var_os("FOAMLATTICE_LIB") {
        Some(directory) => named(Path::new(&directory))?,
        None => beside()?,
    };
    println!("cargo::rerun-if-changed={}", directory.join(ARCHIVE).display());
    println!("cargo::rustc-link-search=native={}", directory.display());
    println!("cargo::rustc-link-lib=static=foamlattice");
    Ok(())
}

/// The archive has machine code of one kind.
fn check_target() -> Result<(), String> {
    let target = env::var("TARGET").unwrap_or_default();
    let fits = target.starts_with("x86_64-") && target.contains("-linux-");
    if fits {
        Ok(())
    } else {
        Err(format!("{ARCHIVE} is for x86-64 Linux, and the target is {target}"))
    }
}

/// The directory that FOAMLATTICE_LIB names.
fn named(directory: &Path) -> Result<PathBuf, String> {
    let found = directory.join(ARCHIVE).is_file();
    if !found {
        return Err(format!("there is no {ARCHIVE} in {}, which FOAMLATTICE_LIB names", directory.display()));
    }
    directory.canonicalize().map_err(|error| format!("{}: {error}", directory.display()))
}

/// The directory of the archive in the repository that this crate stands in. Where it is missing and `rt` is on the path it is
/// proved and made, which takes minutes; one that is older than its sources is taken as it is: `tools/build foamlattice` renews it.
fn beside() -> Result<PathBuf, String> {
    let repository = Path::new(env!("CARGO_MANIFEST_DIR")).join("..");
    let directory = repository.join("target/staticlib");
    let build = repository.join("tools/build");
    if !directory.join(ARCHIVE).is_file() && build.is_file() && has_kit() {
        let status = Command::new(&build).arg("foamlattice").status();
        let status = status.map_err(|error| format!("{}: {error}", build.display()))?;
        if !status.success() {
            return Err(format!("{} foamlattice failed: {status}", build.display()));
        }
    }
    directory.join(ARCHIVE).is_file().then_some(directory).ok_or_else(|| {
        format!(
            "there is no {ARCHIVE}. Set FOAMLATTICE_LIB to the directory that has it; or put the Rattle kit (`rt`) on the path, \
             and it is proved and made in target/staticlib of the repository, as by `tools/build foamlattice`"
        )
    })
}

/// Whether `rt` is on the path.
fn has_kit() -> bool {
    env::var_os("PATH").is_some_and(|path| env::split_paths(&path).any(|directory| directory.join("rt").is_file()))
}
