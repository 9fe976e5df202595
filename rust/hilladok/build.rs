//! Finds the archive libhilladok.a: in the folder that HILLADOK_LIB_DIR names, else in target/ of the repository, else the
//! repository's script `archive` makes it there. Where none of these can be, the build fails with one line that says why.

use std::env;
use std::path::{Path, PathBuf};
use std::process::{exit, Command, Stdio};

const ARCHIVE: &str = "libhilladok.a";
const VARIABLE: &str = "HILLADOK_LIB_DIR";

fn main() {
    println!("cargo:rerun-if-changed=build.rs");
    println!("cargo:rerun-if-env-changed={VARIABLE}");
    match supported().and_then(|()| folder()) {
        Ok(folder) => {
            println!("cargo:rerun-if-changed={}", folder.join(ARCHIVE).display());
            println!("cargo:rustc-link-search=native={}", folder.display());
            println!("cargo:rustc-link-lib=static=hilladok");
        }
        Err(why) => {
            eprintln!("hilladok: {why}");
            exit(1);
        }
    }
}

fn supported() -> Result<(), String> {
    let target = |part| env::var(part).unwrap_or_default();
    match (
        &*target("CARGO_CFG_TARGET_ARCH"),
        &*target("CARGO_CFG_TARGET_OS"),
    ) {
        ("x86_64", "linux") => Ok(()),
        (arch, os) => Err(format!(
            "the archive is for x86_64 linux, not for {arch} {os}"
        )),
    }
}

fn folder() -> Result<PathBuf, String> {
    if let Some(named) = env::var_os(VARIABLE).map(PathBuf::from) {
        return match named.canonicalize() {
            Ok(whole) if has_archive(&whole) => Ok(whole),
            _ => Err(format!(
                "{VARIABLE} names a folder without {ARCHIVE}: {}",
                named.display()
            )),
        };
    }
    let top = repository()?;
    let made = top.join("target");
    if !has_archive(&made) {
        make_archive(&top)?;
    }
    match has_archive(&made) {
        true => Ok(made),
        false => Err(format!(
            "the script `archive` made no {ARCHIVE} in {}",
            made.display()
        )),
    }
}

fn has_archive(folder: &Path) -> bool {
    folder.join(ARCHIVE).is_file()
}

/// The top folder of the repository that this crate stands in.
fn repository() -> Result<PathBuf, String> {
    let here = env::var_os("CARGO_MANIFEST_DIR")
        .map(PathBuf::from)
        .unwrap_or_default();
    let top = here
        .ancestors()
        .nth(2)
        .filter(|top| top.join("crates.txt").is_file());
    top.map(Path::to_path_buf).ok_or_else(|| {
        format!(
            "this crate stands outside its repository: let {VARIABLE} name the folder of {ARCHIVE}"
        )
    })
}

fn make_archive(top: &Path) -> Result<(), String> {
    let script = top.join("archive");
    let made = Command::new(&script).stdin(Stdio::null()).output();
    match made {
        Ok(output) if output.status.success() => Ok(()),
        _ => Err(format!(
            "no {ARCHIVE}, and {} fails: run it to see why, or let {VARIABLE} name the archive's folder",
            script.display()
        )),
    }
}
