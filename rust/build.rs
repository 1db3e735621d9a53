//! Finds the library: the archive that `DRUMCALLISTO_LIBRARY` names, or the one that `make rust` leaves in the repository.

use std::env;
use std::path::{Path, PathBuf};
use std::process::exit;

const VARIABLE: &str = "DRUMCALLISTO_LIBRARY";

fn main() {
    println!("cargo:rerun-if-env-changed={VARIABLE}");
    let archive = archive().unwrap_or_else(|problem| stop(&problem));
    if !archive.is_file() {
        stop(&format!("there is no library at {}: make rust builds it, or {VARIABLE} names it", archive.display()));
    }
    let name = name(&archive).unwrap_or_else(|| stop(&format!("{} is not named lib*.a", archive.display())));
    let folder = archive.parent().unwrap_or_else(|| Path::new("."));
    println!("cargo:rerun-if-changed={}", archive.display());
    println!("cargo:rustc-link-search=native={}", folder.display());
    println!("cargo:rustc-link-lib=static={name}");
}

fn archive() -> Result<PathBuf, String> {
    if let Some(named) = env::var_os(VARIABLE) {
        return Path::new(&named).canonicalize().map_err(|error| format!("{VARIABLE} names {}: {error}", named.to_string_lossy()));
    }
    // The toolchain makes the library for x86-64 alone. Who names another archive is believed.
    if env::var("CARGO_CFG_TARGET_ARCH").as_deref() != Ok("x86_64") {
        return Err("the library is for x86-64: build with --target x86_64-unknown-linux-gnu".to_string());
    }
    let here = env::var_os("CARGO_MANIFEST_DIR").ok_or("cargo has not said where the crate is")?;
    Ok(Path::new(&here).join("../target/staticlib/libdesk.a"))
}

/// `desk` of `libdesk.a`.
fn name(archive: &Path) -> Option<String> {
    Some(archive.file_name()?.to_str()?.strip_prefix("lib")?.strip_suffix(".a")?.to_string())
}

fn stop(problem: &str) -> ! {
    eprintln!("{problem}");
    exit(1)
}
