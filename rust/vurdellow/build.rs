//! Finds the proved library: the file or folder that VURDELLOW_LIB names, or the archive of this package for the processor.

use std::env;
use std::path::{Path, PathBuf};
use std::process;

const ARCHIVE: &str = "libvurdellow.a";

fn main() {
    println!("cargo:rerun-if-env-changed=VURDELLOW_LIB");
    let given = env::var_os("VURDELLOW_LIB").map(PathBuf::from);
    let archive = match &given {
        Some(path) if path.is_dir() => path.join(ARCHIVE),
        Some(path) => path.clone(),
        None => Path::new(env!("CARGO_MANIFEST_DIR")).join("lib").join(kind()).join(ARCHIVE),
    };
    println!("cargo:rerun-if-changed={}", archive.display());
    if archive.file_name().is_none_or(|name| name != ARCHIVE) {
        fail(format!("VURDELLOW_LIB is to name {ARCHIVE} or its folder, and names {}", archive.display()));
    }
    if !archive.is_file() {
        fail(format!("there is no {}: VURDELLOW_LIB may name an archive, as the repository's ./build-lib makes it", archive.display()));
    }
    // A path without a folder is one in this package's: the whole path has a parent in any case.
    let whole = archive.canonicalize().unwrap_or_else(|e| fail(format!("{}: {e}", archive.display())));
    println!("cargo:rustc-link-search=native={}", whole.with_file_name("").display());
    println!("cargo:rustc-link-lib=static=vurdellow");
}

/// The folder with the processor's archive: one without SSE4.2 where the program is compiled for processors that may lack it.
fn kind() -> &'static str {
    let features = env::var("CARGO_CFG_TARGET_FEATURE").unwrap_or_default();
    match env::var("CARGO_CFG_TARGET_ARCH").as_deref() {
        Ok("x86_64") if features.split(',').any(|it| it == "sse4.2") => "x86_64-linux",
        Ok("x86_64") => "x86_64-linux-any",
        Ok("aarch64") => "aarch64-linux",
        other => fail(format!("there is no archive for the processor {}: VURDELLOW_LIB may name one", other.unwrap_or("?"))),
    }
}

fn fail(words: String) -> ! {
    eprintln!("{words}");
    process::exit(1)
}
