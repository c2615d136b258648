//! Finds the library: `libsf.a` in the folder that `SF_LIB` names; otherwise the archive that this
//! crate is shipped with, or that `make -C c` built; otherwise an installed library, by pkg-config.
//! A relative `SF_LIB` is a folder below that in which cargo was started, if the shell says which,
//! or below this crate.
//!
//! Without the library, `cargo check`, `cargo clippy` and `cargo doc` succeed, since they don't
//! link; a warning says what is missing, except on docs.rs. `cargo build` then fails: there is no
//! library `sf`.
use std::env;
use std::path::{Path, PathBuf};
use std::process::Command;

fn main() {
    println!("cargo:rerun-if-env-changed=SF_LIB");
    println!("cargo:rerun-if-env-changed=PKG_CONFIG_PATH");
    println!("cargo:rerun-if-env-changed=DOCS_RS");
    if env::var_os("DOCS_RS").is_some() {
        return;
    }
    if let Err(message) = link() {
        println!("cargo:warning={message}");
        println!("cargo:rustc-link-lib=static=sf");
        println!("cargo:rerun-if-changed=no libsf.a"); // is not there, so this is run again
    }
}

fn link() -> Result<(), String> {
    let here = env::var_os("CARGO_MANIFEST_DIR").ok_or("cargo sets no CARGO_MANIFEST_DIR")?;
    let here = PathBuf::from(here);
    if let Some(folder) = env::var_os("SF_LIB") {
        let from = env::var_os("PWD").map_or_else(|| here.clone(), PathBuf::from);
        return [from, here]
            .iter()
            .map(|from| from.join(&folder))
            .find(|folder| link_archive(folder))
            .map(|_| ())
            .ok_or_else(|| format!("SF_LIB is {folder:?}, where there is no libsf.a"));
    }
    let shipped = ["../../lib", "../.."]
        .iter()
        .any(|folder| link_archive(&here.join(folder)));
    if shipped || link_installed() {
        return Ok(());
    }
    Err("no libsf.a: set SF_LIB to its folder, or PKG_CONFIG_PATH to that of sf.pc".to_string())
}

// Links the archive of a folder, if there is one.
fn link_archive(folder: &Path) -> bool {
    let archive = folder.join("libsf.a");
    if !archive.is_file() {
        return false;
    }
    println!("cargo:rerun-if-changed={}", archive.display());
    println!("cargo:rustc-link-search=native={}", folder.display());
    println!("cargo:rustc-link-lib=static=sf");
    true
}

// Links what pkg-config finds, if it finds it.
fn link_installed() -> bool {
    let found = match Command::new("pkg-config")
        .args(["--variable=libdir", "sf"])
        .output()
    {
        Ok(found) => found,
        Err(_) => return false,
    };
    let folder = String::from_utf8_lossy(&found.stdout);
    if !found.status.success() || folder.trim().is_empty() {
        return false;
    }
    println!("cargo:rustc-link-search=native={}", folder.trim());
    println!("cargo:rustc-link-lib=sf");
    true
}
