//! Links libmst_store: the archive in the folder that MST_STORE_DIR names, or in ../out, where
//! `make -C bindings` puts it, or otherwise what pkg-config finds. A relative path begins at this
//! crate's folder.
use std::env;
use std::path::{Path, PathBuf};
use std::process::Command;

/// The archive of this folder.
fn archive_in(folder: &Path) -> bool {
    let archive = folder.join("libmst_store.a");
    println!("cargo:rerun-if-changed={}", archive.display());
    if archive.is_file() {
        println!("cargo:rustc-link-search=native={}", folder.display());
        println!("cargo:rustc-link-lib=static=mst_store");
    }
    archive.is_file()
}

/// The library that is installed.
fn installed() -> bool {
    let tool = env::var_os("PKG_CONFIG").unwrap_or_else(|| "pkg-config".into());
    let said = Command::new(tool).args(["--libs", "mst_store"]).output();
    let Some(said) = said.ok().filter(|said| said.status.success()) else { return false };
    for word in String::from_utf8_lossy(&said.stdout).split_whitespace() {
        if let Some(folder) = word.strip_prefix("-L") {
            println!("cargo:rustc-link-search=native={folder}");
        } else if let Some(name) = word.strip_prefix("-l") {
            println!("cargo:rustc-link-lib={name}");
        }
    }
    true
}

fn main() {
    println!("cargo:rerun-if-env-changed=MST_STORE_DIR");
    println!("cargo:rerun-if-env-changed=PKG_CONFIG_PATH");
    // To see types alone, or where docs.rs makes the documents, nothing is linked.
    for name in ["MST_STORE_UNLINKED", "DOCS_RS"] {
        println!("cargo:rerun-if-env-changed={name}");
        if env::var_os(name).is_some() {
            return;
        }
    }
    let here = PathBuf::from(env::var_os("CARGO_MANIFEST_DIR").expect("cargo sets it"));
    let named = env::var_os("MST_STORE_DIR").filter(|name| !name.is_empty());
    // Absolute, since the linker may run in another folder than this program.
    let folder = here.join(named.clone().unwrap_or_else(|| "../out".into()));
    if archive_in(&folder) || (named.is_none() && installed()) {
        return;
    }
    let path = folder.join("libmst_store.a").display().to_string();
    panic!(
        "{path} is not there. No release is published yet: run `make -C bindings`, which needs the \
            kit, or name the folder of the archive in MST_STORE_DIR. Without the kit, \
            `MST_STORE_UNLINKED=1 cargo check` type-checks, and nothing runs"
    );
}
