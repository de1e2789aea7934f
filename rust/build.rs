//! Links the proved archive: from the folder that `ADTG_ARCHIVE_DIR` names, else from
//! `../target/staticlib`.

use std::env;
use std::path::{Path, PathBuf};

const ARCHIVE: &str = "libadtg_c.a";

fn main() {
    println!("cargo:rerun-if-env-changed=ADTG_ARCHIVE_DIR");
    let folders = folders();
    let folder = folders.iter().find(|folder| folder.join(ARCHIVE).is_file());
    let Some(folder) = folder else {
        let looked_at: Vec<String> = folders
            .iter()
            .map(|folder| format!("\n    {}", folder.display()))
            .collect();
        panic!(
            "The archive {ARCHIVE} is missing. Build it first, or name its folder in \
             ADTG_ARCHIVE_DIR. It was looked for in{}",
            looked_at.concat()
        );
    };
    let archive = folder.join(ARCHIVE);
    println!("cargo:rerun-if-changed={}", archive.display());
    println!("cargo:rustc-link-search=native={}", folder.display());
    println!("cargo:rustc-link-lib=static=adtg_c");
}

/// The folders that the archive may be in, the first one first. A relative folder is taken from the
/// one in which cargo was called, then from the manifest's. A build script runs in the manifest's
/// folder, and only `PWD` says where cargo was called.
fn folders() -> Vec<PathBuf> {
    let manifest = env::var_os("CARGO_MANIFEST_DIR").expect("cargo sets the manifest's folder");
    let manifest = Path::new(&manifest);
    let Some(named) = env::var_os("ADTG_ARCHIVE_DIR") else {
        return vec![manifest.join("../target/staticlib")];
    };
    let named = PathBuf::from(named);
    if named.is_absolute() {
        return vec![named];
    }
    println!("cargo:rerun-if-env-changed=PWD");
    let caller = env::var_os("PWD").map(PathBuf::from);
    let caller = caller.filter(|folder| folder.is_absolute());
    let mut folders: Vec<PathBuf> = caller.iter().map(|folder| folder.join(&named)).collect();
    folders.push(manifest.join(&named));
    folders.dedup();
    folders
}
