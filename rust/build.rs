//! Links the archive of the proved finder, from the folder in `PORTHWYNNA_LIB_DIR` or else from
//! where `rt lib`, run in crates/porthwynna, puts it. A relative folder counts from this package's
//! folder, since cargo doesn't tell where it was called.

use std::env;
use std::fs;
use std::path::{Path, PathBuf};
use std::time::SystemTime;

fn main() {
    println!("cargo::rerun-if-changed=build.rs");
    println!("cargo::rerun-if-env-changed=PORTHWYNNA_LIB_DIR");
    if let Err(message) = link() {
        println!("cargo::error={message}");
    }
}

fn link() -> Result<(), String> {
    let target = |what| env::var(what).expect("cargo sets it");
    let arch = target("CARGO_CFG_TARGET_ARCH");
    let os = target("CARGO_CFG_TARGET_OS");
    if (&*arch, &*os) != ("x86_64", "linux") {
        return Err(format!(
            "The archive is for x86-64 Linux alone, and this build is for {arch} {os}."
        ));
    }
    let package = PathBuf::from(env::var_os("CARGO_MANIFEST_DIR").expect("cargo sets it"));
    let top = fs::canonicalize(package.join("..")).expect("the package lies in a folder");
    let named = env::var_os("PORTHWYNNA_LIB_DIR");
    let folder = match &named {
        Some(folder) => package.join(folder),
        None => top.join("crates/porthwynna/out"),
    };
    let archive = folder.join("libporthwynna.a");
    println!("cargo::rerun-if-changed={}", archive.display());
    if !archive.is_file() {
        let reason = match named {
            Some(_) => "PORTHWYNNA_LIB_DIR names its folder",
            None => "`rt lib`, run in crates/porthwynna, makes it",
        };
        return Err(format!("There is no {}: {reason}.", archive.display()));
    }
    if named.is_none() {
        warn_if_old(&archive, &top);
    }
    println!("cargo::rustc-link-search=native={}", folder.display());
    println!("cargo::rustc-link-lib=static=porthwynna");
    Ok(())
}

/// Says so where the archive is older than its source, which lies beside the package in the
/// repository.
fn warn_if_old(archive: &Path, top: &Path) {
    let source = source(top);
    for path in &source {
        println!("cargo::rerun-if-changed={}", path.display());
    }
    let made = fs::metadata(archive).and_then(|archive| archive.modified());
    let newest_of_source = source.into_iter().filter_map(newest).max();
    if let (Ok(made), Some((changed, file))) = (made, newest_of_source) {
        if changed > made {
            println!(
                "cargo::warning={} is older than {}: `rt lib`, run in crates/porthwynna, makes it \
                 anew.",
                archive.display(),
                file.display()
            );
        }
    }
}

/// What the archive is made from: crates.txt, and what the folders of the crates have in them but
/// for `out`, where what is made of it lies.
fn source(top: &Path) -> Vec<PathBuf> {
    let crates = entries(&top.join("crates"));
    let parts = crates.iter().flat_map(|folder| entries(folder));
    let source = parts.filter(|path| !path.ends_with("out"));
    let list = top.join("crates.txt");
    source.chain(list.exists().then_some(list)).collect()
}

fn entries(folder: &Path) -> Vec<PathBuf> {
    let entries = fs::read_dir(folder).into_iter().flatten().flatten();
    entries.map(|entry| entry.path()).collect()
}

/// Time and path of the file here, or of the newest file in the folder here and below.
fn newest(path: PathBuf) -> Option<(SystemTime, PathBuf)> {
    let metadata = fs::symlink_metadata(&path).ok()?;
    if metadata.is_dir() {
        entries(&path).into_iter().filter_map(newest).max()
    } else {
        Some((metadata.modified().ok()?, path))
    }
}
