//! Links the archive that `tools/build monitor_c` writes: in `target/staticlib` of the repository, or where ZANKEZURT_ARCHIVE says.

use std::env;
use std::path::PathBuf;

fn main() {
    println!("cargo::rerun-if-env-changed=ZANKEZURT_ARCHIVE");
    let folder = env::var_os("ZANKEZURT_ARCHIVE").map_or_else(beside, PathBuf::from);
    let archive = folder.join("libmonitor_c.a");
    println!("cargo::rerun-if-changed={}", archive.display());
    println!("cargo::rustc-link-search=native={}", folder.display());
    println!("cargo::rustc-link-lib=static=monitor_c");
    if let Some(target) = other_target() {
        println!("cargo::error=the archive is for x86-64 Linux and not for {target}: see docs/EMBEDDING.md");
    }
    if !archive.is_file() {
        let missing = archive.display();
        println!(
            "cargo::error=no {missing}: run `tools/build monitor_c` first, or set ZANKEZURT_ARCHIVE to its folder"
        );
    }
}

/// Where `tools/build` puts it.
fn beside() -> PathBuf {
    PathBuf::from(env!("CARGO_MANIFEST_DIR")).join("../target/staticlib")
}

/// The target, where it is not the archive's.
fn other_target() -> Option<String> {
    let part = |name| env::var(name).unwrap_or_default();
    let target = [part("CARGO_CFG_TARGET_ARCH"), part("CARGO_CFG_TARGET_OS")];
    (target != ["x86_64", "linux"]).then(|| target.join(" "))
}
