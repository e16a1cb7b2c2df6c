//! Links `libexports.a`: the one in the folder that BOGSLIPPER_ARCHIVE names, else the one that the repository makes.

use std::env;
use std::fs;
use std::path::{Path, PathBuf};
use std::process::{exit, Command};

fn main() {
    println!("cargo:rerun-if-env-changed=BOGSLIPPER_ARCHIVE");
    let folder = match env::var_os("BOGSLIPPER_ARCHIVE") {
        Some(folder) => given(Path::new(&folder)),
        None => made(&Path::new(env!("CARGO_MANIFEST_DIR")).join("../..")),
    };
    println!("cargo:rustc-link-search=native={}", folder.display());
    println!("cargo:rustc-link-lib=static=exports");
}

/// The folder of an archive made elsewhere, as a full path.
fn given(folder: &Path) -> PathBuf {
    let archive = folder.join("libexports.a");
    println!("cargo:rerun-if-changed={}", archive.display());
    match folder.canonicalize() {
        Ok(folder) if archive.is_file() => folder,
        _ => stop(&format!(
            "BOGSLIPPER_ARCHIVE names {}, which holds no libexports.a",
            folder.display()
        )),
    }
}

/// The folder of the archive that `.ci/built` makes of the repository's crates, where it is out of date.
fn made(repository: &Path) -> PathBuf {
    let crates = repository.join("crates");
    println!(
        "cargo:rerun-if-changed={}",
        repository.join("crates.txt").display()
    );
    for source in sources(&crates) {
        println!("cargo:rerun-if-changed={}", source.display());
    }
    if !crates.join("exports").is_dir() {
        stop(&format!(
            "there is no crate `exports` in {}",
            crates.display()
        ));
    }
    match Command::new(repository.join(".ci/built"))
        .arg("archive")
        .output()
    {
        Ok(output) if output.status.success() => repository.join("target/staticlib"),
        Ok(output) => stop(&String::from_utf8_lossy(&output.stderr)),
        Err(error) => stop(&format!("`.ci/built archive` cannot be run: {error}")),
    }
}

/// What the archive is made of; `out` beside it is what `rt` writes.
fn sources(crates: &Path) -> Vec<PathBuf> {
    let folders = fs::read_dir(crates).into_iter().flatten().flatten();
    folders
        .flat_map(|folder| ["src", "specs", "proofs"].map(|part| folder.path().join(part)))
        .filter(|source| source.is_dir())
        .collect()
}

fn stop(why: &str) -> ! {
    eprintln!("bogslipper: no archive to link. {why}");
    eprintln!("bogslipper: either set BOGSLIPPER_ARCHIVE to the folder of a libexports.a,");
    eprintln!("bogslipper: or build inside the repository with `rt` on the path.");
    exit(1);
}
