//! Links the proved library, `libentry.a`: from the folder that CLEARING_ARCHIVE names, or, in a
//! checkout, from `target/staticlib`, where `bin/build archive` puts it. What cannot be linked, or
//! is older than its sources, is refused here, in words.

use std::env;
use std::fs;
use std::io;
use std::path::{Path, PathBuf};
use std::time::SystemTime;

fn main() {
    println!("cargo::rerun-if-env-changed=CLEARING_ARCHIVE");
    match for_this_target().and_then(|()| archive_folder()) {
        Ok(folder) => {
            println!("cargo::rustc-link-search=native={}", folder.display());
            println!("cargo::rustc-link-lib=static=entry");
        }
        Err(words) => println!("cargo::error={words}"),
    }
}

/// The library's code and the entry's declaration are those of x86-64 Linux with 64-bit pointers.
fn for_this_target() -> Result<(), String> {
    let cargo_says = |name: &str| env::var(name).unwrap_or_default();
    let fits = cargo_says("CARGO_CFG_TARGET_ARCH") == "x86_64"
        && cargo_says("CARGO_CFG_TARGET_OS") == "linux"
        && cargo_says("CARGO_CFG_TARGET_POINTER_WIDTH") == "64";
    match fits {
        true => Ok(()),
        false => Err(format!(
            "the proved library is compiled for x86-64 Linux alone, not for {}",
            cargo_says("TARGET")
        )),
    }
}

/// The folder of the archive, which is there and up to date.
fn archive_folder() -> Result<PathBuf, String> {
    match env::var_os("CLEARING_ARCHIVE").filter(|folder| !folder.is_empty()) {
        Some(folder) => named(PathBuf::from(folder)),
        None => in_checkout(),
    }
}

fn named(folder: PathBuf) -> Result<PathBuf, String> {
    if !folder.is_absolute() {
        return Err(format!(
            "CLEARING_ARCHIVE is {}: name the folder by its absolute path",
            folder.display()
        ));
    }
    present(&folder.join("libentry.a"))?;
    Ok(folder)
}

fn in_checkout() -> Result<PathBuf, String> {
    let package = PathBuf::from(env::var_os("CARGO_MANIFEST_DIR").unwrap_or_default());
    let root = package.parent().unwrap_or(&package);
    let folder = root.join("target/staticlib");
    let archive = folder.join("libentry.a");
    present(&archive)?;
    if root.join("crates").is_dir() {
        let sources = ["KIT", "crates.txt", "crates"].map(|name| root.join(name));
        up_to_date(&archive, &sources)?;
    }
    Ok(folder)
}

fn present(archive: &Path) -> Result<(), String> {
    println!("cargo::rerun-if-changed={}", archive.display());
    match archive.is_file() {
        true => Ok(()),
        false => Err(format!(
            "{} is missing: run `bin/build archive` in the checkout, or name the folder of a \
             libentry.a in CLEARING_ARCHIVE",
            archive.display()
        )),
    }
}

fn up_to_date(archive: &Path, sources: &[PathBuf]) -> Result<(), String> {
    let written = fs::metadata(archive).and_then(|archive| archive.modified());
    let built = written.map_err(|error| unread(archive, error))?;
    for source in sources {
        println!("cargo::rerun-if-changed={}", source.display());
        let newer = newer_than(built, source).map_err(|error| unread(source, error))?;
        if let Some(newer) = newer {
            return Err(format!(
                "{} is newer than {}: run `bin/build archive` in the checkout",
                newer.display(),
                archive.display()
            ));
        }
    }
    Ok(())
}

/// What was changed after `built`: this file or folder, or one in this folder. A folder is changed
/// where a file of it is gone. A folder `out` is the kit's own, and so is the time of a folder that
/// holds one.
fn newer_than(built: SystemTime, path: &Path) -> io::Result<Option<PathBuf>> {
    if path.ends_with("out") {
        return Ok(None);
    }
    let own = fs::symlink_metadata(path)?;
    if own.modified()? > built && !path.join("out").is_dir() {
        return Ok(Some(path.to_path_buf()));
    }
    if !own.is_dir() {
        return Ok(None);
    }
    for entry in fs::read_dir(path)? {
        let newer = newer_than(built, &entry?.path())?;
        if newer.is_some() {
            return Ok(newer);
        }
    }
    Ok(None)
}

fn unread(path: &Path, error: io::Error) -> String {
    format!("{} cannot be read: {error}", path.display())
}
