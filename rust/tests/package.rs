//! The package as cargo sees it: one version in one binary, and the build script's words where the
//! archive cannot be linked. The packages tried have the manifest and the build script of this one,
//! and no code.

use crate::program::folder::{age, Folder};
use std::env;
use std::fs;
use std::path::Path;
use std::process::Command;

const ARCHIVE: &str = "target/staticlib/libentry.a";

/// What an archive is made of: files, and the folders that they are in.
const SOURCES: [&str; 6] = [
    "KIT",
    "crates.txt",
    "crates",
    "crates/x",
    "crates/x/src",
    "crates/x/src/lib.rt",
];

/// An archive with nothing in it.
const EMPTY: &str = "!<arch>\n";

fn own(name: &str) -> String {
    let path = Path::new(env!("CARGO_MANIFEST_DIR")).join(name);
    fs::read_to_string(&path).unwrap_or_else(|error| panic!("{}: {error}", path.display()))
}

/// This package's manifest, but for its tests and its workspace.
fn manifest() -> String {
    let whole = own("Cargo.toml");
    let end = whole.find("\n[").map_or(whole.len(), |end| end + 1);
    whole[..end].to_string()
}

/// Cargo in a package of the folder, with a target folder and variables of its own.
fn cargo(folder: &Folder, package: &str) -> Command {
    let mut command = Command::new(env::var_os("CARGO").unwrap_or("cargo".into()));
    command.current_dir(folder.path(package));
    command.env("CARGO_TARGET_DIR", folder.path("built"));
    command.env_remove("CLEARING_ARCHIVE");
    command
}

/// Runs cargo, offline. Gives whether it did what it was asked, and what it said.
fn run(command: &mut Command) -> (bool, String) {
    let output = command.arg("--offline").output().expect("cargo starts");
    let said = String::from_utf8_lossy(&output.stderr).into_owned();
    (output.status.success(), said)
}

fn assert_runs(command: &mut Command) {
    let (well, said) = run(command);
    assert!(well, "{said}");
}

fn assert_refused(command: &mut Command, words: &[&str]) {
    let (well, said) = run(command);
    assert!(!well, "{said}");
    for word in words {
        assert!(said.contains(word), "{word} is not in: {said}");
    }
}

#[test]
fn two_versions_in_one_binary_are_refused() {
    let folder = Folder::new("versions");
    let (before, version) = manifest()
        .split_once("\nversion = \"")
        .map(|(before, after)| (before.to_string(), after.to_string()))
        .expect("a version");
    let (_, after) = version.split_once('"').expect("a version");
    for (name, version) in [("one", "1.0.0"), ("two", "2.0.0")] {
        let manifest = format!("{before}\nversion = \"{version}\"{after}");
        folder.write(&format!("{name}/Cargo.toml"), manifest);
        folder.write(&format!("{name}/build.rs"), "fn main() {}");
        folder.write(&format!("{name}/src/lib.rs"), "");
    }
    folder.write("service/src/lib.rs", "");
    let depending = |names: &[&str]| {
        let line =
            |name: &&str| format!("{name} = {{ package = \"clearing\", path = \"../{name}\" }}\n");
        let lines: String = names.iter().map(line).collect();
        let head =
            "[package]\nname = \"service\"\nedition = \"2021\"\n[workspace]\n[dependencies]\n";
        folder.write("service/Cargo.toml", format!("{head}{lines}"));
    };
    for name in ["one", "two"] {
        depending(&[name]);
        assert_runs(cargo(&folder, "service").arg("generate-lockfile"));
    }
    depending(&["one", "two"]);
    let words = ["links to the native library `entry`"];
    assert_refused(cargo(&folder, "service").arg("generate-lockfile"), &words);
}

/// A checkout with this package's manifest and build script, and sources of some age.
fn checkout(name: &str) -> Folder {
    let folder = Folder::new(name);
    folder.write("rust/Cargo.toml", format!("{}[workspace]\n", manifest()));
    folder.write("rust/build.rs", own("build.rs"));
    folder.write("rust/src/lib.rs", "");
    for file in ["KIT", "crates.txt", "crates/x/src/lib.rt"] {
        folder.write(file, "");
    }
    for source in SOURCES {
        age(&folder.path(source), 200);
    }
    folder
}

#[test]
fn a_missing_archive_is_named_with_both_remedies() {
    let folder = checkout("missing archive");
    let path = folder.path(ARCHIVE);
    let path = path.to_str().expect("plain text");
    let words = [
        path,
        "is missing",
        "`bin/build archive`",
        "CLEARING_ARCHIVE",
    ];
    assert_refused(cargo(&folder, "rust").arg("check"), &words);
}

#[test]
fn an_archive_older_than_a_source_is_refused() {
    let folder = checkout("stale archive");
    let archive = folder.write(ARCHIVE, EMPTY);
    for source in SOURCES {
        age(&archive, 100);
        assert_runs(cargo(&folder, "rust").arg("build"));
        let path = folder.path(source);
        age(&path, 0);
        let newer = format!("{} is newer than", path.display());
        let words = [&newer, "`bin/build archive`"];
        assert_refused(cargo(&folder, "rust").arg("build"), &words);
        age(&path, 200);
    }
    folder.write("crates/x/out/kept", "");
    age(&archive, 100);
    assert_runs(cargo(&folder, "rust").arg("build"));
    fs::remove_dir_all(folder.path("crates")).expect("they are there");
    age(&archive, 300);
    assert_runs(cargo(&folder, "rust").arg("build"));
}

#[test]
fn the_archive_may_be_in_another_folder() {
    let folder = checkout("other archive");
    let archive = folder.write("other/libentry.a", EMPTY);
    age(&archive, 300);
    let build = |place: &Path| {
        let mut command = cargo(&folder, "rust");
        command.arg("build").env("CLEARING_ARCHIVE", place);
        command
    };
    assert_runs(&mut build(&folder.path("other")));
    let none = folder.path("none");
    let missing = format!("{} is missing", none.join("libentry.a").display());
    assert_refused(&mut build(&none), &[&missing]);
    assert_refused(&mut build(Path::new("../other")), &["absolute path"]);
    assert_refused(&mut build(Path::new("")), &[ARCHIVE, "is missing"]);
}

#[test]
fn another_target_is_refused() {
    let folder = checkout("targets");
    folder.write(ARCHIVE, EMPTY);
    for target in [
        "aarch64-unknown-linux-gnu",
        "x86_64-unknown-linux-gnux32",
        "x86_64-pc-windows-gnu",
    ] {
        let mut check = cargo(&folder, "rust");
        check.args(["check", "--target", target]);
        assert_refused(&mut check, &["x86-64 Linux alone", target]);
    }
}
