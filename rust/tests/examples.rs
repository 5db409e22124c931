//! The files of `examples/`: each is made from its text, and the text says what it shows.

use clearing::Market;
use std::collections::BTreeSet;
use std::fs;
use std::path::{Path, PathBuf};

fn folder() -> PathBuf {
    Path::new(env!("CARGO_MANIFEST_DIR")).join("../examples")
}

/// The bytes of an example file.
pub fn committed(name: &str) -> Vec<u8> {
    read(name, "market")
}

fn read(name: &str, extension: &str) -> Vec<u8> {
    let path = folder().join(name).with_extension(extension);
    fs::read(&path).unwrap_or_else(|error| panic!("{}: {error}", path.display()))
}

/// The names of the example files with an extension.
fn names(extension: &str) -> BTreeSet<String> {
    fs::read_dir(folder())
        .expect("the folder is there")
        .map(|entry| entry.expect("an entry").file_name())
        .map(|name| name.into_string().expect("plain text"))
        .filter_map(|name| Some(name.strip_suffix(extension)?.to_string()))
        .collect()
}

#[test]
fn every_example_is_made_from_its_text() {
    assert_eq!(names(".market"), names(".txt"));
    for name in names(".txt") {
        let text = read(&name, "txt");
        assert!(text.starts_with(b"# "), "examples/{name}.txt says nothing");
        let market = Market::from_text(&text).unwrap_or_else(|fault| panic!("{name}: {fault}"));
        assert!(market.file() == committed(&name), "examples/{name}.market");
    }
}
