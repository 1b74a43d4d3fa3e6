//! The files of `examples/`.
use std::fs;
use std::path::PathBuf;

fn folder() -> PathBuf {
    PathBuf::from(env!("CARGO_MANIFEST_DIR")).join("../examples")
}

pub fn path(name: &str, ending: &str) -> String {
    folder().join(format!("{name}.{ending}")).to_str().expect("the path is text").to_string()
}

pub fn bytes(name: &str, ending: &str) -> Vec<u8> {
    let path = path(name, ending);
    fs::read(&path).unwrap_or_else(|error| panic!("{path}: {error}"))
}

pub fn text(name: &str, ending: &str) -> String {
    String::from_utf8(bytes(name, ending)).expect("the file is text")
}

/// The names of all files with this ending, in order.
pub fn names_with(ending: &str) -> Vec<String> {
    let files = fs::read_dir(folder()).expect("the folder is there");
    let paths = files.map(|file| file.expect("the folder can be listed").path());
    let of_ending = paths.filter(|path| path.extension().is_some_and(|found| found == ending));
    let mut names: Vec<String> = of_ending.map(|path| path.file_stem().unwrap().to_str().unwrap().to_string()).collect();
    names.sort();
    names
}

pub fn names() -> Vec<String> {
    names_with("txt")
}
