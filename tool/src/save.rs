//! Writes a file whole or not at all: beside the one that is asked for, in the same folder, and then renames it. A device or a pipe is written to.
use std::ffi::OsStr;
use std::fs::{self, File, OpenOptions, Permissions};
use std::io::{Error, ErrorKind, Result, Write};
use std::os::unix::ffi::OsStrExt;
use std::path::{Path, PathBuf};
use std::process;

/// Files of killed runs that may stand in the way.
const TRIES: usize = 100;

pub fn save(output: &OsStr, bytes: &[u8]) -> Result<()> {
    let path = Path::new(output);
    match fs::metadata(path) {
        Ok(found) if found.is_dir() => Err(Error::other("it is a folder")),
        Ok(found) if found.is_file() => replace(&fs::canonicalize(path)?, found.permissions(), bytes),
        Ok(_) => writable(path)?.write_all(bytes),
        Err(error) if error.kind() == ErrorKind::NotFound => create(path, bytes),
        Err(error) => Err(error),
    }
}

/// A file that may not be written to is not replaced either.
fn replace(path: &Path, permissions: Permissions, bytes: &[u8]) -> Result<()> {
    writable(path)?;
    put(path, Some(permissions), bytes)
}

fn create(path: &Path, bytes: &[u8]) -> Result<()> {
    if path.as_os_str().as_bytes().ends_with(b"/") {
        return Err(Error::other("there is no such folder"));
    }
    if fs::symlink_metadata(path).is_ok() {
        return Err(Error::other("it is a link to a file that is not there"));
    }
    put(path, None, bytes)
}

fn writable(path: &Path) -> Result<File> {
    OpenOptions::new().write(true).open(path)
}

fn put(path: &Path, permissions: Option<Permissions>, bytes: &[u8]) -> Result<()> {
    let (beside, mut file) = new_beside(path)?;
    let set = |file: &File| permissions.map_or(Ok(()), |permissions| file.set_permissions(permissions));
    let written = file.write_all(bytes).and_then(|()| file.sync_all()).and_then(|()| set(&file));
    let done = written.and_then(|()| fs::rename(&beside, path));
    if done.is_err() {
        // What failed before is the error to tell.
        let _ = fs::remove_file(&beside);
    }
    done
}

fn new_beside(path: &Path) -> Result<(PathBuf, File)> {
    let mut taken = Error::other("no name is free beside it");
    for number in 0..TRIES {
        let beside = path.with_file_name(format!(".translate.{}.{number}", process::id()));
        match OpenOptions::new().write(true).create_new(true).open(&beside) {
            Ok(file) => return Ok((beside, file)),
            Err(error) if error.kind() == ErrorKind::AlreadyExists => taken = error,
            Err(error) => return Err(error),
        }
    }
    Err(taken)
}
