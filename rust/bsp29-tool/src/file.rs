//! Reading files whole, finding maps in directories, and writing files beside no others.

use crate::failure::Failure;
use std::fs::{self, File};
use std::io::{self, Read, Write};
use std::path::{Path, PathBuf};

/// Reads a regular file whole: the bytes that it has when it is opened. What is not a regular file (a
/// pipe, a device) may have no end and is not read.
pub fn read(path: &Path) -> Result<Vec<u8>, Failure> {
    if !fs::metadata(path).map_err(|error| Failure::file(path, error))?.is_file() {
        return Err(Failure::file(path, "not a regular file"));
    }
    read_open(path).map_err(|error| Failure::file(path, error))
}

fn read_open(path: &Path) -> io::Result<Vec<u8>> {
    let file = File::open(path)?;
    let length = file.metadata()?.len();
    let mut bytes = Vec::new();
    let needed = usize::try_from(length).map_err(|_| io::ErrorKind::OutOfMemory)?;
    bytes.try_reserve_exact(needed).map_err(|_| io::ErrorKind::OutOfMemory)?;
    file.take(length).read_to_end(&mut bytes)?;
    Ok(bytes)
}

/// The maps that are named: files as they are named, and of a directory, with those in it, every file
/// whose name ends in .bsp, in the order of their names. Links to directories are not followed. A
/// directory that cannot be read is a failure in its place.
pub fn maps(named: &[PathBuf]) -> Vec<Result<PathBuf, Failure>> {
    let mut found = Vec::new();
    for path in named {
        match path.is_dir() {
            true => search(path, &mut found),
            false => found.push(Ok(path.clone())),
        }
    }
    found
}

fn search(directory: &Path, found: &mut Vec<Result<PathBuf, Failure>>) {
    let mut left = vec![directory.to_path_buf()];
    while let Some(directory) = left.pop() {
        match entries(&directory) {
            Ok((files, directories)) => {
                found.extend(files.into_iter().map(Ok));
                left.extend(directories.into_iter().rev());
            }
            Err(error) => found.push(Err(Failure::file(&directory, error))),
        }
    }
}

/// The maps and the directories of a directory, each in the order of their names.
fn entries(directory: &Path) -> io::Result<(Vec<PathBuf>, Vec<PathBuf>)> {
    let (mut files, mut directories) = (Vec::new(), Vec::new());
    for entry in fs::read_dir(directory)? {
        let entry = entry?;
        if entry.file_type()?.is_dir() {
            directories.push(entry.path());
        } else if is_map_name(&entry.path()) {
            files.push(entry.path());
        }
    }
    files.sort();
    directories.sort();
    Ok((files, directories))
}

fn is_map_name(path: &Path) -> bool {
    path.extension().is_some_and(|end| end.eq_ignore_ascii_case("bsp"))
}

/// Writes a file whole: first under a name that was not there, and then under its own. So a reader
/// never meets half of it, and a link of its name is replaced and not followed.
pub fn write(path: &Path, bytes: &[u8]) -> Result<(), Failure> {
    let mut name = path.file_name().unwrap_or_default().to_os_string();
    name.push(format!(".{}.part", std::process::id()));
    let part = path.with_file_name(name);
    let written = File::options().write(true).create_new(true).open(&part).and_then(|mut file| {
        let written = file.write_all(bytes).and_then(|()| fs::rename(&part, path));
        if written.is_err() {
            let _ = fs::remove_file(&part);
        }
        written
    });
    written.map_err(|error| Failure::file(path, error))
}

/// Whether two names are of the same file.
pub fn same(a: &Path, b: &Path) -> bool {
    match (fs::canonicalize(a), fs::canonicalize(b)) {
        (Ok(a), Ok(b)) => a == b,
        _ => false,
    }
}
