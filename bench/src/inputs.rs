//! A folder of the verdict program's inputs, named by `INPUTS`.

use std::fs;
use std::io;
use std::path::{Path, PathBuf};

pub fn folder() -> Option<PathBuf> {
    std::env::var_os("INPUTS").map(PathBuf::from)
}

/// The folder's files, by name.
pub fn files(folder: &Path) -> io::Result<Vec<PathBuf>> {
    let mut files =
        fs::read_dir(folder)?.map(|entry| entry.map(|entry| entry.path())).collect::<io::Result<Vec<PathBuf>>>()?;
    files.retain(|path| path.is_file());
    files.sort();
    Ok(files)
}

/// A file's name without its ending.
pub fn name(path: &Path) -> String {
    let stem = path.file_stem().unwrap_or_default();
    stem.to_string_lossy().into_owned()
}
