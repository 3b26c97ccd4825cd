//! Programs in C, compiled against the header and the library.

use std::path::{Path, PathBuf};
use std::process::Command;

use crate::shell::Folder;

const FLAGS: [&str; 7] = ["-std=c99", "-O2", "-Wall", "-Wextra", "-pedantic", "-Werror", "-pthread"];

/// A compiled program; it goes with its folder.
pub struct CProgram {
    folder: Folder,
}

impl CProgram {
    /// Compiles `c/NAME.c`; a warning is an error.
    pub fn compile(home: &Path, library: &Path, name: &str) -> Result<CProgram, String> {
        let program = CProgram { folder: Folder::new(name) };
        let mut command = Command::new("cc");
        command.args(FLAGS).arg("-I").arg(home.join("../include"));
        command.arg(home.join("c").join(name).with_extension("c")).arg(library.join("libcapi.a"));
        let output = command.arg("-o").arg(program.path()).output().map_err(|error| format!("cc: {error}"))?;
        if output.status.success() { Ok(program) } else { Err(String::from_utf8_lossy(&output.stderr).into_owned()) }
    }

    pub fn path(&self) -> PathBuf {
        self.folder.path.join("program")
    }
}
