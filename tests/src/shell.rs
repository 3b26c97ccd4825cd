//! Commands of the shell, and the temporary folders that they run in.

use std::fs::{self, File, Permissions};
use std::os::unix::fs::{PermissionsExt, symlink};
use std::os::unix::process::ExitStatusExt;
use std::path::{Path, PathBuf};
use std::process::{Command, Output, Stdio};

use crate::tally::{Checked, alike};

/// How many seconds a script may take; one that hangs is ended, with all that it started.
const PATIENCE: &str = "120";

/// What a shell adds to the number of the signal that ended a command.
pub const SIGNALLED: i32 = 128;

/// A folder that goes with all that is in it.
pub struct Folder {
    pub path: PathBuf,
}

impl Folder {
    pub fn new(name: &str) -> Folder {
        let path = std::env::temp_dir().join(format!("gannetrope-{name}-{}", std::process::id()));
        fs::create_dir(&path).unwrap_or_else(|error| panic!("{}: {error}", path.display()));
        Folder { path }
    }

    /// A folder with copies of some scripts and of those that they call or share; they look for their programs in it.
    pub fn with_scripts(name: &str, home: &Path, scripts: &[&str]) -> Folder {
        let folder = Folder::new(name);
        for script in scripts.iter().chain(&["scripts/common.bash", "scripts/build"]) {
            folder.write_script(script, &fs::read(home.join("..").join(script)).expect("a script"));
        }
        folder
    }

    /// Writes a file, and the folders that it is in.
    pub fn write(&self, name: &str, contents: &[u8]) -> PathBuf {
        let path = self.place(name);
        fs::write(&path, contents).unwrap_or_else(|error| panic!("{}: {error}", path.display()));
        path
    }

    pub fn write_script(&self, name: &str, contents: &[u8]) {
        let path = self.write(name, contents);
        fs::set_permissions(&path, Permissions::from_mode(0o755)).expect("a file just written");
    }

    /// Makes a link to a path, which counts from the folder of the link unless it is whole.
    pub fn link(&self, name: &str, to: &Path) {
        symlink(to, self.place(name)).unwrap_or_else(|error| panic!("link {name}: {error}"));
    }

    pub fn read(&self, name: &str) -> String {
        fs::read_to_string(self.path.join(name)).unwrap_or_else(|error| format!("{name}: {error}"))
    }

    /// How many files and folders one of its folders has.
    pub fn count(&self, name: &str) -> usize {
        fs::read_dir(self.path.join(name)).expect("a folder").count()
    }

    fn place(&self, name: &str) -> PathBuf {
        let path = self.path.join(name);
        fs::create_dir_all(path.parent().expect("a folder")).expect("a folder");
        path
    }
}

impl Drop for Folder {
    fn drop(&mut self) {
        // one that cannot be removed is no fault of what was tested
        let _ = fs::remove_dir_all(&self.path);
    }
}

/// What a command printed, and its status as a shell has it.
pub struct Ran {
    pub output: Vec<u8>,
    pub errors: String,
    pub status: i32,
}

impl Ran {
    /// Holds the run to a status, to what it printed, and to parts that standard error must have.
    pub fn check(&self, status: i32, output: &[u8], errors: &[&str]) -> Checked {
        let said = |wrong| format!("{wrong}; standard error: {}", self.errors);
        alike("status", self.status, status).map_err(said)?;
        let shown = |bytes: &[u8]| bytes.escape_ascii().to_string();
        alike("standard output", shown(&self.output), shown(output)).map_err(said)?;
        match errors.iter().find(|part| !self.errors.contains(**part)) {
            Some(part) => Err(said(format!("no '{part}'"))),
            None => Ok(()),
        }
    }
}

/// Runs a script of bash in a folder, with these variables besides those of the tests.
pub fn bash(folder: &Path, script: &str, variables: &[(&str, &Path)]) -> Result<Ran, String> {
    let mut command = Command::new("timeout");
    command
        .args([PATIENCE, "bash", "-c", script])
        .current_dir(folder)
        .envs(variables.iter().copied())
        .stdin(Stdio::null());
    run(&mut command)
}

/// Runs a command on the bytes of a file.
pub fn run_on(command: &mut Command, input: &Path) -> Result<Ran, String> {
    let input = File::open(input).map_err(|error| error.to_string())?;
    run(command.stdin(input))
}

fn run(command: &mut Command) -> Result<Ran, String> {
    let Output { status, stdout, stderr } = command.output().map_err(|error| format!("{command:?}: {error}"))?;
    let signalled = || SIGNALLED + status.signal().expect("a signal, where there is no status");
    Ok(Ran {
        output: stdout,
        errors: String::from_utf8_lossy(&stderr).into_owned(),
        status: status.code().unwrap_or_else(signalled),
    })
}
