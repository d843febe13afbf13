//! Running the verified programs.

use std::fs;
use std::io::{self, Write};
use std::path::{Path, PathBuf};
use std::process::{Command, Stdio};

/// Where the executables are.
#[derive(Clone, Debug)]
pub struct Programs {
    /// A folder that holds them all; without it each is in its crate's folder.
    folder: Option<PathBuf>,
}

/// What a program printed.
pub struct Printed {
    pub output: String,
    pub error: String,
    pub succeeded: bool,
}

impl Programs {
    pub fn new(folder: Option<PathBuf>) -> Programs {
        Programs { folder }
    }

    pub fn path(&self, name: &str) -> PathBuf {
        match &self.folder {
            Some(folder) => folder.join(name),
            None => bench_folder()
                .join("../crates")
                .join(name)
                .join("out")
                .join(name),
        }
    }

    /// Tells which of the programs is not there.
    pub fn check(&self, names: &[&str]) -> io::Result<()> {
        for name in names {
            let path = self.path(name);
            if !path.is_file() {
                let message = format!("there is no executable {}", path.display());
                return Err(io::Error::new(io::ErrorKind::NotFound, message));
            }
        }
        Ok(())
    }

    /// Runs a program to its end with an input.
    pub fn run(&self, name: &str, arguments: &[&Path], input: &str) -> io::Result<Printed> {
        self.run_in(Path::new("."), name, arguments, input)
    }

    /// Runs a program in a folder.
    pub fn run_in(
        &self,
        folder: &Path,
        name: &str,
        arguments: &[&Path],
        input: &str,
    ) -> io::Result<Printed> {
        let program = self.path(name).canonicalize()?;
        let mut child = Command::new(program)
            .current_dir(folder)
            .args(arguments)
            .stdin(Stdio::piped())
            .stdout(Stdio::piped())
            .stderr(Stdio::piped())
            .spawn()?;
        let mut stdin = child.stdin.take().expect("the input is piped");
        let output = std::thread::scope(|scope| {
            scope.spawn(move || {
                // A program that refuses may end before it has read everything.
                let _ = stdin.write_all(input.as_bytes());
            });
            child.wait_with_output()
        })?;
        Ok(Printed {
            output: String::from_utf8_lossy(&output.stdout).into_owned(),
            error: String::from_utf8_lossy(&output.stderr).into_owned(),
            succeeded: output.status.success(),
        })
    }
}

/// The folder of this crate.
pub fn bench_folder() -> &'static Path {
    Path::new(env!("CARGO_MANIFEST_DIR"))
}

/// A folder for files of one run; it goes when this is dropped.
pub struct Scratch(PathBuf);

impl Scratch {
    pub fn new() -> io::Result<Scratch> {
        let folder = std::env::temp_dir().join(format!("bench-{}", std::process::id()));
        fs::create_dir_all(&folder)?;
        Ok(Scratch(folder))
    }

    pub fn file(&self, name: &str, content: impl AsRef<[u8]>) -> io::Result<PathBuf> {
        let path = self.0.join(name);
        fs::write(&path, content)?;
        Ok(path)
    }

    pub fn path(&self, name: &str) -> PathBuf {
        self.0.join(name)
    }
}

impl Drop for Scratch {
    fn drop(&mut self) {
        let _ = fs::remove_dir_all(&self.0);
    }
}
