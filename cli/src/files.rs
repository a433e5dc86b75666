//! Files: hashes, a folder for what is needed for a moment only, and files that are written whole or not at all.

use crate::failure::{fail, Failure, Outcome};
use sha2::{Digest, Sha256};
use std::fs;
use std::io::Write;
use std::path::{Path, PathBuf};
use std::process;

/// The SHA-256 of bytes, in hexadecimal.
pub fn hash(bytes: &[u8]) -> String {
    format!("{:x}", Sha256::digest(bytes))
}

/// A folder of its own among the temporary files, which is removed at the end.
pub struct Scratch(PathBuf);

impl Scratch {
    /// Makes the folder.
    pub fn new() -> Outcome<Scratch> {
        for number in 0..1000 {
            let path = std::env::temp_dir().join(format!("peshawe-{}-{number}", process::id()));
            match fs::create_dir(&path) {
                Ok(()) => return Ok(Scratch(path)),
                Err(error) if error.kind() == std::io::ErrorKind::AlreadyExists => {}
                Err(error) => return Err(Failure::writing(path.display(), &error)),
            }
        }
        fail!("there are too many temporary folders of this command")
    }

    /// Where it is.
    pub fn path(&self) -> &Path {
        &self.0
    }
}

impl Drop for Scratch {
    fn drop(&mut self) {
        let _ = fs::remove_dir_all(&self.0);
    }
}

/// Writes a file: first beside its place, and then, when all of it is there, under its name.
pub fn write(path: &Path, bytes: &[u8]) -> Outcome<()> {
    let failed = |error| Failure::writing(path.display(), &error);
    if path.exists() && !path.is_file() {
        // A device or a pipe has no place beside it.
        return fs::write(path, bytes).map_err(failed);
    }
    let mut beside = path.as_os_str().to_os_string();
    beside.push(format!(".{}.part", process::id()));
    let beside = PathBuf::from(beside);
    let written = fs::File::create(&beside).and_then(|mut file| {
        file.write_all(bytes)?;
        file.sync_all()
    });
    let named = written.and_then(|()| fs::rename(&beside, path));
    named.map_err(|error| {
        let _ = fs::remove_file(&beside);
        failed(error)
    })
}
