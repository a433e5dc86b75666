//! Folders of their own for a program, removed in the end.

use std::fs;
use std::path::{Path, PathBuf};
use std::process;
use std::sync::atomic::{AtomicUsize, Ordering};

static MADE: AtomicUsize = AtomicUsize::new(0);

/// A new folder.
pub struct Folder {
    path: PathBuf,
}

impl Folder {
    /// A folder within another one, for the program of this name. It holds this
    /// net.bin, or nothing.
    pub fn with(folders: &str, program: &str, image: Option<&[u8]>) -> Folder {
        let number = MADE.fetch_add(1, Ordering::Relaxed);
        let name = format!("{program}-{}-{number}", process::id());
        let path = Path::new(folders).join(name);
        if path.exists() {
            fs::remove_dir_all(&path).expect("an old folder is removed");
        }
        fs::create_dir_all(&path).expect("a folder is made");
        if let Some(bytes) = image {
            fs::write(path.join("net.bin"), bytes).expect("net.bin is written");
        }
        Folder { path }
    }

    pub fn path(&self) -> &Path {
        &self.path
    }
}

impl Drop for Folder {
    fn drop(&mut self) {
        let _ = fs::remove_dir_all(&self.path);
    }
}
