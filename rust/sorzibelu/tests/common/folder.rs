//! A folder for a test, for the tests of rust/harness too.
use std::{
    env, fs,
    ops::Deref,
    path::{Path, PathBuf},
    process,
};

/// An empty folder of a test's own, which goes with it. It lies outside the checkout, where the gate takes no link and no second crates.txt.
pub struct Folder(PathBuf);

pub fn folder(name: &str) -> Folder {
    let dir = env::temp_dir().join(format!("sorzibelu-{name}-{}", process::id()));
    let _ = fs::remove_dir_all(&dir);
    fs::create_dir_all(&dir).unwrap();
    Folder(dir)
}

impl Deref for Folder {
    type Target = Path;

    fn deref(&self) -> &Path {
        &self.0
    }
}

impl AsRef<Path> for Folder {
    fn as_ref(&self) -> &Path {
        self
    }
}

impl Drop for Folder {
    fn drop(&mut self) {
        let _ = fs::remove_dir_all(&self.0);
    }
}
