//! What the tests share: a daemon of their own, the module as an application loads it, and its calls in Rust's manner.

#![allow(dead_code)]

pub mod children;
pub mod daemon;
pub mod module;
pub mod templates;

use std::path::{Path, PathBuf};
use std::sync::atomic::{AtomicU32, Ordering::SeqCst};

/// Settings by which the module waits for long.
pub const PATIENCE: &str = "timeout = 600\nconnect-timeout = 600\n";

/// A folder of a test's own, which goes with it.
pub struct Folder {
    path: PathBuf,
}

impl Folder {
    pub fn new() -> Folder {
        static COUNT: AtomicU32 = AtomicU32::new(0);
        let name = format!("tokend-module-{}-{}", std::process::id(), COUNT.fetch_add(1, SeqCst));
        let path = std::env::temp_dir().join(name);
        std::fs::create_dir(&path).expect("a folder for the test");
        // (a machine that does much else is no reason to give up)
        std::fs::write(path.join("pkcs11.conf"), PATIENCE).expect("settings");
        Folder { path }
    }

    pub fn file(&self, name: &str) -> PathBuf {
        self.path.join(name)
    }

    pub fn path(&self) -> &Path {
        &self.path
    }
}

impl Drop for Folder {
    fn drop(&mut self) {
        let _ = std::fs::remove_dir_all(&self.path);
    }
}

/// The top of the repository.
pub fn repository() -> PathBuf {
    Path::new(env!("CARGO_MANIFEST_DIR")).join("../..")
}
