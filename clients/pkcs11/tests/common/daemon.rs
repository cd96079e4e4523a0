//! A daemon of a test's own.

use super::{Folder, repository};
use std::ffi::c_int;
use std::io::Read;
use std::path::PathBuf;
use std::process::{Child, Command, Stdio};

/// The program: what `TOKEND` names, or the one that the repository's gate or build left.
pub fn program() -> PathBuf {
    if let Some(path) = std::env::var_os("TOKEND") {
        return path.into();
    }
    let places = ["crates/tokend/out/tokend", "out/tokend"].map(|it| repository().join(it));
    places.into_iter().find(|it| it.is_file()).expect("tokend is built, or TOKEND names it")
}

/// A daemon that is killed with the test.
pub struct Daemon {
    child: Child,
}

impl Daemon {
    /// Starts one on the socket and the store of a folder, and waits until it listens.
    pub fn start(folder: &Folder) -> Daemon {
        Daemon::start_at(folder, "socket", "store")
    }

    /// Starts one on a socket and a store of a folder, by their names.
    pub fn start_at(folder: &Folder, socket: &str, store: &str) -> Daemon {
        std::fs::write(folder.file("seed"), [7; 32]).expect("a seed");
        let words = [("--store", store), ("--socket", socket), ("--seed-file", "seed")];
        let words = words.into_iter().flat_map(|(option, name)| [option.into(), folder.file(name)]);
        // (a stream of the test's own would stay open behind the test)
        let errors = std::fs::File::create(folder.file("errors")).expect("a file for errors");
        let command = &mut Command::new(program());
        let command = command.arg("serve").args(words).stdin(Stdio::null()).stdout(Stdio::piped()).stderr(errors);
        let mut child = command.spawn().expect("the daemon starts");
        let mut said = [0; 6];
        child.stdout.as_mut().expect("its output").read_exact(&mut said).expect("the daemon says that it is ready");
        assert_eq!(&said, b"ready\n");
        Daemon { child }
    }
}

unsafe extern "C" {
    fn kill(process: c_int, signal: c_int) -> c_int;
}

const SIGSTOP: c_int = 19;

impl Daemon {
    /// Stops it: it is there, and answers nothing. (The kernel takes connections for it still.)
    pub fn stop(&self) {
        // SAFETY: it is a process that this one started, and that wasn't waited for.
        assert_eq!(unsafe { kill(self.child.id() as c_int, SIGSTOP) }, 0);
    }
}

impl Drop for Daemon {
    fn drop(&mut self) {
        let _ = self.child.kill();
        let _ = self.child.wait();
    }
}
