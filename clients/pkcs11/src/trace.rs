//! A trace of calls and of what they were answered, for whoever looks for a fault. It has no handle, value, name or PIN.
//!
//! A line a call: seconds since 1970, the process, the function, the code. Before the line of a call that found no daemon stands one with
//! the socket and the cause. The file is opened for each line, so that it may be moved
//! away meanwhile, and so that no descriptor of the module stays open in the application. What can't be written is left out.

use crate::abi::{CK_RV, codes};
use crate::absence::{Absence, text_of};
use std::fs::OpenOptions;
use std::io::Write;
use std::os::unix::fs::OpenOptionsExt;
use std::path::{Path, PathBuf};
use std::sync::OnceLock;
use std::time::{SystemTime, UNIX_EPOCH};

/// The file of this process: that of its first C_Initialize that had one.
static FILE: OnceLock<PathBuf> = OnceLock::new();

/// From now on calls are traced to a file.
pub fn begin(file: &Path) {
    let _ = FILE.set(file.to_path_buf());
}

/// Notes a call, if calls are traced.
pub fn note(function: &str, code: CK_RV) {
    add(|| {
        let name = codes::name(code).unwrap_or("CKR_VENDOR_DEFINED");
        format!("{function} {name} {:#x}", code.0)
    });
}

/// Notes why nobody answers at a socket, if calls are traced.
pub fn note_absence(socket: &Path, absence: Absence) {
    add(|| format!("socket {}: {absence}", text_of(socket)));
}

fn add(event: impl FnOnce() -> String) {
    if let Some(file) = FILE.get() {
        let _ = write(file, &line(&event()));
    }
}

fn line(event: &str) -> String {
    let since = SystemTime::now().duration_since(UNIX_EPOCH).unwrap_or_default();
    let (seconds, millis, process) = (since.as_secs(), since.subsec_millis(), std::process::id());
    format!("{seconds}.{millis:03} {process} {event}\n")
}

fn write(file: &Path, line: &str) -> std::io::Result<()> {
    OpenOptions::new().append(true).create(true).mode(0o600).open(file)?.write_all(line.as_bytes())
}
