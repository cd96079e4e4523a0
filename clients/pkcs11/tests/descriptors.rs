//! Applications that close descriptors which aren't theirs, or whose user may not connect. Each is a child of the test.

mod common;

use common::children::{alone, in_child};
use common::daemon::Daemon;
use common::module::{Module, RW};
use common::{Folder, PATIENCE};
use std::ffi::{c_int, c_uint};
use std::fs::{File, Permissions};
use std::io::{Read, Seek, Write};
use std::os::fd::AsRawFd;
use std::os::unix::fs::PermissionsExt;
use std::os::unix::net::{UnixListener, UnixStream};
use std::time::{Duration, Instant};
use tokend_pkcs11::abi::codes::*;

unsafe extern "C" {
    fn close(descriptor: c_int) -> c_int;
    fn setresgid(real: c_uint, effective: c_uint, saved: c_uint) -> c_int;
    fn setresuid(real: c_uint, effective: c_uint, saved: c_uint) -> c_int;
    fn write(descriptor: c_int, bytes: *const u8, len: usize) -> isize;
}

const NOBODY: c_uint = 65_534;

fn close_all(from: c_int, to: c_int) {
    for descriptor in from..to {
        // SAFETY: this is what an application does that becomes a daemon; what owned it isn't used any more, and ends with the child.
        unsafe { close(descriptor) };
    }
}

fn begun(folder: &Folder) -> Module {
    let module = Module::load(folder, "module.so");
    assert_eq!(module.initialize(folder), CKR_OK);
    module
}

/// Files by all numbers up to this one, each with a text.
fn files(folder: &Folder, up_to: c_int) -> Vec<File> {
    let open = |name: usize| {
        let mut file =
            File::options().read(true).write(true).create(true).truncate(true).open(folder.file(&format!("file-{name}"))).unwrap();
        file.write_all(b"the application's").unwrap();
        file
    };
    let mut files = vec![open(0)];
    while files.last().is_some_and(|it| it.as_raw_fd() < up_to) {
        files.push(open(files.len()));
    }
    files
}

/// Whether the files are open, and have their text alone.
fn are_whole(files: &mut [File]) -> bool {
    files.iter_mut().all(|file| {
        let mut text = String::new();
        file.rewind().is_ok() && file.read_to_string(&mut text).is_ok() && text == "the application's"
    })
}

#[test]
fn all_closed_and_others_opened() {
    let _alone = alone();
    let folder = Folder::new();
    let _daemon = Daemon::start(&folder);
    let failed = in_child(|| {
        let module = begun(&folder);
        let session = module.open(RW).unwrap();
        close_all(3, 256);
        let mut files = files(&folder, 64);
        let mut checks = vec![
            module.session_info(session).err() == Some(CKR_DEVICE_REMOVED),
            are_whole(&mut files),
            module.session_info(session).err() == Some(CKR_SESSION_HANDLE_INVALID),
            module.token(0).is_ok(),
        ];
        let again = module.open(RW);
        checks.push(again.is_ok_and(|it| module.session_info(it).is_ok()));
        close_all(files.last().unwrap().as_raw_fd() + 1, 256);
        files.extend(self::files(&folder, 0));
        checks.push(module.finalize() == CKR_OK && are_whole(&mut files[1..]));
        files.into_iter().for_each(std::mem::forget);
        checks
    });
    assert_eq!(failed, 0, "the check that failed in the child, from 1");
}

/// A forked child of an application that closed the socket and opened others keeps those.
#[test]
fn all_closed_before_a_fork() {
    let _alone = alone();
    let folder = Folder::new();
    let _daemon = Daemon::start(&folder);
    let failed = in_child(|| {
        let module = begun(&folder);
        assert!(module.open(RW).is_ok());
        close_all(3, 256);
        let mut files = files(&folder, 64);
        let inner = in_child(|| vec![are_whole(&mut files.iter().map(|it| it.try_clone().unwrap()).collect::<Vec<_>>())]);
        let checks = vec![inner == 0, are_whole(&mut files)];
        files.into_iter().for_each(std::mem::forget);
        checks
    });
    assert_eq!(failed, 0, "the check that failed in the child, from 1");
}

/// By the number of the module's socket there is now one of the application's own, at which nobody answers.
#[test]
fn all_closed_and_a_socket_opened() {
    let _alone = alone();
    let folder = Folder::new();
    let _daemon = Daemon::start(&folder);
    let failed = in_child(|| {
        let module = begun(&folder);
        let session = module.open(RW).unwrap();
        close_all(3, 256);
        let pairs: Vec<_> = (0..30).map(|_| UnixStream::pair().unwrap()).collect();
        let since = Instant::now();
        let code = module.session_info(session).err();
        let mut checks = vec![code == Some(CKR_DEVICE_REMOVED), since.elapsed() < Duration::from_secs(30), module.finalize() == CKR_OK];
        for (one, other) in &pairs {
            other.set_nonblocking(true).unwrap();
            // (nothing was sent on it, and it isn't shut)
            checks.push(Read::read(&mut &*other, &mut [0]).is_err_and(|it| it.kind() == std::io::ErrorKind::WouldBlock));
            checks.push(Write::write(&mut &*one, b"x").is_ok());
        }
        pairs.into_iter().for_each(std::mem::forget);
        checks
    });
    assert_eq!(failed, 0, "the check that failed in the child, from 1");
}

/// What the application prints without streams isn't sent to the daemon.
#[test]
fn streams_closed() {
    let _alone = alone();
    let folder = Folder::new();
    let _daemon = Daemon::start(&folder);
    for closed in [0..1, 0..3, 1..3, 2..3] {
        let failed = in_child(|| {
            let module = Module::load(&folder, "module.so");
            close_all(closed.start, closed.end);
            assert_eq!(module.initialize(&folder), CKR_OK);
            let session = module.open(RW);
            let mut checks = vec![session.is_ok()];
            for stream in closed.clone() {
                // SAFETY: it writes the bytes of a text, to nothing.
                checks.push(unsafe { write(stream, b"text".as_ptr(), 4) } == -1);
            }
            checks.push(session.is_ok_and(|it| module.session_info(it).is_ok()));
            checks.push(module.finalize() == CKR_OK);
            checks
        });
        assert_eq!(failed, 0, "{closed:?}: the check that failed in the child, from 1");
    }
}

#[test]
fn no_permission() {
    let _alone = alone();
    let folder = Folder::new();
    let socket = folder.file("s");
    let _listener = UnixListener::bind(&socket).unwrap();
    let trace = folder.file("trace");
    let settings = format!("{PATIENCE}socket = {}\ntrace = {}\n", socket.display(), trace.display());
    std::fs::write(folder.file("pkcs11.conf"), settings).unwrap();
    std::fs::write(&trace, "").unwrap();
    for (path, mode) in [(folder.path(), 0o755), (&folder.file("pkcs11.conf"), 0o644), (&trace, 0o666), (&socket, 0)] {
        std::fs::set_permissions(path, Permissions::from_mode(mode)).unwrap();
    }
    let module = Module::load(&folder, "module.so");
    let failed = in_child(|| {
        // SAFETY: it makes this child one of nobody's, if it is root's. (Root may connect to each socket.)
        unsafe {
            setresgid(NOBODY, NOBODY, NOBODY);
            setresuid(NOBODY, NOBODY, NOBODY);
        }
        let code = module.initialize_at("", &folder.file("pkcs11.conf"));
        let (text, is_present) = module.slot(0).unwrap_or_default();
        let checks =
            vec![code == CKR_OK, text.ends_with(": permission denied"), !is_present, module.open(RW) == Err(CKR_TOKEN_NOT_PRESENT)];
        let traced = std::fs::read_to_string(&trace).unwrap();
        [checks, vec![traced.contains(&format!(" socket {}: permission denied\n", socket.display()))]].concat()
    });
    assert_eq!(failed, 0, "the check that failed in the child, from 1");
}
