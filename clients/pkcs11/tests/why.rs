//! Why no token is there: the slot's description and the trace have the socket and the cause, and nobody waits for long. And what tells
//! tokens apart.

mod common;

use common::daemon::Daemon;
use common::module::{Module, RW};
use common::{Folder, PATIENCE};
use std::ffi::c_int;
use std::os::fd::AsRawFd;
use std::os::unix::fs::symlink;
use std::os::unix::net::{UnixListener, UnixStream};
use std::path::Path;
use std::time::{Duration, Instant};
use tokend_pkcs11::abi::codes::*;

unsafe extern "C" {
    fn listen(socket: c_int, queue: c_int) -> c_int;
}

/// What C_GetSlotInfo and the trace have of a socket, which must be the same.
fn cause_at(module: &Module, folder: &Folder, socket: &Path) -> String {
    let trace = folder.file("trace");
    let _ = std::fs::remove_file(&trace);
    let settings = format!("{PATIENCE}socket = {}\ntrace = {}\n", socket.display(), trace.display());
    std::fs::write(folder.file("why.conf"), settings).unwrap();
    assert_eq!(module.initialize_at("", &folder.file("why.conf")), CKR_OK);
    let (text, is_present) = module.slot(0).unwrap();
    assert!(!is_present);
    assert_eq!(module.open(RW), Err(CKR_TOKEN_NOT_PRESENT));
    assert_eq!(module.finalize(), CKR_OK);
    let cause = text.rsplit(": ").next().unwrap().to_owned();
    let traced = std::fs::read_to_string(trace).unwrap();
    let line = format!(" socket {}: {cause}\n", socket.display());
    assert!(traced.contains(&line), "{traced} has no {line}");
    assert!(traced.contains("C_OpenSession CKR_TOKEN_NOT_PRESENT 0xe0"));
    let path = socket.display().to_string();
    assert!(text.starts_with("tokend: /") && text.contains(&path) || text.starts_with("tokend: ...") && text.len() == 64, "{text}");
    cause
}

#[test]
fn each_cause() {
    let folder = Folder::new();
    let module = Module::load(&folder, "module.so");
    let socket = folder.file("s");
    assert_eq!(cause_at(&module, &folder, &socket), "no such file");
    drop(UnixListener::bind(&socket).unwrap());
    assert_eq!(cause_at(&module, &folder, &socket), "nobody listens");
    std::fs::write(folder.file("file"), "").unwrap();
    assert_eq!(cause_at(&module, &folder, &folder.file("file")), "no socket");
    assert_eq!(cause_at(&module, &folder, &folder.file("file/s")), "not a directory");
    assert_eq!(cause_at(&module, &folder, &folder.file(&"x".repeat(200))), "no path of a socket");
}

/// Several calls in a row on a token that doesn't answer: they wait once, and at most two seconds, whatever the machine does beside.
fn waits_once(module: &Module) {
    let since = Instant::now();
    assert_eq!(module.slots(true), Ok(vec![]));
    let (text, is_present) = module.slot(0).unwrap();
    assert!(text.ends_with(": no answer in 2 s") && !is_present, "{text}");
    assert_eq!(module.token(0).err(), Some(CKR_TOKEN_NOT_PRESENT));
    assert_eq!(module.open(RW), Err(CKR_TOKEN_NOT_PRESENT));
    assert_eq!(module.init_token("so pin", "a token"), CKR_TOKEN_NOT_PRESENT);
    let took = since.elapsed();
    assert!(took >= Duration::from_millis(1_900) && took < Duration::from_millis(3_500), "it took {took:?}");
}

#[test]
fn a_full_daemon() {
    let folder = Folder::new();
    let _daemon = Daemon::start(&folder);
    let others: Vec<_> = (0..4).map(|it| Module::load(&folder, &format!("module-{it}.so"))).collect();
    let sessions = others.iter().map(|module| {
        assert_eq!(module.initialize(&folder), CKR_OK);
        module.open(RW).unwrap()
    });
    let sessions: Vec<_> = sessions.collect();
    let module = Module::load(&folder, "module.so");
    assert_eq!(module.initialize_at(folder.file("socket"), &folder.file("none")), CKR_OK);
    waits_once(&module);
    // (a place is free, and after a while it is taken)
    assert_eq!(others[0].close(sessions[0]), CKR_OK);
    std::thread::sleep(Duration::from_secs(5));
    assert!(module.open(RW).is_ok());
}

#[test]
fn a_daemon_that_is_stopped() {
    let folder = Folder::new();
    let daemon = Daemon::start(&folder);
    let module = Module::load(&folder, "module.so");
    assert_eq!(module.initialize_at(folder.file("socket"), &folder.file("none")), CKR_OK);
    daemon.stop();
    waits_once(&module);
    drop(daemon);
    // (that it is gone is seen once it is asked again, or by another application)
    let other = Module::load(&folder, "other.so");
    assert_eq!(other.initialize(&folder), CKR_OK);
    assert!(other.slot(0).unwrap().0.ends_with(": nobody listens"));
}

/// A queue that is full: the system lets nobody connect.
#[test]
fn a_daemon_that_accepts_nobody() {
    let folder = Folder::new();
    let listener = UnixListener::bind(folder.file("socket")).unwrap();
    // SAFETY: it is the descriptor of a socket.
    assert_eq!(unsafe { listen(listener.as_raw_fd(), 0) }, 0);
    let _waiting = UnixStream::connect(folder.file("socket")).unwrap();
    let module = Module::load(&folder, "module.so");
    assert_eq!(module.initialize_at(folder.file("socket"), &folder.file("none")), CKR_OK);
    waits_once(&module);
}

#[test]
fn one_socket_by_five_names_is_one_token() {
    let folder = Folder::new();
    let _daemon = Daemon::start(&folder);
    symlink(folder.file("socket"), folder.file("link")).unwrap();
    symlink(folder.path(), folder.file("folder")).unwrap();
    std::fs::create_dir(folder.file("inner")).unwrap();
    let names = ["socket", "./socket", "inner/../socket", "folder/socket", "link"];
    let module = Module::load(&folder, "module.so");
    let serials = names.map(|name| {
        let socket = format!("{}//{name}", folder.path().display());
        assert_eq!(module.initialize_at(socket, &folder.file("pkcs11.conf")), CKR_OK);
        let serial = module.token(0).unwrap().serial_number;
        assert_eq!(module.finalize(), CKR_OK);
        serial
    });
    assert_eq!(serials, [serials[0]; 5]);
}

#[test]
fn a_serial_number_of_the_settings() {
    let folder = Folder::new();
    let _daemon = Daemon::start(&folder);
    let settings = format!("{PATIENCE}socket = {}\nserial = rack-7\n", folder.file("socket").display());
    std::fs::write(folder.file("serial.conf"), settings).unwrap();
    let module = Module::load(&folder, "module.so");
    assert_eq!(module.initialize_at("", &folder.file("serial.conf")), CKR_OK);
    assert_eq!(&module.token(0).unwrap().serial_number, b"rack-7          ");
}
