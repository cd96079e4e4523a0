//! No daemon, a daemon that doesn't answer, settings, and the trace.

mod common;

use common::daemon::Daemon;
use common::module::{Module, RW};
use common::{Folder, PATIENCE, templates::*};
use std::io::{Read, Write};
use std::os::unix::net::UnixListener;
use std::ptr::null_mut;
use std::time::{Duration, Instant};
use tokend_pkcs11::abi::codes::*;
use tokend_pkcs11::abi::*;

/// What an application sees where no token is.
fn sees_no_token(module: &Module) {
    let c = module.c;
    unsafe {
        let mut count = 9;
        assert_eq!((c.C_GetSlotList)(0, null_mut(), &mut count), CKR_OK);
        assert_eq!(count, 1);
        assert_eq!((c.C_GetSlotList)(1, null_mut(), &mut count), CKR_OK);
        assert_eq!(count, 0);
        let mut slot: CK_SLOT_INFO = std::mem::zeroed();
        assert_eq!((c.C_GetSlotInfo)(0, &mut slot), CKR_OK);
        assert_eq!(slot.flags, 2);
        let mut token = std::mem::zeroed();
        assert_eq!((c.C_GetTokenInfo)(0, &mut token), CKR_TOKEN_NOT_PRESENT);
        assert_eq!((c.C_GetMechanismList)(0, null_mut(), &mut count), CKR_TOKEN_NOT_PRESENT);
        assert_eq!((c.C_CloseAllSessions)(0), CKR_OK);
    }
    assert_eq!(module.open(RW), Err(CKR_TOKEN_NOT_PRESENT));
    assert_eq!(module.session_info(1).err(), Some(CKR_SESSION_HANDLE_INVALID));
    assert_eq!(module.init_token("so pin", "a token"), CKR_TOKEN_NOT_PRESENT);
}

#[test]
fn no_daemon() {
    let folder = Folder::new();
    let module = Module::load(&folder, "module.so");
    assert_eq!(module.initialize(&folder), CKR_OK);
    sees_no_token(&module);
    // (a socket that a daemon left behind)
    drop(UnixListener::bind(folder.file("socket")).unwrap());
    sees_no_token(&module);
    std::fs::remove_file(folder.file("socket")).unwrap();
    let _daemon = Daemon::start(&folder);
    assert!(module.open(RW).is_ok());
    assert_eq!(module.finalize(), CKR_OK);
}

#[test]
fn a_path_that_no_socket_can_have() {
    let folder = Folder::new();
    let module = Module::load(&folder, "module.so");
    assert_eq!(module.initialize_at(folder.file(&"x".repeat(200)), &folder.file("none")), CKR_OK);
    sees_no_token(&module);
}

#[test]
fn a_daemon_that_does_not_answer() {
    let folder = Folder::new();
    std::fs::write(folder.file("pkcs11.conf"), "timeout = 1\nconnect-timeout = 1\n").unwrap();
    // (the system accepts a few, and then keeps whoever connects waiting)
    let _listener = UnixListener::bind(folder.file("socket")).unwrap();
    let module = Module::load(&folder, "module.so");
    assert_eq!(module.initialize(&folder), CKR_OK);
    let since = Instant::now();
    assert_eq!(module.open(RW), Err(CKR_TOKEN_NOT_PRESENT));
    let took = since.elapsed();
    assert!(took >= Duration::from_secs(1) && took < Duration::from_secs(4), "it took {took:?}");
    assert_eq!(module.finalize(), CKR_OK);
}

/// The daemon would read what was sent on a connection that it comes to later: C_InitToken isn't sent before something was answered.
#[test]
fn a_token_is_not_made_anew_later() {
    let folder = Folder::new();
    std::fs::write(folder.file("pkcs11.conf"), "timeout = 1\nconnect-timeout = 1\n").unwrap();
    let listener = UnixListener::bind(folder.file("socket")).unwrap();
    let module = Module::load(&folder, "module.so");
    assert_eq!(module.initialize(&folder), CKR_OK);
    assert_eq!(module.init_token("so pin", "a token"), CKR_TOKEN_NOT_PRESENT);
    let mut sent = Vec::new();
    listener.accept().unwrap().0.read_to_end(&mut sent).unwrap();
    // (C_CloseAllSessions of slot 0, and nothing more)
    assert_eq!(sent, [0, 0, 0, 10, 0, 9, 0, 0, 0, 0, 0, 0, 0, 0]);
}

/// Answers the first request and C_OpenSession, and then sends a byte of a reply now and then.
#[test]
fn a_daemon_that_answers_for_ever() {
    let folder = Folder::new();
    std::fs::write(folder.file("pkcs11.conf"), "timeout = 1\nconnect-timeout = 60\n").unwrap();
    let listener = UnixListener::bind(folder.file("socket")).unwrap();
    std::thread::spawn(move || {
        let (mut stream, _) = listener.accept().unwrap();
        let mut request = [0; 256];
        for reply in [&[&[0, 0, 0, 8][..], &[0; 8]].concat(), &[&[0, 0, 0, 16][..], &[0; 15], &[1]].concat()] {
            let _ = stream.read(&mut request).unwrap();
            stream.write_all(reply).unwrap();
        }
        for byte in [0, 0, 1, 0].into_iter().chain(std::iter::repeat_n(0, 100)) {
            std::thread::sleep(Duration::from_millis(300));
            if stream.write_all(&[byte]).is_err() {
                return;
            }
        }
    });
    let module = Module::load(&folder, "module.so");
    assert_eq!(module.initialize(&folder), CKR_OK);
    let session = module.open(RW).unwrap();
    let since = Instant::now();
    assert_eq!(module.session_info(session).err(), Some(CKR_DEVICE_REMOVED));
    assert!(since.elapsed() < Duration::from_secs(5));
    assert_eq!(module.session_info(session).err(), Some(CKR_SESSION_HANDLE_INVALID));
}

/// The daemon serves four at once. A connection is held from the first session to the last alone, so more may take turns.
#[test]
fn who_has_no_session_takes_no_place() {
    let folder = Folder::new();
    let _daemon = Daemon::start(&folder);
    let modules: Vec<Module> = (0..6).map(|it| Module::load(&folder, &format!("module-{it}.so"))).collect();
    for module in &modules {
        assert_eq!(module.initialize(&folder), CKR_OK);
        let first = module.open(RW).unwrap();
        let second = module.open(RW).unwrap();
        assert_eq!([module.close(first), module.close(second)], [CKR_OK; 2]);
    }
    for module in &modules {
        let mut token: CK_TOKEN_INFO = unsafe { std::mem::zeroed() };
        assert_eq!(unsafe { (module.c.C_GetTokenInfo)(0, &mut token) }, CKR_OK);
        let session = module.open(RW).unwrap();
        assert_eq!(unsafe { (module.c.C_CloseAllSessions)(0) }, CKR_OK);
        assert_eq!(module.close(session), CKR_SESSION_HANDLE_INVALID);
    }
}

#[test]
fn settings_that_are_none() {
    let folder = Folder::new();
    let module = Module::load(&folder, "module.so");
    std::fs::write(folder.file("pkcs11.conf"), "socket: /run/x\n").unwrap();
    assert_eq!(module.initialize(&folder), CKR_GENERAL_ERROR);
    std::fs::remove_file(folder.file("pkcs11.conf")).unwrap();
    std::fs::create_dir(folder.file("pkcs11.conf")).unwrap();
    assert_eq!(module.initialize(&folder), CKR_GENERAL_ERROR);
    std::fs::remove_dir(folder.file("pkcs11.conf")).unwrap();
    assert_eq!(module.initialize(&folder), CKR_OK);
}

#[test]
fn the_socket_of_the_file_of_settings() {
    let folder = Folder::new();
    let _daemon = Daemon::start(&folder);
    let file = folder.file("pkcs11.conf");
    std::fs::write(&file, format!("{PATIENCE}socket = {}\n", folder.file("socket").display())).unwrap();
    let module = Module::load(&folder, "module.so");
    assert_eq!(module.initialize_at("", &file), CKR_OK);
    assert!(module.open(RW).is_ok());
}

#[test]
fn a_trace_has_calls_and_codes_and_no_secret() {
    let folder = Folder::new();
    let _daemon = Daemon::start(&folder);
    let trace = folder.file("trace");
    std::fs::write(folder.file("pkcs11.conf"), format!("{PATIENCE}trace = {}\n", trace.display())).unwrap();
    let module = Module::load(&folder, "module.so");
    assert_eq!(module.initialize(&folder), CKR_OK);
    assert_eq!(module.init_token("so pin", "a token"), CKR_OK);
    let session = module.open(RW).unwrap();
    assert_eq!(module.login(session, 0, "other pin"), CKR_PIN_INCORRECT);
    module.create(session, &aes_key(NO, b"label of a key")).unwrap();
    assert_eq!(module.finalize(), CKR_OK);
    let text = std::fs::read_to_string(&trace).unwrap();
    let calls: Vec<_> = text.lines().map(|it| it.split_whitespace().skip(2).collect::<Vec<_>>().join(" ")).collect();
    let wanted = [
        "C_Initialize CKR_OK 0x0",
        "C_InitToken CKR_OK 0x0",
        "C_OpenSession CKR_OK 0x0",
        "C_Login CKR_PIN_INCORRECT 0xa0",
        "C_CreateObject CKR_OK 0x0",
        "C_Finalize CKR_OK 0x0",
    ];
    assert_eq!(calls, wanted);
    assert!(["pin", "label", "token"].iter().all(|it| !text.contains(&format!("{it} ")) && !text.contains(&format!(" {it}"))));
    use std::os::unix::fs::PermissionsExt;
    assert_eq!(std::fs::metadata(&trace).unwrap().permissions().mode() & 0o777, 0o600);
}
