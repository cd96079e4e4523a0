//! Several tokens in one process: a slot for each socket, in their order, with a connection of its own.

mod common;

use common::children::{alone, in_child};
use common::daemon::Daemon;
use common::module::{Init, Module, RW};
use common::{Folder, PATIENCE, templates::*};
use std::ptr::null_mut;
use tokend_pkcs11::abi::codes::*;

/// Two daemons, and a module whose settings have both sockets.
fn two(folder: &Folder) -> ([Daemon; 2], Module) {
    let daemons = ["one", "two"].map(|it| Daemon::start_at(folder, it, &format!("{it}.db")));
    let module = Module::load(folder, "module.so");
    assert_eq!(module.initialize_at("", &settings(folder)), CKR_OK);
    (daemons, module)
}

/// Settings with both sockets.
fn settings(folder: &Folder) -> std::path::PathBuf {
    let [one, two] = ["one", "two"].map(|it| folder.file(it));
    let text = format!("{PATIENCE}socket = {}\nsocket = {}\nserial = second\n", one.display(), two.display());
    std::fs::write(folder.file("two.conf"), text).unwrap();
    folder.file("two.conf")
}

#[test]
fn a_slot_for_each_socket() {
    let _alone = alone();
    let folder = Folder::new();
    let (daemons, module) = two(&folder);
    assert_eq!(module.slots(false), Ok(vec![0, 1]));
    assert_eq!(module.slots(true), Ok(vec![0, 1]));
    assert_eq!(module.init_token_at(0, "so pin", "the first"), CKR_OK);
    assert_eq!(module.init_token_at(1, "another pin", "the second"), CKR_OK);
    let [one, two] = [0, 1].map(|it| module.token(it).unwrap());
    assert_eq!((&one.label[..9], &two.label[..10]), (&b"the first"[..], &b"the second"[..]));
    assert_eq!(&two.serial_number, b"second          ");
    assert_ne!(one.serial_number, two.serial_number);
    assert_eq!(module.slot(1), Ok((format!("tokend: {}", folder.file("two").display()), true)));
    let [mut first, second] = daemons;
    drop(second);
    assert_eq!(module.slots(true), Ok(vec![0]));
    assert_eq!(module.token(1).err(), Some(CKR_TOKEN_NOT_PRESENT));
    first = {
        drop(first);
        Daemon::start_at(&folder, "two", "two.db")
    };
    assert_eq!((module.slots(false), module.slots(true)), (Ok(vec![0, 1]), Ok(vec![1])));
    drop(first);
    unsafe {
        let mut count = 9;
        assert_eq!((module.c.C_GetMechanismList)(2, null_mut(), &mut count), CKR_SLOT_ID_INVALID);
        assert_eq!((module.c.C_CloseAllSessions)(u64::MAX), CKR_SLOT_ID_INVALID);
    }
    assert_eq!(module.open_at(2, RW), Err(CKR_SLOT_ID_INVALID));
    assert_eq!(module.slot(2), Err(CKR_SLOT_ID_INVALID));
    assert_eq!(module.finalize(), CKR_OK);
}

#[test]
fn sessions_and_objects_are_a_token_s_own() {
    let _alone = alone();
    let folder = Folder::new();
    let (daemons, module) = two(&folder);
    let sessions = [0, 1, 0].map(|it| module.open_at(it, RW).unwrap());
    assert_eq!(sessions.map(|it| module.session_info(it).unwrap().slot_id), [0, 1, 0]);
    let keys = [0, 1].map(|it| module.create(sessions[it], &aes_key(NO, &[b'k', it as u8])).unwrap());
    assert_eq!(module.value(sessions[1], keys[1], LABEL).unwrap(), [b'k', 1]);
    // (no token takes another's handle for its own, whatever it counts)
    assert_eq!(module.value(sessions[1], keys[0], LABEL), Err(CKR_OBJECT_HANDLE_INVALID));
    assert_eq!(module.value(sessions[0], keys[1], LABEL), Err(CKR_OBJECT_HANDLE_INVALID));
    assert_eq!(module.value(sessions[2], keys[0], LABEL).unwrap(), [b'k', 0]);
    for it in 0..2 {
        assert_eq!(module.begin(Init::Encrypt, sessions[it], AES_ECB, &[], keys[it]), CKR_OK);
    }
    let texts = [0, 1].map(|it| module.encrypt(sessions[it], &[7; 16]).unwrap());
    assert_eq!(texts[0], texts[1]);
    // (sessions of one token end without the other's)
    let [one, two] = daemons;
    drop(one);
    assert_eq!(module.session_info(sessions[0]).err(), Some(CKR_DEVICE_REMOVED));
    assert_eq!(module.session_info(sessions[2]).err(), Some(CKR_SESSION_HANDLE_INVALID));
    assert_eq!(module.value(sessions[1], keys[1], LABEL).unwrap(), [b'k', 1]);
    assert_eq!(unsafe { (module.c.C_CloseAllSessions)(1) }, CKR_OK);
    assert_eq!(module.session_info(sessions[1]).err(), Some(CKR_SESSION_HANDLE_INVALID));
    let again = module.open_at(1, RW).unwrap();
    assert!(!sessions.contains(&again), "a session's handle came back");
    let beyond = [again | 1 << 63, again + (1 << 57)];
    assert_eq!(beyond.map(|it| module.session_info(it).err()), [Some(CKR_SESSION_HANDLE_INVALID); 2]);
    assert_eq!(module.finalize(), CKR_OK);
    drop(two);
}

#[test]
fn sockets_of_the_environment() {
    let _alone = alone();
    let folder = Folder::new();
    let _daemons = ["one", "two"].map(|it| Daemon::start_at(&folder, it, &format!("{it}.db")));
    let module = Module::load(&folder, "module.so");
    let [one, two] = ["two", "one"].map(|it| folder.file(it));
    let sockets = format!("{}:{}", one.display(), two.display());
    assert_eq!(module.initialize_at(sockets, &settings(&folder)), CKR_OK);
    let texts = [0, 1].map(|it| module.slot(it).unwrap().0);
    assert_eq!(texts, [one, two].map(|it| format!("tokend: {}", it.display())));
    // (a serial number of the file belongs to the file's sockets)
    assert_ne!(&module.token(1).unwrap().serial_number, b"second          ");
    assert_eq!(module.finalize(), CKR_OK);
}

#[test]
fn a_fork_with_sessions_on_both() {
    let _alone = alone();
    let folder = Folder::new();
    let (_daemons, module) = two(&folder);
    let sessions = [0, 1].map(|it| module.open_at(it, RW).unwrap());
    let failed = in_child(|| {
        let mut checks = vec![sessions.iter().all(|it| module.session_info(*it).err() == Some(CKR_CRYPTOKI_NOT_INITIALIZED))];
        checks.push(unsafe { (module.c.C_Initialize)(null_mut()) } == CKR_OK);
        checks.push(sessions.iter().all(|it| module.session_info(*it).err() == Some(CKR_SESSION_HANDLE_INVALID)));
        checks.push((0..2).all(|it| module.open_at(it, RW).is_ok_and(|session| !sessions.contains(&session))));
        checks.push(module.finalize() == CKR_OK);
        checks
    });
    assert_eq!(failed, 0, "the check that failed in the child, from 1");
    assert!(sessions.iter().all(|it| module.session_info(*it).is_ok()));
    assert_eq!(module.finalize(), CKR_OK);
}
