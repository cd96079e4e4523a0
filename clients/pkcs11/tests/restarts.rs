//! A daemon that is killed and started again: between any two calls, before C_OpenSession, with an operation open.

mod common;

use common::daemon::Daemon;
use common::module::{Init, Module, RW};
use common::{Folder, templates::*};
use tokend_pkcs11::abi::codes::*;
use tokend_pkcs11::abi::*;

/// What an application has so far.
struct Application {
    module: Module,
    session: u64,
    key: u64,
}

type Step = fn(&mut Application) -> Result<(), CK_RV>;

/// The steps of an application, each of which succeeds where the daemon stayed.
const STEPS: &[Step] = &[
    |it| {
        it.session = it.module.open(RW)?;
        Ok(())
    },
    |it| {
        it.key = it.module.create(it.session, &aes_key(NO, b"key"))?;
        Ok(())
    },
    |it| it.module.session_info(it.session).map(|_| ()),
    |it| it.module.value(it.session, it.key, LABEL).map(|_| ()),
    |it| code(it.module.begin(Init::Encrypt, it.session, AES_CBC_PAD, &[1; 16], it.key)),
    |it| it.module.encrypt_update(it.session, &[7; 40]).map(|_| ()),
    |it| it.module.encrypt_final(it.session).map(|_| ()),
    |it| it.module.find(it.session, &[], 5).map(|_| ()),
    |it| it.module.random(it.session, 100).map(|_| ()),
    |it| code(it.module.destroy(it.session, it.key)),
    |it| code(it.module.close(it.session)),
    |it| {
        it.session = it.module.open(RW)?;
        Ok(())
    },
];

fn code(code: CK_RV) -> Result<(), CK_RV> {
    if code == CKR_OK { Ok(()) } else { Err(code) }
}

#[test]
fn between_any_two_calls() {
    for stop in 0..STEPS.len() {
        let folder = Folder::new();
        let mut daemon = Daemon::start(&folder);
        let module = Module::load(&folder, "module.so");
        assert_eq!(module.initialize(&folder), CKR_OK);
        let mut application = Application { module, session: 0, key: 0 };
        for (number, step) in STEPS.iter().enumerate() {
            if number == stop {
                drop(daemon);
                daemon = Daemon::start(&folder);
            }
            let opens = [0, STEPS.len() - 1].contains(&number);
            let old_session = application.session;
            let found = step(&mut application);
            let wanted = match number {
                // (C_OpenSession connects again, and what it opens is there)
                _ if opens || number < stop || stop == 0 => Ok(()),
                _ if number == stop => Err(CKR_DEVICE_REMOVED),
                _ => Err(CKR_SESSION_HANDLE_INVALID),
            };
            assert_eq!(found, wanted, "step {number}, stopped before {stop}");
            assert!(!opens || application.session > old_session, "a session's handle came back");
        }
        // (an old key is none of the new session's, though the daemon counts from 1 again)
        let fresh = application.module.create(application.session, &aes_key(NO, b"new")).unwrap();
        assert!(fresh > application.key);
        if application.key != 0 {
            assert_eq!(application.module.value(application.session, application.key, LABEL), Err(CKR_OBJECT_HANDLE_INVALID));
            let begun = application.module.begin(Init::Encrypt, application.session, AES_ECB, &[], application.key);
            assert_eq!(begun, CKR_KEY_HANDLE_INVALID);
        }
        assert_eq!(application.module.finalize(), CKR_OK);
        drop(daemon);
    }
}

#[test]
fn calls_on_the_slot_connect_again() {
    let folder = Folder::new();
    let daemon = Daemon::start(&folder);
    let module = Module::load(&folder, "module.so");
    assert_eq!(module.initialize(&folder), CKR_OK);
    let session = module.open(RW).unwrap();
    drop(daemon);
    let mut token: CK_TOKEN_INFO = unsafe { std::mem::zeroed() };
    unsafe {
        assert_eq!((module.c.C_GetTokenInfo)(0, &mut token), CKR_TOKEN_NOT_PRESENT);
        assert_eq!((module.c.C_GetTokenInfo)(0, &mut token), CKR_TOKEN_NOT_PRESENT);
    }
    assert_eq!(module.open(RW), Err(CKR_TOKEN_NOT_PRESENT));
    assert_eq!(module.close(session), CKR_SESSION_HANDLE_INVALID);
    let daemon = Daemon::start(&folder);
    let session = module.open(RW).unwrap();
    drop(daemon);
    let _daemon = Daemon::start(&folder);
    unsafe { assert_eq!((module.c.C_GetTokenInfo)(0, &mut token), CKR_OK) };
    assert_eq!(module.session_info(session).err(), Some(CKR_SESSION_HANDLE_INVALID));
    assert_eq!(module.finalize(), CKR_OK);
}

#[test]
fn a_token_is_not_made_anew_twice() {
    let folder = Folder::new();
    let daemon = Daemon::start(&folder);
    let module = Module::load(&folder, "module.so");
    assert_eq!(module.initialize(&folder), CKR_OK);
    module.open(RW).unwrap();
    drop(daemon);
    let _daemon = Daemon::start(&folder);
    assert_eq!(module.init_token("so pin", "a token"), CKR_DEVICE_REMOVED);
    assert_eq!(module.init_token("so pin", "a token"), CKR_OK);
}

#[test]
fn what_was_acknowledged_is_there_afterwards() {
    let folder = Folder::new();
    let daemon = Daemon::start(&folder);
    let module = Module::load(&folder, "module.so");
    assert_eq!(module.initialize(&folder), CKR_OK);
    let session = module.open(RW).unwrap();
    module.create(session, &aes_key(YES, b"lasting")).unwrap();
    drop(daemon);
    let _daemon = Daemon::start(&folder);
    assert_eq!(module.session_info(session).err(), Some(CKR_DEVICE_REMOVED));
    let session = module.open(RW).unwrap();
    assert_eq!(module.find(session, &[(LABEL, b"lasting")], 5).unwrap().len(), 1);
}
