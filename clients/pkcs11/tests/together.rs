//! Threads of one application, and two applications beside each other.

mod common;

use common::daemon::Daemon;
use common::module::{Init, Module, RW};
use common::{Folder, templates::*};
use tokend_pkcs11::abi::codes::*;

#[test]
fn eight_threads_on_one_connection() {
    let folder = Folder::new();
    let _daemon = Daemon::start(&folder);
    let module = Module::load(&folder, "module.so");
    assert_eq!(module.initialize(&folder), CKR_OK);
    let key = module.create(module.open(RW).unwrap(), &aes_key(NO, b"shared")).unwrap();
    std::thread::scope(|scope| {
        for number in 0..8_u8 {
            scope.spawn(move || {
                let session = module.open(RW).unwrap();
                for round in 0..50 {
                    let text = vec![number; 16 * (round + 1)];
                    assert_eq!(module.begin(Init::Encrypt, session, AES_CBC, &[number; 16], key), CKR_OK);
                    let secret = module.encrypt(session, &text).unwrap();
                    assert_eq!(module.begin(Init::Decrypt, session, AES_CBC, &[number; 16], key), CKR_OK);
                    assert_eq!(module.decrypt(session, &secret).unwrap(), text);
                }
                assert_eq!(module.close(session), CKR_OK);
            });
        }
    });
    assert_eq!(module.finalize(), CKR_OK);
}

/// Two applications, logged in, with a session each.
fn two(folder: &Folder) -> [(Module, u64); 2] {
    let applications = ["one.so", "two.so"].map(|name| {
        let module = Module::load(folder, name);
        assert_eq!(module.initialize(folder), CKR_OK);
        module
    });
    assert_eq!(applications[0].init_token("so pin", "shared"), CKR_OK);
    let session = applications[0].open(RW).unwrap();
    assert_eq!(applications[0].login(session, 0, "so pin"), CKR_OK);
    assert_eq!(applications[0].init_pin(session, "user pin"), CKR_OK);
    assert_eq!(applications[0].close(session), CKR_OK);
    applications.map(|module| {
        let session = module.open(RW).unwrap();
        assert_eq!(module.login(session, 1, "user pin"), CKR_OK);
        (module, session)
    })
}

#[test]
fn what_one_makes_the_other_finds() {
    let folder = Folder::new();
    let _daemon = Daemon::start(&folder);
    let [(one, session), (two, other)] = two(&folder);
    let secret = [(CLASS, SECRET_KEY), (KEY_TYPE, AES), (TOKEN, YES), (LABEL, &b"secret"[..]), (VALUE, KEY)];
    let key = one.create(session, &secret).unwrap();
    one.create(session, &data_object(NO, b"the session's")).unwrap();
    let found = two.find(other, &[(LABEL, b"secret")], 5).unwrap();
    assert_eq!(found.len(), 1);
    assert_eq!(two.find(other, &[], 5).unwrap(), found);
    // (nobody reads a sensitive value, and nobody finds the key by it)
    assert_eq!(one.value(session, key, VALUE), Err(CKR_ATTRIBUTE_SENSITIVE));
    assert_eq!(two.value(other, found[0], VALUE), Err(CKR_ATTRIBUTE_SENSITIVE));
    assert_eq!(two.find(other, &[(VALUE, KEY)], 5).unwrap(), []);
    // (an operation has a copy of its key)
    assert_eq!(two.begin(Init::Encrypt, other, AES_ECB, &[], found[0]), CKR_OK);
    assert_eq!(one.destroy(session, key), CKR_OK);
    let text: Vec<u8> = (0..16).map(|it| it * 0x11).collect();
    assert_eq!(two.encrypt(other, &text).unwrap()[..4], [0x69, 0xc4, 0xe0, 0xd8]);
    assert_eq!(two.value(other, found[0], LABEL), Err(CKR_OBJECT_HANDLE_INVALID));
    assert_eq!(two.find(other, &[(LABEL, b"secret")], 5).unwrap(), []);
    assert_eq!([one.finalize(), two.finalize()], [CKR_OK, CKR_OK]);
}

/// A login is one application's alone.
#[test]
fn who_is_not_logged_in_sees_nothing_private() {
    let folder = Folder::new();
    let _daemon = Daemon::start(&folder);
    let [(one, session), (two, other)] = two(&folder);
    let private = [(CLASS, DATA), (TOKEN, YES), (PRIVATE, YES), (LABEL, &b"private"[..])];
    one.create(session, &private).unwrap();
    let found = two.find(other, &[(LABEL, b"private")], 5).unwrap();
    assert_eq!(found.len(), 1);
    unsafe { assert_eq!((two.c.C_Logout)(other), CKR_OK) };
    assert_eq!(two.value(other, found[0], LABEL), Err(CKR_OBJECT_HANDLE_INVALID));
    assert_eq!(two.find(other, &[], 5).unwrap(), []);
    assert_eq!(one.find(session, &[], 5).unwrap().len(), 1);
}
