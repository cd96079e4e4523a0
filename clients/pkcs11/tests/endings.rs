//! Calls that the module refuses by itself end the operation, as each call does that fails, but for too short a buffer.

mod common;

use common::daemon::Daemon;
use common::module::{Init, Module, RW};
use common::{Folder, templates::*};
use std::ptr::null_mut;
use tokend_pkcs11::Functions;
use tokend_pkcs11::abi::codes::*;
use tokend_pkcs11::abi::*;

type Call = fn(&Functions, u64) -> CK_RV;

/// More bytes than any frame has, where there are none.
const MANY: u64 = 1 << 40;

const CALLS: &[(Init, &str, Call, CK_RV)] = &[
    (Init::Encrypt, "C_EncryptFinal", |c, s| unsafe { (c.C_EncryptFinal)(s, null_mut(), null_mut()) }, CKR_ARGUMENTS_BAD),
    (Init::Encrypt, "C_Encrypt", |c, s| unsafe { (c.C_Encrypt)(s, null_mut(), 0, null_mut(), null_mut()) }, CKR_ARGUMENTS_BAD),
    (Init::Encrypt, "C_Encrypt", |c, s| unsafe { (c.C_Encrypt)(s, null_mut(), 16, null_mut(), &mut 0) }, CKR_ARGUMENTS_BAD),
    (Init::Encrypt, "C_Encrypt", |c, s| unsafe { (c.C_Encrypt)(s, null_mut(), MANY, null_mut(), &mut 0) }, CKR_ARGUMENTS_BAD),
    (Init::Encrypt, "C_EncryptUpdate", |c, s| unsafe { (c.C_EncryptUpdate)(s, null_mut(), 16, null_mut(), &mut 0) }, CKR_ARGUMENTS_BAD),
    (Init::Encrypt, "C_EncryptUpdate", |c, s| unsafe { (c.C_EncryptUpdate)(s, null_mut(), 0, null_mut(), null_mut()) }, CKR_ARGUMENTS_BAD),
    (Init::Decrypt, "C_DecryptFinal", |c, s| unsafe { (c.C_DecryptFinal)(s, null_mut(), null_mut()) }, CKR_ARGUMENTS_BAD),
    (Init::Decrypt, "C_Decrypt", |c, s| unsafe { (c.C_Decrypt)(s, null_mut(), 16, null_mut(), &mut 0) }, CKR_ARGUMENTS_BAD),
    (Init::Decrypt, "C_DecryptUpdate", |c, s| unsafe { (c.C_DecryptUpdate)(s, null_mut(), MANY, null_mut(), &mut 0) }, CKR_ARGUMENTS_BAD),
    (Init::Sign, "C_SignFinal", |c, s| unsafe { (c.C_SignFinal)(s, null_mut(), null_mut()) }, CKR_ARGUMENTS_BAD),
    (Init::Sign, "C_Sign", |c, s| unsafe { (c.C_Sign)(s, null_mut(), 0, null_mut(), null_mut()) }, CKR_ARGUMENTS_BAD),
    (Init::Sign, "C_SignUpdate", |c, s| unsafe { (c.C_SignUpdate)(s, null_mut(), 1) }, CKR_ARGUMENTS_BAD),
    (Init::Verify, "C_VerifyUpdate", |c, s| unsafe { (c.C_VerifyUpdate)(s, null_mut(), 1) }, CKR_ARGUMENTS_BAD),
    (Init::Verify, "C_Verify", |c, s| unsafe { (c.C_Verify)(s, null_mut(), 1, null_mut(), 0) }, CKR_ARGUMENTS_BAD),
    (Init::Verify, "C_VerifyFinal", |c, s| unsafe { (c.C_VerifyFinal)(s, null_mut(), 16) }, CKR_ARGUMENTS_BAD),
];

#[test]
fn a_refused_call_ends_its_operation() {
    let folder = Folder::new();
    let _daemon = Daemon::start(&folder);
    let module = Module::load(&folder, "module.so");
    assert_eq!(module.initialize(&folder), CKR_OK);
    let session = module.open(RW).unwrap();
    let key = module.create(session, &aes_key(NO, b"key")).unwrap();
    let begin = |how| {
        let mechanism = if matches!(how, Init::Sign | Init::Verify) { AES_CMAC } else { AES_ECB };
        module.begin(how, session, mechanism, &[], key)
    };
    for (how, name, call, code) in CALLS {
        assert_eq!(begin(*how), CKR_OK, "{name}");
        assert_eq!(call(module.c, session), *code, "{name}");
        // (a new operation can begin, which it couldn't beside another)
        assert_eq!(begin(*how), CKR_OK, "{name} left the operation active");
        assert_eq!(unsafe { (module.c.C_EncryptFinal)(session + 1, null_mut(), null_mut()) }, CKR_ARGUMENTS_BAD);
        assert_eq!(begin(*how), CKR_OPERATION_ACTIVE, "{name}");
        assert_eq!(module.session_info(session).map(|it| it.state), Ok(2));
        assert_eq!(unsafe { cancel(&module, *how, session) }, CKR_OK);
    }
}

unsafe fn cancel(module: &Module, how: Init, session: u64) -> CK_RV {
    let init = match how {
        Init::Encrypt => module.c.C_EncryptInit,
        Init::Decrypt => module.c.C_DecryptInit,
        Init::Sign => module.c.C_SignInit,
        Init::Verify => module.c.C_VerifyInit,
    };
    // SAFETY: a call without a mechanism, which ends the operation.
    unsafe { init(session, null_mut(), 0) }
}

/// Too short a buffer ends nothing, whichever part refuses it.
#[test]
fn a_short_buffer_ends_nothing() {
    let folder = Folder::new();
    let _daemon = Daemon::start(&folder);
    let module = Module::load(&folder, "module.so");
    assert_eq!(module.initialize(&folder), CKR_OK);
    let session = module.open(RW).unwrap();
    let key = module.create(session, &aes_key(NO, b"key")).unwrap();
    for len in [16, 1_200_000_u64] {
        assert_eq!(module.begin(Init::Encrypt, session, AES_ECB, &[], key), CKR_OK);
        let (mut data, mut to, mut to_len) = (vec![7; len as usize], vec![0; len as usize], len - 1);
        unsafe {
            assert_eq!((module.c.C_Encrypt)(session, data.as_mut_ptr(), len, to.as_mut_ptr(), &mut to_len), CKR_BUFFER_TOO_SMALL);
            assert_eq!(to_len, len);
            assert_eq!((module.c.C_Encrypt)(session, data.as_mut_ptr(), len, to.as_mut_ptr(), &mut to_len), CKR_OK);
        }
    }
}
