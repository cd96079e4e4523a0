//! Each function once, with its code: the 41 calls that go to the daemon, those that the module answers, those that are left out.

mod common;

use common::daemon::Daemon;
use common::module::{Init, Module, RO, RW, attributes};
use common::{Folder, templates::*};
use std::ptr::{null, null_mut};
use tokend_pkcs11::abi::codes::*;
use tokend_pkcs11::abi::*;
use tokend_pkcs11::{CK_FUNCTION_LIST, CK_FUNCTION_LIST_3_0};

const BAD: u64 = 0x99;

fn begun() -> (Folder, Daemon, Module) {
    let folder = Folder::new();
    let daemon = Daemon::start(&folder);
    let module = Module::load(&folder, "module.so");
    assert_eq!(module.initialize(&folder), CKR_OK);
    (folder, daemon, module)
}

#[test]
fn slots_and_tokens() {
    let (_folder, _daemon, module) = begun();
    let c = module.c;
    unsafe {
        let mut info = std::mem::zeroed();
        assert_eq!((c.C_GetInfo)(&mut info), CKR_OK);
        assert_eq!(info.cryptoki_version, CK_VERSION { major: 2, minor: 40 });
        assert_eq!((c.C_GetInfo)(null_mut()), CKR_ARGUMENTS_BAD);
        let (mut slots, mut count) = ([9; 2], 0);
        assert_eq!((c.C_GetSlotList)(1, null_mut(), &mut count), CKR_OK);
        assert_eq!(count, 1);
        count = 0;
        assert_eq!((c.C_GetSlotList)(1, slots.as_mut_ptr(), &mut count), CKR_BUFFER_TOO_SMALL);
        assert_eq!((count, slots), (1, [9; 2]));
        assert_eq!((c.C_GetSlotList)(0, slots.as_mut_ptr(), &mut count), CKR_OK);
        assert_eq!((count, slots), (1, [0, 9]));
        let mut slot = std::mem::zeroed();
        assert_eq!((c.C_GetSlotInfo)(0, &mut slot), CKR_OK);
        assert_eq!(slot.flags, 3);
        assert_eq!((c.C_GetSlotInfo)(1, &mut slot), CKR_SLOT_ID_INVALID);
        let mut token: CK_TOKEN_INFO = std::mem::zeroed();
        assert_eq!((c.C_GetTokenInfo)(0, &mut token), CKR_OK);
        assert_eq!((token.label, token.flags, token.max_session_count, token.max_pin_len, token.min_pin_len), ([b' '; 32], 5, 64, 64, 4));
        assert_eq!((c.C_GetTokenInfo)(1, &mut token), CKR_SLOT_ID_INVALID);
        let (mut kinds, mut count) = ([0; 12], 11);
        assert_eq!((c.C_GetMechanismList)(0, kinds.as_mut_ptr(), &mut count), CKR_BUFFER_TOO_SMALL);
        assert_eq!(count, 12);
        assert_eq!((c.C_GetMechanismList)(0, kinds.as_mut_ptr(), &mut count), CKR_OK);
        assert_eq!((kinds[0], kinds[11]), (0x251, 0x2109));
        let mut kind: CK_MECHANISM_INFO = std::mem::zeroed();
        assert_eq!((c.C_GetMechanismInfo)(0, 0x350, &mut kind), CKR_OK);
        assert_eq!((kind.min_key_size, kind.max_key_size, kind.flags), (8, 4_096, 0x8000));
        assert_eq!((c.C_GetMechanismInfo)(0, BAD, &mut kind), CKR_MECHANISM_INVALID);
        assert_eq!((c.C_WaitForSlotEvent)(1, null_mut(), null_mut()), CKR_NO_EVENT);
        assert_eq!((c.C_WaitForSlotEvent)(0, null_mut(), null_mut()), CKR_FUNCTION_NOT_SUPPORTED);
        assert_eq!((c.C_InitToken)(0, null_mut(), 0, [b' '; 32].as_mut_ptr()), CKR_ARGUMENTS_BAD);
        assert_eq!((c.C_InitToken)(0, b"1234".as_ptr().cast_mut(), 4, null_mut()), CKR_ARGUMENTS_BAD);
        assert_eq!((c.C_InitToken)(0, b"12345678".as_ptr().cast_mut(), 1 << 40, [b' '; 32].as_mut_ptr()), CKR_PIN_LEN_RANGE);
    }
}

#[test]
fn pins_and_sessions() {
    let (_folder, _daemon, module) = begun();
    let c = module.c;
    assert_eq!(module.init_token("so pin", "a token"), CKR_OK);
    let session = module.open(RW).unwrap();
    assert_eq!(module.init_token("so pin", "a token"), CKR_SESSION_EXISTS);
    assert_eq!(module.login(session, 1, "user pin"), CKR_USER_PIN_NOT_INITIALIZED);
    assert_eq!(module.login(session, 0, "wrong"), CKR_PIN_INCORRECT);
    assert_eq!(module.login(session, 0, "so pin"), CKR_OK);
    assert_eq!(module.init_pin(session, "user pin"), CKR_OK);
    unsafe {
        assert_eq!((c.C_Logout)(session), CKR_OK);
        assert_eq!((c.C_Logout)(session), CKR_USER_NOT_LOGGED_IN);
        let (old, new) = (b"user pin", b"another pin");
        assert_eq!((c.C_SetPIN)(session, old.as_ptr().cast_mut(), 8, new.as_ptr().cast_mut(), 11), CKR_OK);
        assert_eq!((c.C_SetPIN)(session, old.as_ptr().cast_mut(), 8, new.as_ptr().cast_mut(), 11), CKR_PIN_INCORRECT);
        assert_eq!((c.C_Login)(session, 1, null_mut(), 0), CKR_ARGUMENTS_BAD);
    }
    assert_eq!(module.login(session, 1, "another pin"), CKR_OK);
    assert_eq!(module.login(session, 7, "another pin"), CKR_USER_TYPE_INVALID);
    let info = module.session_info(session).unwrap();
    assert_eq!((info.slot_id, info.state, info.flags, info.device_error), (0, 3, 6, 0));
    let second = module.open(RO).unwrap();
    assert_eq!(module.session_info(second).unwrap().state, 1);
    assert_eq!(module.open(2), Err(CKR_SESSION_PARALLEL_NOT_SUPPORTED));
    assert_eq!(module.close(second), CKR_OK);
    assert_eq!(module.close(second), CKR_SESSION_HANDLE_INVALID);
    unsafe {
        assert_eq!((c.C_CloseAllSessions)(1), CKR_SLOT_ID_INVALID);
        assert_eq!((c.C_CloseAllSessions)(0), CKR_OK);
        assert_eq!((c.C_CloseAllSessions)(0), CKR_OK);
        assert_eq!((c.C_CloseAllSessions)(1), CKR_SLOT_ID_INVALID);
    }
    assert_eq!(module.session_info(session).err(), Some(CKR_SESSION_HANDLE_INVALID));
    let third = module.open(RW).unwrap();
    assert!(third > second, "a session's handle came back");
    assert_eq!(module.session_info(third).unwrap().state, 2);
    assert_eq!(module.finalize(), CKR_OK);
    assert_eq!(module.finalize(), CKR_CRYPTOKI_NOT_INITIALIZED);
}

#[test]
fn objects() {
    let (_folder, _daemon, module) = begun();
    let c = module.c;
    let session = module.open(RW).unwrap();
    let object = module.create(session, &data_object(NO, b"first")).unwrap();
    assert_eq!(module.value(session, object, VALUE).unwrap(), b"the value");
    assert_eq!(module.set(session, object, &[(LABEL, b"second")]), CKR_OK);
    assert_eq!(module.value(session, object, LABEL).unwrap(), b"second");
    assert_eq!(module.find(session, &[(LABEL, b"second")], 5).unwrap(), [object]);
    unsafe {
        let (mut copy, mut size) = (0, 0);
        let mut entries = attributes(&[(LABEL, b"copy")]);
        assert_eq!((c.C_CopyObject)(session, object, entries.as_mut_ptr(), 1, &mut copy), CKR_OK);
        assert_eq!(module.value(session, copy, LABEL).unwrap(), b"copy");
        assert_eq!((c.C_GetObjectSize)(session, copy, &mut size), CKR_OK);
        assert_eq!(size, 128 + 4 + 9);
        assert_eq!((c.C_GetObjectSize)(session, copy, null_mut()), CKR_ARGUMENTS_BAD);
    }
    assert_eq!(module.destroy(session, object), CKR_OK);
    assert_eq!(module.destroy(session, object), CKR_OBJECT_HANDLE_INVALID);
    assert_eq!(module.create(session, &[(BAD, b"?")]), Err(CKR_ATTRIBUTE_TYPE_INVALID));
    assert_eq!(module.create(session, &[(LABEL, b"?")]), Err(CKR_TEMPLATE_INCOMPLETE));
}

#[test]
fn ciphers() {
    let (_folder, _daemon, module) = begun();
    let session = module.open(RW).unwrap();
    let key = module.create(session, &aes_key(NO, b"key")).unwrap();
    let text: Vec<u8> = (0..16).map(|it| it * 0x11).collect();
    let wanted = [0x69, 0xc4, 0xe0, 0xd8, 0x6a, 0x7b, 0x04, 0x30, 0xd8, 0xcd, 0xb7, 0x80, 0x70, 0xb4, 0xc5, 0x5a];
    assert_eq!(module.encrypt(session, &text), Err(CKR_OPERATION_NOT_INITIALIZED));
    assert_eq!(module.begin(Init::Encrypt, session, AES_ECB, &[], key), CKR_OK);
    assert_eq!(module.begin(Init::Encrypt, session, AES_ECB, &[], key), CKR_OPERATION_ACTIVE);
    assert_eq!(module.encrypt(session, &text).unwrap(), wanted);
    assert_eq!(module.begin(Init::Encrypt, session, AES_ECB, &[], key), CKR_OK);
    assert_eq!(module.encrypt_update(session, &text).unwrap(), wanted);
    assert_eq!(module.encrypt_final(session).unwrap(), []);
    assert_eq!(module.begin(Init::Decrypt, session, AES_ECB, &[], key), CKR_OK);
    assert_eq!(module.decrypt(session, &wanted).unwrap(), text);
    assert_eq!(module.begin(Init::Decrypt, session, AES_ECB, &[], key), CKR_OK);
    assert_eq!(module.decrypt_update(session, &wanted).unwrap(), text);
    assert_eq!(module.decrypt_final(session).unwrap(), []);
    assert_eq!(module.begin(Init::Encrypt, session, BAD, &[], key), CKR_MECHANISM_INVALID);
    assert_eq!(module.begin(Init::Encrypt, session, AES_CBC, &[1; 15], key), CKR_MECHANISM_PARAM_INVALID);
    assert_eq!(module.begin(Init::Encrypt, session, AES_ECB, &[], key + 1), CKR_KEY_HANDLE_INVALID);
}

#[test]
fn the_counter_of_ctr_is_a_number_of_the_machine() {
    let (_folder, _daemon, module) = begun();
    let session = module.open(RW).unwrap();
    let value = [0x2b, 0x7e, 0x15, 0x16, 0x28, 0xae, 0xd2, 0xa6, 0xab, 0xf7, 0x15, 0x88, 0x09, 0xcf, 0x4f, 0x3c];
    let template = [(CLASS, SECRET_KEY), (KEY_TYPE, AES), (PRIVATE, NO), (VALUE, &value[..])];
    let key = module.create(session, &template).unwrap();
    // (SP 800-38A, F.5.1)
    let block: Vec<u8> = (0xf0..=0xff).collect();
    let parameter = [&128_u64.to_ne_bytes()[..], &block].concat();
    let text = [0x6b, 0xc1, 0xbe, 0xe2, 0x2e, 0x40, 0x9f, 0x96, 0xe9, 0x3d, 0x7e, 0x11, 0x73, 0x93, 0x17, 0x2a];
    let wanted = [0x87, 0x4d, 0x61, 0x91, 0xb6, 0x20, 0xe3, 0x26, 0x1b, 0xef, 0x68, 0x64, 0x99, 0x0d, 0xb6, 0xce];
    assert_eq!(module.begin(Init::Encrypt, session, AES_CTR, &parameter, key), CKR_OK);
    assert_eq!(module.encrypt(session, &text).unwrap(), wanted);
    let parameter = [&0_u64.to_ne_bytes()[..], &block].concat();
    assert_eq!(module.begin(Init::Encrypt, session, AES_CTR, &parameter, key), CKR_MECHANISM_PARAM_INVALID);
}

#[test]
fn signatures() {
    let (_folder, _daemon, module) = begun();
    let session = module.open(RW).unwrap();
    let template = [(CLASS, SECRET_KEY), (KEY_TYPE, GENERIC), (PRIVATE, NO), (VALUE, &[0x0b; 20][..])];
    let key = module.create(session, &template).unwrap();
    assert_eq!(module.begin(Init::Sign, session, SHA256_HMAC, &[], key), CKR_OK);
    let signature = module.sign(session, b"Hi There").unwrap();
    assert_eq!((signature.len(), &signature[..4]), (32, &[0xb0, 0x34, 0x4c, 0x61][..]));
    assert_eq!(module.begin(Init::Sign, session, SHA256_HMAC, &[], key), CKR_OK);
    assert_eq!(module.sign_update(session, b"Hi "), CKR_OK);
    assert_eq!(module.sign_update(session, b"There"), CKR_OK);
    assert_eq!(module.sign_final(session).unwrap(), signature);
    let verify = |data: &[u8], of: &[u8]| {
        assert_eq!(module.begin(Init::Verify, session, SHA256_HMAC, &[], key), CKR_OK);
        module.verify(session, data, of)
    };
    assert_eq!(verify(b"Hi There", &signature), CKR_OK);
    assert_eq!(verify(b"Hi there", &signature), CKR_SIGNATURE_INVALID);
    assert_eq!(verify(b"Hi There", &signature[..31]), CKR_SIGNATURE_LEN_RANGE);
    assert_eq!(verify(b"Hi There", &[0; 5_000]), CKR_SIGNATURE_LEN_RANGE);
    assert_eq!(module.begin(Init::Verify, session, SHA256_HMAC, &[], key), CKR_OK);
    assert_eq!(module.verify_update(session, b"Hi There"), CKR_OK);
    assert_eq!(module.verify_final(session, &signature), CKR_OK);
    assert_eq!(module.verify_final(session, &signature), CKR_OPERATION_NOT_INITIALIZED);
}

#[test]
fn keys_and_random_bytes() {
    let (_folder, _daemon, module) = begun();
    let session = module.open(RW).unwrap();
    let len = 16_u64.to_ne_bytes();
    let template = [(VALUE_LEN, &len[..]), (PRIVATE, NO), (SENSITIVE, NO), (EXTRACTABLE, YES)];
    let key = module.generate_key(session, AES_KEY_GEN, &template).unwrap();
    assert_eq!(module.value(session, key, VALUE).unwrap().len(), 16);
    let wrapping = module.create(session, &aes_key(NO, b"wrapping")).unwrap();
    let wrapped = module.wrap(session, wrapping, key).unwrap();
    assert_eq!(wrapped.len(), 24);
    let template = [(CLASS, SECRET_KEY), (KEY_TYPE, AES), (PRIVATE, NO), (SENSITIVE, NO)];
    let again = module.unwrap(session, wrapping, &wrapped, &template).unwrap();
    assert_eq!(module.value(session, again, VALUE), module.value(session, key, VALUE));
    assert_eq!(module.unwrap(session, wrapping, &wrapped[..23], &template), Err(CKR_WRAPPED_KEY_LEN_RANGE));
    assert_eq!(module.unwrap(session, wrapping, &vec![0; 2_000_000], &template), Err(CKR_WRAPPED_KEY_LEN_RANGE));
    assert_eq!(module.wrap(session, again + 1, key), Err(CKR_WRAPPING_KEY_HANDLE_INVALID));
    assert_eq!(module.unwrap(session, again + 1, &wrapped, &template), Err(CKR_UNWRAPPING_KEY_HANDLE_INVALID));
    assert_eq!(module.random(session, 0).unwrap(), []);
    let bytes = module.random(session, 100_000).unwrap();
    assert!(bytes.chunks(1_000).all(|it| it.iter().any(|byte| *byte != 0)));
    unsafe {
        assert_eq!((module.c.C_SeedRandom)(session, null_mut(), 0), CKR_RANDOM_SEED_NOT_SUPPORTED);
        assert_eq!((module.c.C_GenerateRandom)(session, null_mut(), 5), CKR_ARGUMENTS_BAD);
        assert_eq!((module.c.C_GetFunctionStatus)(session), CKR_FUNCTION_NOT_PARALLEL);
        assert_eq!((module.c.C_CancelFunction)(session), CKR_FUNCTION_NOT_PARALLEL);
    }
}

/// The list of version 3.0, as C_GetInterface returns it.
fn newest(module: &Module) -> &'static CK_FUNCTION_LIST_3_0 {
    type GetInterface = unsafe extern "C" fn(*const u8, *const CK_VERSION, *mut *const CK_INTERFACE, u64) -> CK_RV;
    unsafe {
        let get: GetInterface = std::mem::transmute(module.symbol("C_GetInterface"));
        let mut found = null();
        assert_eq!(get(null(), null(), &mut found, 0), CKR_OK);
        &*(*found).function_list.cast()
    }
}

#[test]
fn interfaces() {
    let folder = Folder::new();
    let module = Module::load(&folder, "module.so");
    let list = newest(&module);
    assert_eq!(list.version, CK_VERSION { major: 3, minor: 0 });
    unsafe {
        let mut found = null();
        let version = CK_VERSION { major: 2, minor: 40 };
        let name = c"PKCS 11".as_ptr();
        assert_eq!((list.more.C_GetInterface)(name, &version, &mut found, 0), CKR_OK);
        assert_eq!((*(*found).function_list.cast::<CK_FUNCTION_LIST>()).version, version);
        let version = CK_VERSION { major: 3, minor: 1 };
        assert_eq!((list.more.C_GetInterface)(name, &version, &mut found, 0), CKR_FUNCTION_FAILED);
        assert_eq!((list.more.C_GetInterface)(c"PKCS 12".as_ptr(), null(), &mut found, 0), CKR_FUNCTION_FAILED);
        assert_eq!((list.more.C_GetInterface)(name, null(), &mut found, 1), CKR_FUNCTION_FAILED);
        let mut count = 0;
        assert_eq!((list.more.C_GetInterfaceList)(null_mut(), &mut count), CKR_OK);
        assert_eq!(count, 2);
        let mut all: [CK_INTERFACE; 2] = std::mem::zeroed();
        count = 1;
        assert_eq!((list.more.C_GetInterfaceList)(all.as_mut_ptr(), &mut count), CKR_BUFFER_TOO_SMALL);
        assert_eq!((list.more.C_GetInterfaceList)(all.as_mut_ptr(), &mut count), CKR_OK);
        assert_eq!(
            all[1].function_list,
            (*{
                (list.more.C_GetInterface)(name, &CK_VERSION { major: 2, minor: 40 }, &mut found, 0);
                found
            })
            .function_list
        );
    }
}

#[test]
fn calls_of_version_3() {
    let (_folder, _daemon, module) = begun();
    let list = newest(&module);
    assert_eq!(module.init_token("so pin", "a token"), CKR_OK);
    let session = module.open(RW).unwrap();
    let key = module.create(session, &aes_key(NO, b"key")).unwrap();
    unsafe {
        let mut info = std::mem::zeroed();
        assert_eq!((list.functions.C_GetInfo)(&mut info), CKR_OK);
        assert_eq!(info.cryptoki_version, CK_VERSION { major: 3, minor: 0 });
        let pin = b"so pin".as_ptr().cast_mut();
        assert_eq!((list.more.C_LoginUser)(session, 0, pin, 6, pin, 1), CKR_FUNCTION_NOT_SUPPORTED);
        assert_eq!((list.more.C_LoginUser)(session, 0, pin, 6, null_mut(), 0), CKR_OK);
        for how in [Init::Encrypt, Init::Decrypt, Init::Sign, Init::Verify] {
            let mechanism = if matches!(how, Init::Sign | Init::Verify) { AES_CMAC } else { AES_ECB };
            assert_eq!(module.begin(how, session, mechanism, &[], key), CKR_OK);
        }
        assert_eq!((module.c.C_FindObjectsInit)(session, null_mut(), 0), CKR_OK);
        assert_eq!((list.more.C_SessionCancel)(session, 0x100 | 0x40), CKR_OK);
        assert_eq!(module.encrypt(session, &[]), Err(CKR_OPERATION_NOT_INITIALIZED));
        assert_eq!((module.c.C_FindObjectsFinal)(session), CKR_OPERATION_NOT_INITIALIZED);
        assert_eq!(module.sign_update(session, &[]), CKR_OK);
        assert_eq!((list.more.C_SessionCancel)(session, 0x2B40), CKR_OK);
        assert_eq!(module.sign_update(session, &[]), CKR_OPERATION_NOT_INITIALIZED);
        assert_eq!(module.verify_update(session, &[]), CKR_OPERATION_NOT_INITIALIZED);
        assert_eq!(module.decrypt(session, &[]), Err(CKR_OPERATION_NOT_INITIALIZED));
        assert_eq!((list.more.C_SessionCancel)(session + 1, 0x100), CKR_SESSION_HANDLE_INVALID);
        assert_eq!((list.more.C_MessageEncryptInit)(session, null_mut(), key), CKR_FUNCTION_NOT_SUPPORTED);
        assert_eq!((list.more.C_MessageVerifyFinal)(session), CKR_FUNCTION_NOT_SUPPORTED);
    }
}

#[test]
fn what_is_left_out() {
    let (_folder, _daemon, module) = begun();
    let session = module.open(RW).unwrap();
    let c = module.c;
    unsafe {
        let codes = [
            (c.C_DigestInit)(session, null_mut()),
            (c.C_GenerateKeyPair)(session, null_mut(), null_mut(), 0, null_mut(), 0, null_mut(), null_mut()),
            (c.C_DeriveKey)(session, null_mut(), 1, null_mut(), 0, null_mut()),
            (c.C_SignRecoverInit)(session, null_mut(), 1),
            (c.C_GetOperationState)(session, null_mut(), null_mut()),
            (c.C_DigestEncryptUpdate)(session, null_mut(), 0, null_mut(), null_mut()),
        ];
        assert_eq!(codes, [CKR_FUNCTION_NOT_SUPPORTED; 6]);
    }
}

#[test]
fn nothing_before_c_initialize() {
    let folder = Folder::new();
    let module = Module::load(&folder, "module.so");
    let c = module.c;
    unsafe {
        let codes = [
            (c.C_GetInfo)(null_mut()),
            (c.C_GetSlotList)(0, null_mut(), null_mut()),
            (c.C_OpenSession)(0, RW, null_mut(), null_mut(), null_mut()),
            (c.C_GetTokenInfo)(0, null_mut()),
            (c.C_Encrypt)(1, null_mut(), 1, null_mut(), null_mut()),
            (c.C_GetFunctionStatus)(1),
            (c.C_DigestInit)(1, null_mut()),
            (c.C_Finalize)(null_mut()),
        ];
        assert_eq!(codes, [CKR_CRYPTOKI_NOT_INITIALIZED; 8]);
    }
}

#[test]
fn arguments_of_c_initialize() {
    let folder = Folder::new();
    let module = Module::load(&folder, "module.so");
    let initialize = |mutexes: [usize; 4], flags: u64, reserved: usize| unsafe {
        let [create_mutex, destroy_mutex, lock_mutex, unlock_mutex] = mutexes.map(|it| it as *const _);
        let args = CK_C_INITIALIZE_ARGS { create_mutex, destroy_mutex, lock_mutex, unlock_mutex, flags, reserved: reserved as *const _ };
        (module.c.C_Initialize)((&raw const args).cast_mut().cast())
    };
    assert_eq!(initialize([1, 0, 1, 1], 2, 0), CKR_ARGUMENTS_BAD);
    assert_eq!(initialize([1; 4], 0, 0), CKR_CANT_LOCK);
    assert_eq!(initialize([1; 4], 2, 0), CKR_OK);
    assert_eq!(initialize([0; 4], 2, 0), CKR_CRYPTOKI_ALREADY_INITIALIZED);
    unsafe { assert_eq!((module.c.C_Finalize)(8 as *mut _), CKR_ARGUMENTS_BAD) };
    assert_eq!(module.finalize(), CKR_OK);
    // (parameters, for which another library was meant)
    assert_eq!(initialize([0; 4], 2, 8), CKR_ARGUMENTS_BAD);
    assert_eq!(module.finalize(), CKR_CRYPTOKI_NOT_INITIALIZED);
    assert_eq!(initialize([0; 4], 0, 0), CKR_OK);
    assert_eq!(module.finalize(), CKR_OK);
}
