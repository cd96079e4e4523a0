//! Attributes and searches: numbers, many entries, many handles, what the module knows of keys by itself.

mod common;

use common::daemon::Daemon;
use common::module::{Module, RW};
use common::{Folder, templates::*};
use std::ptr::null_mut;
use tokend_pkcs11::abi::codes::*;
use tokend_pkcs11::abi::*;

const UNAVAILABLE: u64 = u64::MAX;

fn begun() -> (Folder, Daemon, Module, u64) {
    let folder = Folder::new();
    let daemon = Daemon::start(&folder);
    let module = Module::load(&folder, "module.so");
    assert_eq!(module.initialize(&folder), CKR_OK);
    let session = module.open(RW).unwrap();
    (folder, daemon, module, session)
}

fn number(bytes: &[u8]) -> u64 {
    u64::from_ne_bytes(bytes.try_into().unwrap())
}

#[test]
fn numbers_are_the_machine_s() {
    let (_folder, _daemon, module, session) = begun();
    let key = module.create(session, &aes_key(NO, b"key")).unwrap();
    let value = |kind| number(&module.value(session, key, kind).unwrap());
    assert_eq!([CLASS, KEY_TYPE, VALUE_LEN, KEY_GEN_MECHANISM].map(value), [4, 0x1F, 16, UNAVAILABLE]);
    let len = 16_u64.to_ne_bytes();
    let made = module.generate_key(session, AES_KEY_GEN, &[(VALUE_LEN, &len), (PRIVATE, NO)]).unwrap();
    assert_eq!(number(&module.value(session, made, KEY_GEN_MECHANISM).unwrap()), AES_KEY_GEN);
    // (a label of eight bytes is no number)
    assert_eq!(module.set(session, key, &[(LABEL, b"12345678")]), CKR_OK);
    assert_eq!(module.value(session, key, LABEL).unwrap(), b"12345678");
    assert_eq!(module.find(session, &[(VALUE_LEN, &len)], 9).unwrap(), [key, made]);
    assert_eq!(module.create(session, &[(CLASS, &[4])]), Err(CKR_ATTRIBUTE_VALUE_INVALID));
}

#[test]
fn what_every_key_has_as_false() {
    let (_folder, _daemon, module, session) = begun();
    let template = [&aes_key(NO, b"key")[..], &[(DERIVE, NO), (ALWAYS_AUTHENTICATE, NO)]].concat();
    let key = module.create(session, &template).unwrap();
    let data = module.create(session, &data_object(NO, b"data")).unwrap();
    for kind in [DERIVE, ALWAYS_AUTHENTICATE] {
        assert_eq!(module.value(session, key, kind).unwrap(), NO);
        assert_eq!(module.value(session, data, kind), Err(CKR_ATTRIBUTE_TYPE_INVALID));
        assert_eq!(module.value(session, 99, kind), Err(CKR_OBJECT_HANDLE_INVALID));
        let template = [&aes_key(NO, b"key")[..], &[(kind, YES)]].concat();
        assert_eq!(module.create(session, &template), Err(CKR_ATTRIBUTE_TYPE_INVALID));
        assert_eq!(module.set(session, key, &[(kind, NO)]), CKR_OK);
        assert_eq!(module.set(session, key, &[(kind, YES)]), CKR_ATTRIBUTE_TYPE_INVALID);
        assert_eq!(module.find(session, &[(kind, NO)], 9).unwrap(), [key]);
        assert_eq!(module.find(session, &[(kind, NO), (CLASS, SECRET_KEY)], 9).unwrap(), [key]);
        assert_eq!(module.find(session, &[(kind, NO), (CLASS, DATA)], 9).unwrap(), []);
        assert_eq!(module.find(session, &[(kind, YES)], 9).unwrap(), []);
    }
    let template = [&data_object(NO, b"data")[..], &[(DERIVE, NO)]].concat();
    assert_eq!(module.create(session, &template), Err(CKR_ATTRIBUTE_TYPE_INVALID));
}

/// What each object of a class has without a value, or as false, and the token doesn't know.
#[test]
fn what_every_object_of_a_class_has() {
    let (_folder, _daemon, module, session) = begun();
    let key = module.create(session, &aes_key(NO, b"key")).unwrap();
    let data = module.create(session, &data_object(NO, b"data")).unwrap();
    let of_keys = [(START_DATE, EMPTY), (END_DATE, EMPTY), (ALLOWED_MECHANISMS, EMPTY), (DERIVE, NO), (ALWAYS_AUTHENTICATE, NO)];
    let of_data = [(OBJECT_ID, EMPTY)];
    let cases = of_keys.map(|it| (it, key, data, aes_key(NO, b"key"), data_object(NO, b"data")));
    let cases = cases.into_iter().chain(of_data.map(|it| (it, data, key, data_object(NO, b"data"), aes_key(NO, b"key"))));
    for ((kind, value), has, has_not, template, other) in cases {
        let with = |template: &[(u64, &'static [u8])], value| [template, &[(kind, value)]].concat();
        assert_eq!(module.value(session, has, kind).unwrap(), value);
        assert_eq!(module.value(session, has_not, kind), Err(CKR_ATTRIBUTE_TYPE_INVALID));
        let made = module.create(session, &with(&template, value)).unwrap();
        assert_eq!(module.find(session, &with(&template[..1], value), 9).unwrap(), [has, made], "{kind:#x}");
        assert_eq!(module.destroy(session, made), CKR_OK);
        assert_eq!(module.find(session, &[(kind, value)], 9).unwrap(), [has], "{kind:#x}");
        assert_eq!(module.find(session, &with(&other[..1], value), 9).unwrap(), [], "{kind:#x}");
        assert_eq!(module.set(session, has, &[(kind, value)]), CKR_OK);
        assert_eq!(module.destroy(session, module.copy(session, has, &[(kind, value)]).unwrap()), CKR_OK);
        // (of the other class the token refuses it, and so any other value)
        assert_eq!(module.create(session, &with(&other, value)), Err(CKR_ATTRIBUTE_TYPE_INVALID));
        assert_eq!(module.set(session, has_not, &[(kind, value)]), CKR_ATTRIBUTE_TYPE_INVALID, "{kind:#x}");
        assert_eq!(module.copy(session, has_not, &[(kind, value)]), Err(CKR_ATTRIBUTE_TYPE_INVALID));
        let another = if kind == ALLOWED_MECHANISMS { &AES_ECB.to_ne_bytes()[..] } else { b"20261129" };
        assert_eq!(module.create(session, &[&template[..], &[(kind, another)]].concat()), Err(CKR_ATTRIBUTE_TYPE_INVALID));
        assert_eq!(module.set(session, has, &[(kind, another)]), CKR_ATTRIBUTE_TYPE_INVALID);
        assert_eq!(module.find(session, &[(kind, another)], 9).unwrap(), []);
    }
    assert_eq!(module.find(session, &[(START_DATE, EMPTY), (OBJECT_ID, EMPTY)], 9).unwrap(), []);
    let len = 16_u64.to_ne_bytes();
    let template = [(VALUE_LEN, &len[..]), (PRIVATE, NO), (START_DATE, EMPTY), (ALLOWED_MECHANISMS, EMPTY), (DERIVE, NO)];
    assert!(module.generate_key(session, AES_KEY_GEN, &template).is_ok());
    // (a handle that is none is what is wrong first)
    assert_eq!(module.set(session, 99, &[(START_DATE, EMPTY)]), CKR_OBJECT_HANDLE_INVALID);
}

/// Certificates and public keys have attributes that the token doesn't know: it's the class that is refused.
#[test]
fn a_class_that_the_token_has_not() {
    let (_folder, _daemon, module, session) = begun();
    let number = |it: u64| it.to_ne_bytes();
    for (class, kind) in [(1, 0x80), (2, 0x100), (3, 0x100), (5, 0x300), (6, 0x120), (0x8000_0001, 0x9999)] {
        let (class, kind_value) = (number(class), number(0));
        let template = [(kind, &kind_value[..]), (CLASS, &class[..]), (0x101, b"subject"), (TOKEN, YES), (LABEL, b"it")];
        assert_eq!(module.create(session, &template), Err(CKR_ATTRIBUTE_VALUE_INVALID));
        assert_eq!(module.create(session, &[(CLASS, &class)]), Err(CKR_ATTRIBUTE_VALUE_INVALID));
    }
    assert_eq!(module.create(session + 1, &[(CLASS, &number(1)), (0x80, &number(0))]), Err(CKR_SESSION_HANDLE_INVALID));
    // (of a class that it has, an attribute is wrong)
    let template = [(CLASS, DATA), (0x80, &number(0)[..])];
    assert_eq!(module.create(session, &template), Err(CKR_ATTRIBUTE_TYPE_INVALID));
}

/// Asks for attributes with buffers of so many bytes, and returns the code, the lengths and the buffers.
fn ask(module: &Module, session: u64, object: u64, asked: &[(u64, Option<usize>)]) -> (CK_RV, Vec<u64>, Vec<Vec<u8>>) {
    let mut buffers: Vec<Vec<u8>> = asked.iter().map(|(_, len)| vec![0xAA; len.unwrap_or(0) + 8]).collect();
    let mut entries: Vec<_> = asked
        .iter()
        .zip(&mut buffers)
        .map(|((kind, len), buffer)| CK_ATTRIBUTE {
            attribute_type: *kind,
            value: if len.is_some() { buffer.as_mut_ptr().cast() } else { null_mut() },
            value_len: len.unwrap_or(77) as u64,
        })
        .collect();
    let code = unsafe { (module.c.C_GetAttributeValue)(session, object, entries.as_mut_ptr(), entries.len() as u64) };
    for ((_, len), buffer) in asked.iter().zip(&buffers) {
        assert!(buffer[len.unwrap_or(0)..].iter().all(|it| *it == 0xAA), "bytes behind a buffer were written");
    }
    (code, entries.iter().map(|it| it.value_len).collect(), buffers)
}

#[test]
fn lengths_and_buffers_of_attributes() {
    let (_folder, _daemon, module, session) = begun();
    let key = module.create(session, &aes_key(NO, b"k1")).unwrap();
    let asked = [(LABEL, Some(64)), (VALUE, Some(64)), (0x9999_9999, Some(64)), (DERIVE, Some(1)), (CLASS, None), (KEY_TYPE, Some(7))];
    let (code, lengths, buffers) = ask(&module, session, key, &asked);
    assert_eq!(code, CKR_ATTRIBUTE_SENSITIVE);
    assert_eq!(lengths, [2, UNAVAILABLE, UNAVAILABLE, 1, 8, UNAVAILABLE]);
    assert_eq!((&buffers[0][..3], buffers[3][0], buffers[5][0]), (&b"k1\xAA"[..], 0, 0xAA));
    assert_eq!(ask(&module, session, key, &[(DERIVE, None), (DERIVE, Some(0))]).1, [1, UNAVAILABLE]);
    assert_eq!(ask(&module, session, key, &[(DERIVE, Some(0)), (LABEL, Some(2))]).0, CKR_BUFFER_TOO_SMALL);
    assert_eq!(ask(&module, session, key, &[(LABEL, Some(1)), (0x4000_0211, Some(48))]).0, CKR_ATTRIBUTE_TYPE_INVALID);
    assert_eq!(ask(&module, session, key, &[]).0, CKR_OK);
    assert_eq!(ask(&module, session, key + 1, &[]).0, CKR_OBJECT_HANDLE_INVALID);
}

#[test]
fn more_attributes_than_a_frame_has() {
    let (_folder, _daemon, module, session) = begun();
    let key = module.create(session, &aes_key(NO, b"k1")).unwrap();
    for count in [31, 32, 33, 64, 65, 200] {
        let mut asked = vec![(LABEL, Some(4)); count];
        let (code, lengths, buffers) = ask(&module, session, key, &asked);
        assert_eq!((code, lengths), (CKR_OK, vec![2; count]));
        assert!(buffers.iter().all(|it| it[..3] == *b"k1\xAA"));
        asked[count - 1] = (0x9999_9999, None);
        assert_eq!(ask(&module, session, key, &asked).0, CKR_ATTRIBUTE_TYPE_INVALID);
        asked[0] = (VALUE, None);
        assert_eq!(ask(&module, session, key, &asked).0, CKR_ATTRIBUTE_SENSITIVE);
        asked[0] = (LABEL, Some(1));
        assert_eq!(ask(&module, session, key, &asked).0, CKR_ATTRIBUTE_TYPE_INVALID);
        asked[count - 1] = (LABEL, Some(2));
        assert_eq!(ask(&module, session, key, &asked).0, CKR_BUFFER_TOO_SMALL);
    }
}

#[test]
fn templates_that_no_frame_has() {
    let (_folder, _daemon, module, session) = begun();
    let key = aes_key(NO, b"key");
    let padded = |count: usize| -> Vec<_> { key.iter().copied().chain(std::iter::repeat((LABEL, &b"key"[..]))).take(count).collect() };
    let made = module.create(session, &padded(32)).unwrap();
    assert_eq!(module.create(session, &padded(33)), Err(CKR_TEMPLATE_INCONSISTENT));
    // (what is dropped doesn't count)
    let template = [&padded(32)[..], &[(DERIVE, NO)]].concat();
    assert!(module.create(session, &template).is_ok());
    let long = vec![7; 1_100_000];
    assert_eq!(module.set(session, made, &[(LABEL, &long)]), CKR_ATTRIBUTE_VALUE_INVALID);
    assert_eq!(module.set(session, made, &[(LABEL, &long[..1_025])]), CKR_ATTRIBUTE_VALUE_INVALID);
    assert_eq!(module.set(session, made, &[(LABEL, &long[..1_024])]), CKR_OK);
    unsafe {
        assert_eq!((module.c.C_SetAttributeValue)(session, made, null_mut(), 1), CKR_ARGUMENTS_BAD);
        assert_eq!((module.c.C_SetAttributeValue)(session, made, std::ptr::dangling_mut(), u64::MAX), CKR_ARGUMENTS_BAD);
    }
    assert!(module.session_info(session).is_ok());
}

#[test]
fn more_handles_than_a_frame_has() {
    let (_folder, _daemon, module, session) = begun();
    let made: Vec<u64> = (0..1_100).map(|_| module.create(session, &data_object(YES, b"many")).unwrap()).collect();
    for at_once in [1_023, 1_024, 1_025, 1_100, 1_101, 5_000] {
        assert_eq!(module.find(session, &[(LABEL, b"many")], at_once).unwrap(), made, "{at_once} at once");
    }
    let mut count = 7;
    unsafe {
        assert_eq!((module.c.C_FindObjects)(session, null_mut(), 0, &mut count), CKR_OPERATION_NOT_INITIALIZED);
        assert_eq!((module.c.C_FindObjectsInit)(session, null_mut(), 0), CKR_OK);
        assert_eq!((module.c.C_FindObjects)(session, null_mut(), 1, &mut count), CKR_ARGUMENTS_BAD);
        assert_eq!((module.c.C_FindObjects)(session, null_mut(), 0, &mut count), CKR_OK);
        assert_eq!(count, 0);
        assert_eq!((module.c.C_FindObjectsFinal)(session), CKR_OK);
    }
}
