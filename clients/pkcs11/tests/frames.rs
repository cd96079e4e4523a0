//! Each of the 41 requests that the module writes is read by `tokend stdio`, which answers none of them as malformed or unknown.

mod common;

use common::daemon::program;
use common::module::{Init, Module, RW};
use common::{Folder, templates::*};
use std::collections::BTreeMap;
use std::io::{Read, Write};
use std::os::unix::net::UnixListener;
use std::process::{Command, Stdio};
use std::sync::{Arc, Mutex};
use tokend_pkcs11::abi::codes::*;
use tokend_pkcs11::abi::*;

/// What each function was answered, by its number.
type Seen = Arc<Mutex<BTreeMap<u16, Vec<u64>>>>;

fn frame(from: &mut impl Read) -> Option<Vec<u8>> {
    let mut frame = vec![0; 4];
    from.read_exact(&mut frame).ok()?;
    let len = u32::from_be_bytes(frame[..4].try_into().unwrap()) as usize;
    frame.resize(4 + len, 0);
    from.read_exact(&mut frame[4..]).ok()?;
    Some(frame)
}

/// Every connection in turn goes to one `tokend stdio`, and it is noted what was asked and answered.
fn bridge(listener: UnixListener, seen: Seen) {
    let mut child = Command::new(program()).arg("stdio").stdin(Stdio::piped()).stdout(Stdio::piped()).spawn().unwrap();
    let (mut to, mut from) = (child.stdin.take().unwrap(), child.stdout.take().unwrap());
    for stream in listener.incoming() {
        let mut stream = stream.unwrap();
        while let Some(request) = frame(&mut stream) {
            to.write_all(&request).unwrap();
            to.flush().unwrap();
            let reply = frame(&mut from).unwrap();
            let function = u16::from_be_bytes(request[4..6].try_into().unwrap());
            let code = u64::from_be_bytes(reply[4..12].try_into().unwrap());
            seen.lock().unwrap().entry(function).or_default().push(code);
            if stream.write_all(&reply).is_err() {
                break;
            }
        }
    }
    let _ = child.kill().and_then(|()| child.wait());
}

/// All calls, so that each goes well at least once.
fn play(module: &Module) {
    let c = module.c;
    let (mut count, mut number) = (0, 0);
    assert_eq!(module.init_token("so pin", "a token"), CKR_OK);
    unsafe {
        let (mut token, mut kind) = (std::mem::zeroed::<CK_TOKEN_INFO>(), std::mem::zeroed::<CK_MECHANISM_INFO>());
        assert_eq!((c.C_GetTokenInfo)(0, &mut token), CKR_OK);
        assert_eq!((c.C_GetMechanismList)(0, std::ptr::null_mut(), &mut count), CKR_OK);
        assert_eq!((c.C_GetMechanismInfo)(0, AES_ECB, &mut kind), CKR_OK);
    }
    let session = module.open(RW).unwrap();
    assert_eq!(module.login(session, 0, "so pin"), CKR_OK);
    assert_eq!(module.init_pin(session, "user pin"), CKR_OK);
    unsafe {
        assert_eq!((c.C_SetPIN)(session, b"so pin".as_ptr().cast_mut(), 6, b"new pin".as_ptr().cast_mut(), 7), CKR_OK);
        assert_eq!((c.C_Logout)(session), CKR_OK);
    }
    assert!(module.session_info(session).is_ok());
    let key = module.create(session, &aes_key(NO, b"key")).unwrap();
    unsafe {
        assert_eq!((c.C_CopyObject)(session, key, std::ptr::null_mut(), 0, &mut number), CKR_OK);
        assert_eq!((c.C_GetObjectSize)(session, key, &mut count), CKR_OK);
    }
    assert_eq!(module.value(session, key, LABEL).unwrap(), b"key");
    assert_eq!(module.set(session, number, &[(LABEL, b"copy")]), CKR_OK);
    assert_eq!(module.find(session, &[(LABEL, b"copy")], 3).unwrap(), [number]);
    assert_eq!(module.destroy(session, number), CKR_OK);
    let mechanism = |how| if matches!(how, Init::Sign | Init::Verify) { AES_CMAC } else { AES_ECB };
    let begin = |how| assert_eq!(module.begin(how, session, mechanism(how), &[], key), CKR_OK);
    begin(Init::Encrypt);
    let secret = module.encrypt(session, &[7; 32]).unwrap();
    begin(Init::Encrypt);
    assert_eq!(module.encrypt_update(session, &[7; 32]).unwrap(), secret);
    assert!(module.encrypt_final(session).is_ok());
    begin(Init::Decrypt);
    assert_eq!(module.decrypt(session, &secret).unwrap(), [7; 32]);
    begin(Init::Decrypt);
    assert_eq!(module.decrypt_update(session, &secret).unwrap(), [7; 32]);
    assert!(module.decrypt_final(session).is_ok());
    begin(Init::Sign);
    let tag = module.sign(session, b"text").unwrap();
    begin(Init::Sign);
    assert_eq!(module.sign_update(session, b"text"), CKR_OK);
    assert_eq!(module.sign_final(session).unwrap(), tag);
    begin(Init::Verify);
    assert_eq!(module.verify(session, b"text", &tag), CKR_OK);
    begin(Init::Verify);
    assert_eq!(module.verify_update(session, b"text"), CKR_OK);
    assert_eq!(module.verify_final(session, &tag), CKR_OK);
    let len = 16_u64.to_ne_bytes();
    let made = module.generate_key(session, AES_KEY_GEN, &[(VALUE_LEN, &len), (PRIVATE, NO), (EXTRACTABLE, YES)]).unwrap();
    let wrapped = module.wrap(session, key, made).unwrap();
    let template = [(CLASS, SECRET_KEY), (KEY_TYPE, AES), (PRIVATE, NO)];
    assert!(module.unwrap(session, key, &wrapped, &template).is_ok());
    assert!(module.random(session, 40_000).is_ok());
    let second = module.open(RW).unwrap();
    assert_eq!(module.close(second), CKR_OK);
    assert_eq!(unsafe { (c.C_CloseAllSessions)(0) }, CKR_OK);
}

#[test]
fn all_requests_are_read() {
    let folder = Folder::new();
    let listener = UnixListener::bind(folder.file("socket")).unwrap();
    let seen = Seen::default();
    let noted = Arc::clone(&seen);
    std::thread::spawn(move || bridge(listener, noted));
    let module = Module::load(&folder, "module.so");
    assert_eq!(module.initialize(&folder), CKR_OK);
    play(&module);
    assert_eq!(module.finalize(), CKR_OK);
    let seen = seen.lock().unwrap();
    assert_eq!(seen.keys().copied().collect::<Vec<_>>(), (1..=41).collect::<Vec<u16>>());
    for (function, codes) in seen.iter() {
        assert!(codes.contains(&0), "function {function} was never answered CKR_OK");
        let (malformed, unknown) = (CKR_ARGUMENTS_BAD.0, CKR_FUNCTION_NOT_SUPPORTED.0);
        assert!(!codes.contains(&malformed) && !codes.contains(&unknown), "function {function}");
    }
}
