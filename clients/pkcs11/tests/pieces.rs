//! Data that is longer than a frame, at each border, and in one buffer for input and output.

mod common;

use common::daemon::Daemon;
use common::module::{Init, Module, RW};
use common::{Folder, templates::*};
use std::ptr::null_mut;
use tokend_pkcs11::abi::codes::*;

/// The most data of one request, and how much goes at once beyond that.
const ONE_FRAME: usize = 1_048_544;
const PIECE: usize = 262_144;

const IV: &[u8] = &[3; 16];

struct Bench {
    module: Module,
    session: u64,
    key: u64,
    _daemon: Daemon,
    _folder: Folder,
}

fn begun() -> Bench {
    let folder = Folder::new();
    let daemon = Daemon::start(&folder);
    let module = Module::load(&folder, "module.so");
    assert_eq!(module.initialize(&folder), CKR_OK);
    let session = module.open(RW).unwrap();
    let key = module.create(session, &aes_key(NO, b"key")).unwrap();
    Bench { module, session, key, _daemon: daemon, _folder: folder }
}

fn text(len: usize) -> Vec<u8> {
    (0..len).map(|it| (it as u32).wrapping_mul(2_654_435_761).to_be_bytes()[0]).collect()
}

fn parameter(mechanism: u64) -> Vec<u8> {
    match mechanism {
        AES_ECB | AES_CMAC => vec![],
        AES_CTR => [&128_u64.to_ne_bytes()[..], IV].concat(),
        _ => IV.to_vec(),
    }
}

impl Bench {
    fn begin(&self, how: Init, mechanism: u64) {
        assert_eq!(self.module.begin(how, self.session, mechanism, &parameter(mechanism), self.key), CKR_OK);
    }

    /// By pieces that each fit into a frame, which need no splitting.
    fn by_small_pieces(&self, how: Init, mechanism: u64, data: &[u8]) -> Vec<u8> {
        self.begin(how, mechanism);
        let mut all = Vec::new();
        for piece in data.chunks(60_000) {
            all.extend(match how {
                Init::Encrypt => self.module.encrypt_update(self.session, piece).unwrap(),
                _ => self.module.decrypt_update(self.session, piece).unwrap(),
            });
        }
        all.extend(match how {
            Init::Encrypt => self.module.encrypt_final(self.session).unwrap(),
            _ => self.module.decrypt_final(self.session).unwrap(),
        });
        all
    }
}

#[test]
fn ciphers_at_each_border() {
    let bench = begun();
    let all = text(ONE_FRAME + 2 * PIECE + 64);
    let blocks = [ONE_FRAME - 16, ONE_FRAME, ONE_FRAME + 16, 4 * PIECE + 16, 5 * PIECE, 5 * PIECE + 48];
    let odd = [ONE_FRAME - 1, ONE_FRAME, ONE_FRAME + 1, ONE_FRAME + 15, ONE_FRAME + 17, 5 * PIECE - 1, 5 * PIECE, 5 * PIECE + 1];
    for (mechanism, lengths) in [(AES_ECB, &blocks[..]), (AES_CBC, &blocks), (AES_CBC_PAD, &odd), (AES_CTR, &odd)] {
        for len in lengths {
            let data = &all[..*len];
            let wanted = bench.by_small_pieces(Init::Encrypt, mechanism, data);
            bench.begin(Init::Encrypt, mechanism);
            let found = bench.module.encrypt(bench.session, data).unwrap();
            assert!(found == wanted, "{mechanism:#x} of {len} bytes");
            bench.begin(Init::Decrypt, mechanism);
            let back = bench.module.decrypt(bench.session, &wanted).unwrap();
            assert!(back == data, "{mechanism:#x} of {len} bytes, back");
        }
    }
}

#[test]
fn updates_at_each_border() {
    let bench = begun();
    let all = text(ONE_FRAME + PIECE + 64);
    for mechanism in [AES_ECB, AES_CBC, AES_CBC_PAD, AES_CTR] {
        for (first, second) in
            [(0, ONE_FRAME + 16), (1, ONE_FRAME + 15), (15, ONE_FRAME + 1), (16, ONE_FRAME + 32), (5, ONE_FRAME + PIECE + 11)]
        {
            let data = &all[..first + second];
            let wanted = bench.by_small_pieces(Init::Encrypt, mechanism, data);
            bench.begin(Init::Encrypt, mechanism);
            let mut found = bench.module.encrypt_update(bench.session, &data[..first]).unwrap();
            found.extend(bench.module.encrypt_update(bench.session, &data[first..]).unwrap());
            found.extend(bench.module.encrypt_final(bench.session).unwrap());
            assert!(found == wanted, "{mechanism:#x} of {first} and {second} bytes");
            bench.begin(Init::Decrypt, mechanism);
            let (front, rest) = wanted.split_at(first);
            let mut back = bench.module.decrypt_update(bench.session, front).unwrap();
            back.extend(bench.module.decrypt_update(bench.session, rest).unwrap());
            back.extend(bench.module.decrypt_final(bench.session).unwrap());
            assert!(back == data, "{mechanism:#x} of {first} and {second} bytes, back");
        }
    }
}

#[test]
fn codes_of_long_data() {
    let bench = begun();
    let (module, session) = (&bench.module, bench.session);
    let data = text(ONE_FRAME + 17);
    assert_eq!(module.encrypt(session, &data), Err(CKR_OPERATION_NOT_INITIALIZED));
    bench.begin(Init::Encrypt, AES_CBC);
    assert_eq!(module.encrypt(session, &data), Err(CKR_DATA_LEN_RANGE));
    assert_eq!(module.encrypt(session, &data[..16]), Err(CKR_OPERATION_NOT_INITIALIZED));
    bench.begin(Init::Decrypt, AES_CBC_PAD);
    assert_eq!(module.decrypt(session, &data), Err(CKR_ENCRYPTED_DATA_LEN_RANGE));
    bench.begin(Init::Decrypt, AES_CBC_PAD);
    assert_eq!(module.decrypt(session, &data[..ONE_FRAME + 16]), Err(CKR_ENCRYPTED_DATA_INVALID));
    bench.begin(Init::Encrypt, AES_CTR);
    assert_eq!(module.encrypt_update(session, &data[..1]).unwrap().len(), 1);
    assert_eq!(module.encrypt(session, &data), Err(CKR_OPERATION_ACTIVE));
    // (no memory has so much, and none of it is read)
    bench.begin(Init::Encrypt, AES_CTR);
    let mut len = 0;
    let at = data.as_ptr().cast_mut();
    unsafe {
        assert_eq!((module.c.C_Encrypt)(session, at, 1 << 62, null_mut(), &mut len), CKR_OK);
        assert_eq!(len, 1 << 62);
        assert_eq!(
            (module.c.C_Encrypt)(session, at, 1 << 62, at, {
                len = 5;
                &mut len
            }),
            CKR_BUFFER_TOO_SMALL
        );
        assert_eq!((module.c.C_Encrypt)(session, null_mut(), 1 << 62, at, &mut len), CKR_ARGUMENTS_BAD);
        assert_eq!((module.c.C_Encrypt)(session, at, 16, at, null_mut()), CKR_ARGUMENTS_BAD);
    }
}

#[test]
fn one_buffer_for_input_and_output() {
    let bench = begun();
    for len in [16, 40_000, ONE_FRAME, ONE_FRAME + 16, 5 * PIECE + 32] {
        for mechanism in [AES_CBC, AES_CTR, AES_CBC_PAD] {
            let data = text(len);
            let wanted = bench.by_small_pieces(Init::Encrypt, mechanism, &data);
            let mut buffer = data.clone();
            buffer.resize(len + 16, 0);
            let (at, mut to_len) = (buffer.as_mut_ptr(), buffer.len() as u64);
            bench.begin(Init::Encrypt, mechanism);
            unsafe { assert_eq!((bench.module.c.C_Encrypt)(bench.session, at, len as u64, at, &mut to_len), CKR_OK) };
            assert!(buffer[..to_len as usize] == wanted, "{mechanism:#x} of {len} bytes");
            bench.begin(Init::Decrypt, mechanism);
            let from_len = to_len;
            unsafe { assert_eq!((bench.module.c.C_Decrypt)(bench.session, at, from_len, at, &mut to_len), CKR_OK) };
            assert!(buffer[..to_len as usize] == data, "{mechanism:#x} of {len} bytes, back");
        }
    }
}

#[test]
fn signatures_at_each_border() {
    let bench = begun();
    let (module, session) = (&bench.module, bench.session);
    let all = text(ONE_FRAME + 2 * PIECE);
    for len in [ONE_FRAME - 1_025, ONE_FRAME - 1_024, ONE_FRAME - 1_023, ONE_FRAME, ONE_FRAME + 1, 5 * PIECE, 5 * PIECE + 1] {
        let data = &all[..len];
        bench.begin(Init::Sign, AES_CMAC);
        for piece in data.chunks(60_000) {
            assert_eq!(module.sign_update(session, piece), CKR_OK);
        }
        let wanted = module.sign_final(session).unwrap();
        bench.begin(Init::Sign, AES_CMAC);
        assert_eq!(module.sign(session, data).unwrap(), wanted, "{len} bytes");
        bench.begin(Init::Sign, AES_CMAC);
        assert_eq!(module.sign_update(session, data), CKR_OK);
        assert_eq!(module.sign_final(session).unwrap(), wanted, "{len} bytes by an update");
        bench.begin(Init::Verify, AES_CMAC);
        assert_eq!(module.verify(session, data, &wanted), CKR_OK);
        bench.begin(Init::Verify, AES_CMAC);
        assert_eq!(module.verify(session, data, &IV[..15]), CKR_SIGNATURE_LEN_RANGE);
        bench.begin(Init::Verify, AES_CMAC);
        assert_eq!(module.verify(session, data, IV), CKR_SIGNATURE_INVALID);
        bench.begin(Init::Verify, AES_CMAC);
        assert_eq!(module.verify_update(session, data), CKR_OK);
        assert_eq!(module.verify_final(session, &wanted), CKR_OK);
    }
}

#[test]
fn long_data_behind_a_part_of_it() {
    let bench = begun();
    let (module, session) = (&bench.module, bench.session);
    let data = text(ONE_FRAME + 1);
    bench.begin(Init::Sign, AES_CMAC);
    assert_eq!(module.sign_update(session, b"a"), CKR_OK);
    assert_eq!(module.sign(session, &data), Err(CKR_OPERATION_ACTIVE));
    bench.begin(Init::Verify, AES_CMAC);
    assert_eq!(module.verify_update(session, b"a"), CKR_OK);
    assert_eq!(module.verify(session, &data, IV), CKR_OPERATION_ACTIVE);
    assert_eq!(module.verify(session, &data, IV), CKR_OPERATION_NOT_INITIALIZED);
    // (nothing is no data, and a new operation has taken none)
    bench.begin(Init::Verify, AES_CMAC);
    assert_eq!(module.verify_update(session, b""), CKR_OK);
    assert_eq!(module.verify(session, &data, IV), CKR_SIGNATURE_INVALID);
}
