//! What a call through the module costs, beside the same frames written by hand: calls a second, by turns, and the medians.
//!
//! `beside_frames MODULE SOCKET`, where a daemon listens and one place is free at least. See docs/PERFORMANCE.md.

#[path = "../tests/common/mod.rs"]
mod common;

use common::module::{Init, Module, RW};
use common::{Folder, templates::*};
use std::io::{Read, Write};
use std::os::unix::net::UnixStream;
use std::path::PathBuf;
use std::time::Instant;
use tokend_pkcs11::abi::codes::CKR_OK;

const ROUNDS: usize = 11;
const CALLS: u32 = 20_000;
const LONG_CALLS: u32 = 2_000;

/// A connection with a session and a key, whose frames are made once.
struct Hand {
    stream: UnixStream,
    reply: Vec<u8>,
}

impl Hand {
    fn ask(&mut self, payload: &[u8]) {
        let frame = [&(payload.len() as u32).to_be_bytes()[..], payload].concat();
        self.stream.write_all(&frame).expect("the daemon reads");
        let mut have = 0;
        while have < 4 || have < 4 + u32::from_be_bytes(self.reply[..4].try_into().expect("four")) as usize {
            have += self.stream.read(&mut self.reply[have..]).expect("the daemon answers");
        }
        assert_eq!(self.reply[4..12], [0; 8], "the daemon refuses");
    }
}

fn number(number: u64) -> [u8; 8] {
    number.to_be_bytes()
}

/// C_OpenSession, and C_CreateObject of the key that the module makes too.
fn begin(hand: &mut Hand) {
    hand.ask(&[&[0, 7][..], &number(0), &number(6)].concat());
    let mut payload = [&[0, 13][..], &number(1), &5_u32.to_be_bytes()].concat();
    let entries: [(u64, &[u8]); 5] = [(CLASS, &number(4)), (KEY_TYPE, &number(0x1F)), (PRIVATE, NO), (LABEL, b"key"), (VALUE, KEY)];
    for (kind, value) in entries {
        payload.extend([&number(kind)[..], &(value.len() as u32).to_be_bytes(), value].concat());
    }
    hand.ask(&payload);
}

fn encryption(mechanism: u64, parameter: &[u8], len: usize) -> [Vec<u8>; 2] {
    let init = [&[0, 22][..], &number(1), &[1], &number(mechanism), &(parameter.len() as u32).to_be_bytes(), parameter, &number(1)];
    let whole = [&[0, 23][..], &number(1), &(len as u32).to_be_bytes(), &vec![7; len], &[1], &number(len as u64 + 16)];
    [init.concat(), whole.concat()]
}

/// The median of calls a second, by hand and by the module, by turns.
fn measure(name: &str, calls: u32, mut by_hand: impl FnMut(), mut by_module: impl FnMut()) {
    let mut rates = [vec![], vec![]];
    for _ in 0..ROUNDS {
        for (rates, work) in rates.iter_mut().zip([&mut by_hand as &mut dyn FnMut(), &mut by_module]) {
            let since = Instant::now();
            (0..calls).for_each(|_| work());
            rates.push(f64::from(calls) / since.elapsed().as_secs_f64());
        }
    }
    let [hand, module] = rates.map(|mut it| {
        it.sort_by(f64::total_cmp);
        it[ROUNDS / 2]
    });
    println!("{name:<44} {hand:>9.0} a second by hand {module:>9.0} by the module {:>6.3}", hand / module);
}

fn main() {
    let words: Vec<PathBuf> = std::env::args_os().skip(1).map(PathBuf::from).collect();
    let [library, socket] = &words[..] else { panic!("beside_frames MODULE SOCKET") };
    // SAFETY: there is no other thread.
    unsafe { std::env::set_var("TOKEND_MODULE", library) };
    let folder = Folder::new();
    let module = Module::load(&folder, "module.so");
    assert_eq!(module.initialize_at(socket, &folder.file("none")), CKR_OK);
    let session = module.open(RW).expect("a session");
    let template = [(CLASS, SECRET_KEY), (KEY_TYPE, AES), (PRIVATE, NO), (LABEL, b"key"), (VALUE, KEY)];
    let key = module.create(session, &template).expect("a key");
    let mut hand = Hand { stream: UnixStream::connect(socket).expect("the socket"), reply: vec![0; 70_000] };
    begin(&mut hand);

    let info = [&[0, 10][..], &number(1)].concat();
    measure("C_GetSessionInfo", CALLS, || hand.ask(&info), || assert!(module.session_info(session).is_ok()));
    for (name, mechanism, parameter, len, calls) in [
        ("C_EncryptInit and C_Encrypt, ECB, 16 bytes", AES_ECB, &[][..], 16, CALLS),
        ("C_EncryptInit and C_Encrypt, CBC_PAD, 16 KiB", AES_CBC_PAD, &[3; 16], 16_384, LONG_CALLS),
    ] {
        let frames = encryption(mechanism, parameter, len);
        let (mut data, mut to) = (vec![7; len], vec![0; len + 16]);
        let by_module = || {
            assert_eq!(module.begin(Init::Encrypt, session, mechanism, parameter, key), CKR_OK);
            let mut to_len = to.len() as u64;
            // SAFETY: the buffers are as long as is said.
            let code = unsafe { (module.c.C_Encrypt)(session, data.as_mut_ptr(), len as u64, to.as_mut_ptr(), &mut to_len) };
            assert_eq!(code, CKR_OK);
        };
        measure(name, calls, || frames.iter().for_each(|it| hand.ask(it)), by_module);
    }
    assert_eq!(module.finalize(), CKR_OK);
}
