//! A daemon that answers nonsense: random, cut off, too long, too much. No panic comes out, nothing is written beyond the application's
//! buffers, and the module can be used again.
//!
//! `TOKEND_HOSTILE_CALLS` says how many calls are made, if not 200,000.

mod common;

use common::Folder;
use common::module::{Module, RW};
use std::collections::BTreeMap;
use std::io::{Read, Write};
use std::os::unix::net::{UnixListener, UnixStream};
use std::ptr::null;
use tokend_pkcs11::abi::codes::*;
use tokend_pkcs11::abi::*;

/// Numbers by xorshift, so that each run is the same.
struct Dice(u64);

impl Dice {
    fn next(&mut self) -> u64 {
        self.0 ^= self.0 << 13;
        self.0 ^= self.0 >> 7;
        self.0 ^= self.0 << 17;
        self.0
    }

    fn below(&mut self, count: u64) -> u64 {
        self.next() % count
    }

    fn is_one_of(&mut self, count: u64) -> bool {
        self.below(count) == 0
    }
}

/// A payload that begins as a real one may, and goes on with fields of any kind.
fn payload(dice: &mut Dice) -> Vec<u8> {
    let codes = [0u64, 0, 0, 0, 0x150, 0x11, 0x12, 7, u64::MAX];
    let mut payload = codes[dice.below(9) as usize].to_be_bytes().to_vec();
    for _ in 0..dice.below(12) {
        match dice.below(6) {
            0 => payload.extend_from_slice(&dice.below(40).to_be_bytes()),
            1 => payload.extend_from_slice(&(dice.below(40) as u32).to_be_bytes()),
            2 => payload.push(dice.below(2) as u8),
            3 => payload.extend_from_slice(&u64::MAX.to_be_bytes()),
            4 => payload.extend_from_slice(&u32::MAX.to_be_bytes()),
            _ => payload.extend((0..dice.below(40)).map(|it| it as u8)),
        }
    }
    payload
}

/// A payload with the fields of a function's reply, but with whatever numbers and lengths.
fn fitting(dice: &mut Dice, function: u16) -> Vec<u8> {
    let bytes = |dice: &mut Dice| {
        let len = dice.below(80);
        [&(len as u32).to_be_bytes()[..], &vec![0xBB; len as usize]].concat()
    };
    let numbers = |dice: &mut Dice, count: u64| (0..count).flat_map(|_| dice.next().to_be_bytes()).collect::<Vec<_>>();
    let mut payload = vec![0; 8];
    match function {
        1 => payload.extend([vec![b'x'; 32], numbers(dice, 7)].concat()),
        2 | 20 => {
            let count = dice.below(12);
            payload.extend((count as u32).to_be_bytes());
            payload.extend(numbers(dice, count));
        }
        3 => payload.extend(numbers(dice, 3)),
        10 => payload.extend(numbers(dice, 4)),
        // (mostly a handle)
        13 | 14 | 38 | 40 if !dice.is_one_of(4) => payload.extend((1 + dice.below(50)).to_be_bytes()),
        13 | 14 | 16 | 38 | 40 => payload.extend(numbers(dice, 1)),
        17 => {
            let count = 1 + dice.below(3);
            payload.extend((count as u32).to_be_bytes());
            for _ in 0..count {
                let len = dice.below(40);
                payload.extend([&len.to_be_bytes()[..], &[1], &vec![0xBB; len as usize]].concat());
            }
        }
        23..=25 | 27..=29 | 31 | 33 | 39 => match dice.below(3) {
            0 => {
                payload[6..8].copy_from_slice(&[[0, 0], [1, 0x50]][dice.below(2) as usize]);
                payload.push(0);
                payload.extend(dice.below(100).to_be_bytes());
            }
            _ => payload.extend([vec![1], bytes(dice)].concat()),
        },
        41 => payload.extend(bytes(dice)),
        _ => {}
    }
    payload
}

/// A reply, and whether anything can follow it.
fn reply(dice: &mut Dice, function: u16) -> (Vec<u8>, bool) {
    // (connections are made and sessions opened, or nothing else would be called)
    match function {
        7 if !dice.is_one_of(8) => return ([&[0, 0, 0, 16][..], &[0; 15], &[1]].concat(), true),
        9 if !dice.is_one_of(8) => return ([&[0, 0, 0, 8][..], &[0; 8]].concat(), true),
        _ => {}
    }
    let payload = if dice.is_one_of(4) { payload(dice) } else { fitting(dice, function) };
    let mut frame = (payload.len() as u32).to_be_bytes().to_vec();
    let is_lying = dice.is_one_of(50);
    if is_lying {
        frame = (dice.next() as u32).to_be_bytes().to_vec();
    }
    frame.extend_from_slice(&payload);
    let is_cut = dice.is_one_of(50);
    if is_cut {
        frame.truncate(dice.below(frame.len() as u64) as usize);
    }
    if dice.is_one_of(100) {
        frame.extend_from_slice(&[0; 9]);
    }
    (frame, !is_lying && !is_cut)
}

fn serve(listener: UnixListener) {
    let mut dice = Dice(0x9E37_79B9_7F4A_7C15);
    for stream in listener.incoming() {
        let _ = serve_one(stream.unwrap(), &mut dice);
    }
}

fn serve_one(mut stream: UnixStream, dice: &mut Dice) -> std::io::Result<()> {
    let mut goes_on = true;
    while goes_on {
        let mut head = [0; 6];
        stream.read_exact(&mut head)?;
        let len = u32::from_be_bytes(head[..4].try_into().unwrap()) as usize;
        stream.read_exact(&mut vec![0; len - 2])?;
        let (frame, more) = reply(dice, u16::from_be_bytes([head[4], head[5]]));
        stream.write_all(&frame)?;
        goes_on = more;
    }
    Ok(())
}

/// One of the calls, with buffers within `room`, of which `len` bytes are the call's. What it says that it returned is in them.
fn call(module: &Module, dice: &mut Dice, session: u64, room: &mut [u8], len: u64) -> CK_RV {
    let c = module.c;
    let to = room.as_mut_ptr();
    let (mut to_len, mut handle, mut data) = (len, 0, [1u8; 32]);
    let at = data.as_mut_ptr();
    let code = unsafe {
        match dice.below(20) {
            0 | 1 => (c.C_Encrypt)(session, at, 32, to, &mut to_len),
            2 => (c.C_DecryptUpdate)(session, at, 32, to, &mut to_len),
            3 => (c.C_SignFinal)(session, to, &mut to_len),
            4 => (c.C_GenerateRandom)(session, to, len),
            5 | 6 => (c.C_FindObjects)(session, to.cast(), len / 8, &mut handle),
            7 | 8 => {
                let mut entries = [
                    CK_ATTRIBUTE { attribute_type: 3, value: to.cast(), value_len: len / 2 },
                    CK_ATTRIBUTE { attribute_type: 0x161, value: to.add(len as usize / 2).cast(), value_len: len - len / 2 },
                    CK_ATTRIBUTE { attribute_type: 0x10C, value: at.cast(), value_len: 1 },
                ];
                let code = (c.C_GetAttributeValue)(session, 1, entries.as_mut_ptr(), 2 + dice.below(2));
                let lengths = entries.map(|it| if it.value_len == u64::MAX { 0 } else { it.value_len });
                assert!(lengths[0] <= len / 2 && lengths[1] <= len - len / 2 && lengths[2] <= 1, "a value is longer than its buffer");
                code
            }
            9 => {
                to_len = len / 8;
                (c.C_GetMechanismList)(0, to.cast(), &mut to_len)
            }
            10 => {
                let mut info = std::mem::MaybeUninit::<CK_TOKEN_INFO>::uninit();
                (c.C_GetTokenInfo)(0, info.as_mut_ptr())
            }
            11 => {
                let mut info = std::mem::MaybeUninit::<CK_SESSION_INFO>::uninit();
                (c.C_GetSessionInfo)(session, info.as_mut_ptr())
            }
            12 => (c.C_CreateObject)(session, std::ptr::null_mut(), 0, &mut handle),
            13 => (c.C_GetObjectSize)(session, 1, &mut handle),
            14 => (c.C_Verify)(session, at, 32, at, 16),
            15 => {
                let by = CK_MECHANISM { mechanism: 0x2109, parameter: null(), parameter_len: 0 };
                (c.C_WrapKey)(session, (&raw const by).cast_mut(), 1, 2, to, &mut to_len)
            }
            16 => (c.C_Login)(session, 1, at, 4),
            17 => (c.C_CloseSession)(session),
            18 => (c.C_InitToken)(0, at, 4, at),
            _ => {
                let code = (c.C_Sign)(session, at, 32, std::ptr::null_mut(), &mut to_len);
                to_len = 0;
                code
            }
        }
    };
    assert!(code != CKR_OK || to_len <= len, "an output is longer than its buffer");
    code
}

#[test]
fn nonsense_does_no_harm() {
    let folder = Folder::new();
    let listener = UnixListener::bind(folder.file("socket")).unwrap();
    std::thread::spawn(move || serve(listener));
    let calls = std::env::var("TOKEND_HOSTILE_CALLS").map_or(200_000, |it| it.parse().unwrap());
    let module = Module::load(&folder, "module.so");
    assert_eq!(module.initialize(&folder), CKR_OK);
    let mut dice = Dice(7);
    let mut seen = BTreeMap::<CK_RV, u64>::new();
    let (mut session, mut is_lost) = (0, true);
    for round in 0..calls {
        if is_lost {
            session = module.open(RW).unwrap_or(session);
        }
        let len = dice.below(65);
        let mut room = [0xAA; 96];
        let code = call(&module, &mut dice, session, &mut room[16..], len);
        is_lost = [CKR_DEVICE_ERROR, CKR_DEVICE_REMOVED, CKR_SESSION_HANDLE_INVALID].contains(&code);
        *seen.entry(code).or_default() += 1;
        assert_ne!(code, CKR_GENERAL_ERROR, "a panic at call {round}");
        assert!(room[..16].iter().all(|it| *it == 0xAA), "bytes before the buffer at call {round}");
        assert!(room[16 + len as usize..].iter().all(|it| *it == 0xAA), "bytes behind the buffer at call {round}");
    }
    println!("{seen:?}");
    // (of each kind there were many, or nothing was tried)
    for code in [CKR_OK, CKR_DEVICE_ERROR, CKR_DEVICE_REMOVED, CKR_BUFFER_TOO_SMALL] {
        assert!(seen.get(&code).is_some_and(|it| *it > calls / 1_000), "{code:?} was seldom seen: {seen:?}");
    }
    let _ = module.finalize();
}
