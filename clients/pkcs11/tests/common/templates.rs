//! Templates of the tests, and the standard's numbers that they name.

pub const CLASS: u64 = 0x0;
pub const TOKEN: u64 = 0x1;
pub const PRIVATE: u64 = 0x2;
pub const LABEL: u64 = 0x3;
pub const UNIQUE_ID: u64 = 0x4;
pub const VALUE: u64 = 0x11;
pub const KEY_TYPE: u64 = 0x100;
pub const ID: u64 = 0x102;
pub const SENSITIVE: u64 = 0x103;
pub const WRAP: u64 = 0x106;
pub const UNWRAP: u64 = 0x107;
pub const DERIVE: u64 = 0x10C;
pub const OBJECT_ID: u64 = 0x12;
pub const START_DATE: u64 = 0x110;
pub const END_DATE: u64 = 0x111;
pub const ALLOWED_MECHANISMS: u64 = 0x4000_0600;
pub const VALUE_LEN: u64 = 0x161;
pub const EXTRACTABLE: u64 = 0x162;
pub const LOCAL: u64 = 0x163;
pub const KEY_GEN_MECHANISM: u64 = 0x166;
pub const ALWAYS_AUTHENTICATE: u64 = 0x202;

pub const YES: &[u8] = &[1];
pub const NO: &[u8] = &[0];
pub const EMPTY: &[u8] = &[];
pub const DATA: &[u8] = &0_u64.to_ne_bytes();
pub const SECRET_KEY: &[u8] = &4_u64.to_ne_bytes();
pub const AES: &[u8] = &0x1F_u64.to_ne_bytes();
pub const GENERIC: &[u8] = &0x10_u64.to_ne_bytes();

pub const AES_KEY_GEN: u64 = 0x1080;
pub const AES_ECB: u64 = 0x1081;
pub const AES_CBC: u64 = 0x1082;
pub const AES_CBC_PAD: u64 = 0x1085;
pub const AES_CTR: u64 = 0x1086;
pub const AES_CMAC: u64 = 0x108A;
pub const SHA256_HMAC: u64 = 0x251;

/// The key of FIPS 197, C.1.
pub const KEY: &[u8] = &[0, 1, 2, 3, 4, 5, 6, 7, 8, 9, 10, 11, 12, 13, 14, 15];

/// A public AES key, of the session or of the token.
pub fn aes_key<'a>(token: &'a [u8], label: &'a [u8]) -> Vec<(u64, &'a [u8])> {
    vec![(CLASS, SECRET_KEY), (KEY_TYPE, AES), (TOKEN, token), (PRIVATE, NO), (LABEL, label), (VALUE, KEY), (WRAP, YES), (UNWRAP, YES)]
}

/// A public data object.
pub fn data_object<'a>(token: &'a [u8], label: &'a [u8]) -> Vec<(u64, &'a [u8])> {
    vec![(CLASS, DATA), (TOKEN, token), (LABEL, label), (VALUE, b"the value")]
}
