//! The C types of PKCS #11 that the module needs (v3.1, sections 3 and 5). On Unix nothing is packed.

#![allow(non_camel_case_types, missing_docs)]

pub mod codes;
pub mod numbers;

use std::ffi::{c_char, c_ulong, c_void};

pub type CK_BYTE = u8;
pub type CK_BBOOL = u8;
pub type CK_ULONG = c_ulong;

// Frames carry numbers of 64 bits, and so must the application's be.
const _: () = assert!(size_of::<CK_ULONG>() == 8);

/// A function's return value (5.1). Its constants stand in `codes`.
#[derive(Clone, Copy, PartialEq, Eq, PartialOrd, Ord, Hash)]
#[repr(transparent)]
pub struct CK_RV(pub CK_ULONG);

#[derive(Clone, Copy, Debug, PartialEq, Eq)]
#[repr(C)]
pub struct CK_VERSION {
    pub major: CK_BYTE,
    pub minor: CK_BYTE,
}

#[derive(Clone, Copy)]
#[repr(C)]
pub struct CK_INFO {
    pub cryptoki_version: CK_VERSION,
    pub manufacturer_id: [CK_BYTE; 32],
    pub flags: CK_ULONG,
    pub library_description: [CK_BYTE; 32],
    pub library_version: CK_VERSION,
}

#[derive(Clone, Copy)]
#[repr(C)]
pub struct CK_SLOT_INFO {
    pub slot_description: [CK_BYTE; 64],
    pub manufacturer_id: [CK_BYTE; 32],
    pub flags: CK_ULONG,
    pub hardware_version: CK_VERSION,
    pub firmware_version: CK_VERSION,
}

#[derive(Clone, Copy)]
#[repr(C)]
pub struct CK_TOKEN_INFO {
    pub label: [CK_BYTE; 32],
    pub manufacturer_id: [CK_BYTE; 32],
    pub model: [CK_BYTE; 16],
    pub serial_number: [CK_BYTE; 16],
    pub flags: CK_ULONG,
    pub max_session_count: CK_ULONG,
    pub session_count: CK_ULONG,
    pub max_rw_session_count: CK_ULONG,
    pub rw_session_count: CK_ULONG,
    pub max_pin_len: CK_ULONG,
    pub min_pin_len: CK_ULONG,
    pub total_public_memory: CK_ULONG,
    pub free_public_memory: CK_ULONG,
    pub total_private_memory: CK_ULONG,
    pub free_private_memory: CK_ULONG,
    pub hardware_version: CK_VERSION,
    pub firmware_version: CK_VERSION,
    pub utc_time: [CK_BYTE; 16],
}

#[derive(Clone, Copy)]
#[repr(C)]
pub struct CK_SESSION_INFO {
    pub slot_id: CK_ULONG,
    pub state: CK_ULONG,
    pub flags: CK_ULONG,
    pub device_error: CK_ULONG,
}

#[derive(Clone, Copy)]
#[repr(C)]
pub struct CK_MECHANISM_INFO {
    pub min_key_size: CK_ULONG,
    pub max_key_size: CK_ULONG,
    pub flags: CK_ULONG,
}

#[derive(Clone, Copy)]
#[repr(C)]
pub struct CK_MECHANISM {
    pub mechanism: CK_ULONG,
    pub parameter: *const c_void,
    pub parameter_len: CK_ULONG,
}

/// The parameter of CKM_AES_CTR (PKCS #11 v3.1, 6.13.3.1).
#[derive(Clone, Copy)]
#[repr(C)]
pub struct CK_AES_CTR_PARAMS {
    pub counter_bits: CK_ULONG,
    pub counter_block: [CK_BYTE; 16],
}

#[derive(Clone, Copy)]
#[repr(C)]
pub struct CK_ATTRIBUTE {
    pub attribute_type: CK_ULONG,
    pub value: *mut c_void,
    pub value_len: CK_ULONG,
}

#[derive(Clone, Copy)]
#[repr(C)]
pub struct CK_C_INITIALIZE_ARGS {
    pub create_mutex: *const c_void,
    pub destroy_mutex: *const c_void,
    pub lock_mutex: *const c_void,
    pub unlock_mutex: *const c_void,
    pub flags: CK_ULONG,
    pub reserved: *const c_void,
}

#[derive(Clone, Copy)]
#[repr(C)]
pub struct CK_INTERFACE {
    pub interface_name: *const c_char,
    pub function_list: *const c_void,
    pub flags: CK_ULONG,
}
