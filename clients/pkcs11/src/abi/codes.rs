//! The return values that the module gives by itself, and the names of all that it may pass on.

use super::CK_RV;

/// Constants with their numbers, and `name`, which finds one by its number.
macro_rules! codes {
    ($($name:ident = $number:literal;)*) => {
        $(#[allow(missing_docs)] pub const $name: CK_RV = CK_RV($number);)*

        /// The standard's name of a code, if this module or the token has it.
        pub fn name(code: CK_RV) -> Option<&'static str> {
            match code.0 {
                $($number => Some(stringify!($name)),)*
                _ => None,
            }
        }
    };
}

codes! {
    CKR_OK = 0x0;
    CKR_HOST_MEMORY = 0x2;
    CKR_SLOT_ID_INVALID = 0x3;
    CKR_GENERAL_ERROR = 0x5;
    CKR_FUNCTION_FAILED = 0x6;
    CKR_ARGUMENTS_BAD = 0x7;
    CKR_NO_EVENT = 0x8;
    CKR_CANT_LOCK = 0xA;
    CKR_ATTRIBUTE_READ_ONLY = 0x10;
    CKR_ATTRIBUTE_SENSITIVE = 0x11;
    CKR_ATTRIBUTE_TYPE_INVALID = 0x12;
    CKR_ATTRIBUTE_VALUE_INVALID = 0x13;
    CKR_ACTION_PROHIBITED = 0x1B;
    CKR_DATA_LEN_RANGE = 0x21;
    CKR_DEVICE_ERROR = 0x30;
    CKR_DEVICE_MEMORY = 0x31;
    CKR_DEVICE_REMOVED = 0x32;
    CKR_ENCRYPTED_DATA_INVALID = 0x40;
    CKR_ENCRYPTED_DATA_LEN_RANGE = 0x41;
    CKR_FUNCTION_NOT_PARALLEL = 0x51;
    CKR_FUNCTION_NOT_SUPPORTED = 0x54;
    CKR_KEY_HANDLE_INVALID = 0x60;
    CKR_KEY_SIZE_RANGE = 0x62;
    CKR_KEY_TYPE_INCONSISTENT = 0x63;
    CKR_KEY_FUNCTION_NOT_PERMITTED = 0x68;
    CKR_KEY_NOT_WRAPPABLE = 0x69;
    CKR_KEY_UNEXTRACTABLE = 0x6A;
    CKR_MECHANISM_INVALID = 0x70;
    CKR_MECHANISM_PARAM_INVALID = 0x71;
    CKR_OBJECT_HANDLE_INVALID = 0x82;
    CKR_OPERATION_ACTIVE = 0x90;
    CKR_OPERATION_NOT_INITIALIZED = 0x91;
    CKR_PIN_INCORRECT = 0xA0;
    CKR_PIN_LEN_RANGE = 0xA2;
    CKR_PIN_LOCKED = 0xA4;
    CKR_SESSION_COUNT = 0xB1;
    CKR_SESSION_HANDLE_INVALID = 0xB3;
    CKR_SESSION_PARALLEL_NOT_SUPPORTED = 0xB4;
    CKR_SESSION_READ_ONLY = 0xB5;
    CKR_SESSION_EXISTS = 0xB6;
    CKR_SESSION_READ_ONLY_EXISTS = 0xB7;
    CKR_SESSION_READ_WRITE_SO_EXISTS = 0xB8;
    CKR_SIGNATURE_INVALID = 0xC0;
    CKR_SIGNATURE_LEN_RANGE = 0xC1;
    CKR_TEMPLATE_INCOMPLETE = 0xD0;
    CKR_TEMPLATE_INCONSISTENT = 0xD1;
    CKR_TOKEN_NOT_PRESENT = 0xE0;
    CKR_UNWRAPPING_KEY_HANDLE_INVALID = 0xF0;
    CKR_UNWRAPPING_KEY_TYPE_INCONSISTENT = 0xF2;
    CKR_USER_ALREADY_LOGGED_IN = 0x100;
    CKR_USER_NOT_LOGGED_IN = 0x101;
    CKR_USER_PIN_NOT_INITIALIZED = 0x102;
    CKR_USER_TYPE_INVALID = 0x103;
    CKR_USER_ANOTHER_ALREADY_LOGGED_IN = 0x104;
    CKR_WRAPPED_KEY_INVALID = 0x110;
    CKR_WRAPPED_KEY_LEN_RANGE = 0x112;
    CKR_WRAPPING_KEY_HANDLE_INVALID = 0x113;
    CKR_WRAPPING_KEY_TYPE_INCONSISTENT = 0x115;
    CKR_RANDOM_SEED_NOT_SUPPORTED = 0x120;
    CKR_BUFFER_TOO_SMALL = 0x150;
    CKR_CRYPTOKI_NOT_INITIALIZED = 0x190;
    CKR_CRYPTOKI_ALREADY_INITIALIZED = 0x191;
}

impl std::fmt::Debug for CK_RV {
    fn fmt(&self, to: &mut std::fmt::Formatter<'_>) -> std::fmt::Result {
        match name(*self) {
            Some(name) => write!(to, "{name} ({:#x})", self.0),
            None => write!(to, "{:#x}", self.0),
        }
    }
}
