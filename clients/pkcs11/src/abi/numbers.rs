//! The standard's numbers that the module looks at. All others it passes on.

use super::CK_ULONG;

/// The daemon's one slot, in a frame. What the application has are the indices of the sockets in the settings.
pub const DAEMON_SLOT: CK_ULONG = 0;

/// The most slots of a process.
pub const MAX_SLOTS: usize = 16;

/// CK_UNAVAILABLE_INFORMATION.
pub const UNAVAILABLE: CK_ULONG = CK_ULONG::MAX;

/// CK_FALSE.
pub const CK_FALSE: u8 = 0;

/// CKF_TOKEN_PRESENT and CKF_REMOVABLE_DEVICE of a slot.
pub const CKF_TOKEN_PRESENT: CK_ULONG = 0x1;
/// See `CKF_TOKEN_PRESENT`.
pub const CKF_REMOVABLE_DEVICE: CK_ULONG = 0x2;

/// CKF_OS_LOCKING_OK of C_Initialize.
pub const CKF_OS_LOCKING_OK: CK_ULONG = 0x2;

/// CKF_DONT_BLOCK of C_WaitForSlotEvent.
pub const CKF_DONT_BLOCK: CK_ULONG = 0x1;

/// The operations that C_SessionCancel can end.
pub const CKF_FIND_OBJECTS: CK_ULONG = 0x40;
/// See `CKF_FIND_OBJECTS`.
pub const CKF_ENCRYPT: CK_ULONG = 0x100;
/// See `CKF_FIND_OBJECTS`.
pub const CKF_DECRYPT: CK_ULONG = 0x200;
/// See `CKF_FIND_OBJECTS`.
pub const CKF_SIGN: CK_ULONG = 0x800;
/// See `CKF_FIND_OBJECTS`.
pub const CKF_VERIFY: CK_ULONG = 0x2000;

/// CKO_DATA.
pub const CKO_DATA: CK_ULONG = 0;
/// CKO_SECRET_KEY.
pub const CKO_SECRET_KEY: CK_ULONG = 4;

/// CKA_CLASS.
pub const CKA_CLASS: CK_ULONG = 0x0;
/// CKA_KEY_TYPE.
pub const CKA_KEY_TYPE: CK_ULONG = 0x100;
/// CKA_OBJECT_ID.
pub const CKA_OBJECT_ID: CK_ULONG = 0x12;
/// CKA_DERIVE.
pub const CKA_DERIVE: CK_ULONG = 0x10C;
/// CKA_START_DATE.
pub const CKA_START_DATE: CK_ULONG = 0x110;
/// CKA_END_DATE.
pub const CKA_END_DATE: CK_ULONG = 0x111;
/// CKA_VALUE_LEN.
pub const CKA_VALUE_LEN: CK_ULONG = 0x161;
/// CKA_KEY_GEN_MECHANISM.
pub const CKA_KEY_GEN_MECHANISM: CK_ULONG = 0x166;
/// CKA_ALWAYS_AUTHENTICATE.
pub const CKA_ALWAYS_AUTHENTICATE: CK_ULONG = 0x202;
/// CKA_ALLOWED_MECHANISMS.
pub const CKA_ALLOWED_MECHANISMS: CK_ULONG = 0x4000_0600;
/// CKF_ARRAY_ATTRIBUTE: the value of such an attribute is itself a list of attributes, with pointers.
pub const CKF_ARRAY_ATTRIBUTE: CK_ULONG = 0x4000_0000;

/// CKM_AES_CTR.
pub const CKM_AES_CTR: CK_ULONG = 0x1086;

/// Whether an attribute's value is a number. In a frame it has eight bytes, the highest first.
pub fn is_number(attribute_type: CK_ULONG) -> bool {
    matches!(attribute_type, CKA_CLASS | CKA_KEY_TYPE | CKA_VALUE_LEN | CKA_KEY_GEN_MECHANISM)
}

/// The classes of the token's objects.
pub fn is_class(class: CK_ULONG) -> bool {
    matches!(class, CKO_DATA | CKO_SECRET_KEY)
}

/// What every object of a class has with one value, and the token doesn't know: the class and the value. No key derives, none asks for
/// a PIN at each use, none has a first or last day or a list of mechanisms, and no data object has an object identifier.
pub fn fixed(attribute_type: CK_ULONG) -> Option<(CK_ULONG, &'static [u8])> {
    match attribute_type {
        CKA_DERIVE | CKA_ALWAYS_AUTHENTICATE => Some((CKO_SECRET_KEY, &[CK_FALSE])),
        CKA_START_DATE | CKA_END_DATE | CKA_ALLOWED_MECHANISMS => Some((CKO_SECRET_KEY, &[])),
        CKA_OBJECT_ID => Some((CKO_DATA, &[])),
        _ => None,
    }
}
