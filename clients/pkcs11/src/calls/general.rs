//! General-purpose functions (5.4).

use crate::abi::codes::*;
use crate::abi::numbers::CKF_OS_LOCKING_OK;
use crate::abi::{CK_INFO, CK_VERSION};
use crate::edge::memory::{InitializeArgs, Place};
use crate::error::{Answer, refused};
use crate::process;

/// The version of the module, which is that of the daemon that it came with.
pub const VERSION: CK_VERSION = CK_VERSION { major: 0, minor: 1 };

/// Who made token and module.
pub const MANUFACTURER: &str = "Bogoven";

/// Text as the standard pads it.
pub fn padded<const N: usize>(text: &str) -> [u8; N] {
    let mut all = [b' '; N];
    all.iter_mut().zip(text.bytes()).for_each(|(to, it)| *to = it);
    all
}

/// C_Initialize. Nothing is asked of the daemon, which may not be there.
///
/// Locks are the system's: an application that allows its own alone is answered CKR_CANT_LOCK. `pReserved` must be null, as the standard
/// has it: an application with parameters there expects a library that reads them. Settings that can't be read are CKR_GENERAL_ERROR.
pub fn initialize(args: InitializeArgs) -> Answer {
    if !args.is_reserved_null() {
        return refused(CKR_ARGUMENTS_BAD);
    }
    match args.locking() {
        (0, _) => process::initialize(),
        (4, flags) if flags & CKF_OS_LOCKING_OK != 0 => process::initialize(),
        (4, _) => refused(CKR_CANT_LOCK),
        _ => refused(CKR_ARGUMENTS_BAD),
    }
}

/// C_Finalize. Sessions that are open are closed, and the connection ends.
pub fn finalize(is_reserved_null: bool) -> Answer {
    if is_reserved_null { process::finalize() } else { refused(CKR_ARGUMENTS_BAD) }
}

/// C_GetInfo, by the interface of a version.
pub fn get_info(info: Place<CK_INFO>, version: CK_VERSION) -> Answer {
    info.put(CK_INFO {
        cryptoki_version: version,
        manufacturer_id: padded(MANUFACTURER),
        flags: 0,
        library_description: padded("tokend PKCS #11 module"),
        library_version: VERSION,
    })
}
