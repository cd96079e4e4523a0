//! A program that has the module's code in itself: its panics stay its own.

use std::ffi::c_void;
use std::ptr::{null, null_mut};
use std::sync::atomic::{AtomicU32, Ordering::SeqCst};
use tokend_pkcs11::CK_FUNCTION_LIST;
use tokend_pkcs11::abi::CK_RV;
use tokend_pkcs11::abi::codes::*;

unsafe extern "C" {
    fn C_GetFunctionList(list: *mut *const CK_FUNCTION_LIST) -> CK_RV;
}

static PANICS: AtomicU32 = AtomicU32::new(0);

#[test]
fn the_program_s_panics_are_its_own() {
    std::panic::set_hook(Box::new(|_| {
        PANICS.fetch_add(1, SeqCst);
    }));
    // SAFETY: the functions of the list are called as PKCS #11 has them.
    unsafe {
        let mut list = null();
        assert_eq!(C_GetFunctionList(&mut list), CKR_OK);
        std::env::set_var("TOKEND_PKCS11_CONF", "/none/such");
        assert_eq!(((*list).functions.C_Initialize)(null_mut::<c_void>()), CKR_OK);
        assert_eq!(((*list).functions.C_GetInfo)(null::<c_void>().cast_mut().cast()), CKR_ARGUMENTS_BAD);
        assert_eq!(((*list).functions.C_Finalize)(null_mut::<c_void>()), CKR_OK);
    }
    assert!(std::panic::catch_unwind(|| panic!("the program's")).is_err());
    assert_eq!(PANICS.load(SeqCst), 1);
}
