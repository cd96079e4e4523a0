//! The functions as C calls them, and the lists by which an application finds them (5.4.4 to 5.4.6).
//!
//! Only C_GetFunctionList, C_GetInterfaceList and C_GetInterface are symbols of the library: with more of them, a process that has two
//! PKCS #11 libraries could mix them up.

#![allow(non_snake_case, non_camel_case_types, missing_docs)]

use super::memory::*;
use crate::abi::codes::*;
use crate::abi::*;
use crate::calls::*;
use crate::error::{Answer, refused};
use crate::{process, trace};
use std::ffi::{CStr, c_char, c_void};
use std::panic::{AssertUnwindSafe, catch_unwind};

/// Answers a call: no panic goes into the application, and the call is traced.
fn answer(function: &str, work: impl FnOnce(&Call) -> Answer) -> CK_RV {
    let call = Call::begin();
    let code = match catch_unwind(AssertUnwindSafe(|| work(&call))) {
        Ok(Ok(())) => CKR_OK,
        Ok(Err(error)) => error.code(),
        Err(_) => CKR_GENERAL_ERROR,
    };
    trace::note(function, code);
    code
}

/// What is done before a function's work: nothing, or C_Initialize must have been called.
macro_rules! first {
    (any) => {};
    (ready) => {
        process::ready()?;
    };
}

/// A table of functions: how each begins, its name and parameters, the values that are made of its pointers, its work. It makes the
/// functions, and a list of them.
macro_rules! functions {
    ($(#[$about:meta])* $list:ident = $all:ident {
        $($(#[$attribute:meta])* $begin:ident $name:ident($($arg:ident: $kind:ty),*)
            [$($value:ident = $of:ident($($part:expr),*)),*] $work:expr;)*
    }) => {
        $(
            $(#[$attribute])*
            #[doc = concat!("# Safety\n", stringify!($name), "'s pointers are as PKCS #11 has them, for the time of the call.")]
            #[allow(unused_variables)]
            pub unsafe extern "C" fn $name($($arg: $kind),*) -> CK_RV {
                answer(stringify!($name), |call| {
                    first!($begin);
                    $(
                        // SAFETY: the caller promises it of its pointers for the time of the call, which the value doesn't outlive.
                        let $value = unsafe { $of::new(call, $($part),*) };
                    )*
                    $work
                })
            }
        )*
        $(#[$about])*
        #[derive(Clone, Copy)]
        #[repr(C)]
        pub struct $list { $(pub $name: unsafe extern "C" fn($($kind),*) -> CK_RV,)* }
        const $all: $list = $list { $($name,)* };
    };
}

type N = CK_ULONG;
type B = *mut CK_BYTE;
type A = *mut CK_ATTRIBUTE;
type M = *mut CK_MECHANISM;
type Num = *mut CK_ULONG;
type V = *mut c_void;

functions! {
    /// The functions of version 2.40, in their order.
    Functions = FUNCTIONS {
        any C_Initialize(args: V) [args = InitializeArgs(args)] general::initialize(args);
        ready C_Finalize(reserved: V) [] general::finalize(reserved.is_null());
        ready C_GetInfo(info: *mut CK_INFO) [info = Place(info)] general::get_info(info, V2_40);
        #[unsafe(no_mangle)] any C_GetFunctionList(list: *mut *const CK_FUNCTION_LIST) [list = Place(list)] list.put(&raw const LIST);
        ready C_GetSlotList(present: CK_BBOOL, list: Num, count: Num) [list = Listing(list, count)] slots::get_slot_list(present, list);
        ready C_GetSlotInfo(slot: N, info: *mut CK_SLOT_INFO) [info = Place(info)] slots::get_slot_info(slot, info);
        ready C_GetTokenInfo(slot: N, info: *mut CK_TOKEN_INFO) [info = Place(info)] slots::get_token_info(slot, info);
        ready C_GetMechanismList(slot: N, list: Num, count: Num) [list = Listing(list, count)] slots::get_mechanism_list(slot, list);
        ready C_GetMechanismInfo(slot: N, kind: N, info: *mut CK_MECHANISM_INFO)
            [info = Place(info)] slots::get_mechanism_info(slot, kind, info);
        ready C_InitToken(slot: N, pin: B, len: N, label: B)
            [pin = Input(pin, len), label = Input(label, 32)] slots::init_token(slot, pin, label);
        ready C_InitPIN(session: N, pin: B, len: N) [pin = Input(pin, len)] slots::init_pin(session, pin);
        ready C_SetPIN(session: N, old: B, old_len: N, new: B, new_len: N)
            [old = Input(old, old_len), new = Input(new, new_len)] slots::set_pin(session, old, new);
        ready C_OpenSession(slot: N, flags: N, _about: V, _notify: V, to: Num) [to = Place(to)] sessions::open_session(slot, flags, to);
        ready C_CloseSession(session: N) [] sessions::close_session(session);
        ready C_CloseAllSessions(slot: N) [] sessions::close_all_sessions(slot);
        ready C_GetSessionInfo(session: N, info: *mut CK_SESSION_INFO) [info = Place(info)] sessions::get_session_info(session, info);
        ready C_GetOperationState(_session: N, _state: B, _len: Num) [] absent();
        ready C_SetOperationState(_session: N, _state: B, _len: N, _encryption: N, _authentication: N) [] absent();
        ready C_Login(session: N, user: N, pin: B, len: N) [pin = Input(pin, len)] sessions::login(session, user, pin);
        ready C_Logout(session: N) [] sessions::logout(session);
        ready C_CreateObject(session: N, of: A, count: N, to: Num)
            [template = Template(of, count), to = Place(to)] objects::create_object(session, template, to);
        ready C_CopyObject(session: N, object: N, of: A, count: N, to: Num)
            [template = Template(of, count), to = Place(to)] objects::copy_object(session, object, template, to);
        ready C_DestroyObject(session: N, object: N) [] objects::destroy_object(session, object);
        ready C_GetObjectSize(session: N, object: N, size: Num) [size = Place(size)] objects::get_object_size(session, object, size);
        ready C_GetAttributeValue(session: N, object: N, of: A, count: N)
            [template = Template(of, count)] objects::get_attribute_value(session, object, template);
        ready C_SetAttributeValue(session: N, object: N, of: A, count: N)
            [template = Template(of, count)] objects::set_attribute_value(session, object, template);
        ready C_FindObjectsInit(session: N, of: A, count: N) [template = Template(of, count)] objects::find_objects_init(session, template);
        ready C_FindObjects(session: N, to: Num, most: N, count: Num)
            [to = Numbers(to, most), count = Place(count)] objects::find_objects(session, to, count);
        ready C_FindObjectsFinal(session: N) [] objects::find_objects_final(session);
        ready C_EncryptInit(session: N, by: M, key: N) [mechanism = MechanismPointer(by)] encryption::encrypt_init(session, mechanism, key);
        ready C_Encrypt(session: N, data: B, len: N, to: B, to_len: Num)
            [data = Input(data, len), output = Output(to, to_len)] encryption::encrypt(session, data, output);
        ready C_EncryptUpdate(session: N, data: B, len: N, to: B, to_len: Num)
            [data = Input(data, len), output = Output(to, to_len)] encryption::encrypt_update(session, data, output);
        ready C_EncryptFinal(session: N, to: B, to_len: Num) [output = Output(to, to_len)] encryption::encrypt_final(session, output);
        ready C_DecryptInit(session: N, by: M, key: N) [mechanism = MechanismPointer(by)] decryption::decrypt_init(session, mechanism, key);
        ready C_Decrypt(session: N, data: B, len: N, to: B, to_len: Num)
            [data = Input(data, len), output = Output(to, to_len)] decryption::decrypt(session, data, output);
        ready C_DecryptUpdate(session: N, data: B, len: N, to: B, to_len: Num)
            [data = Input(data, len), output = Output(to, to_len)] decryption::decrypt_update(session, data, output);
        ready C_DecryptFinal(session: N, to: B, to_len: Num) [output = Output(to, to_len)] decryption::decrypt_final(session, output);
        ready C_DigestInit(_session: N, _by: M) [] absent();
        ready C_Digest(_session: N, _data: B, _len: N, _to: B, _to_len: Num) [] absent();
        ready C_DigestUpdate(_session: N, _data: B, _len: N) [] absent();
        ready C_DigestKey(_session: N, _key: N) [] absent();
        ready C_DigestFinal(_session: N, _to: B, _to_len: Num) [] absent();
        ready C_SignInit(session: N, by: M, key: N) [mechanism = MechanismPointer(by)] signing::sign_init(session, mechanism, key);
        ready C_Sign(session: N, data: B, len: N, to: B, to_len: Num)
            [data = Input(data, len), output = Output(to, to_len)] signing::sign(session, data, output);
        ready C_SignUpdate(session: N, data: B, len: N) [data = Input(data, len)] signing::sign_update(session, data);
        ready C_SignFinal(session: N, to: B, to_len: Num) [output = Output(to, to_len)] signing::sign_final(session, output);
        ready C_SignRecoverInit(_session: N, _by: M, _key: N) [] absent();
        ready C_SignRecover(_session: N, _data: B, _len: N, _to: B, _to_len: Num) [] absent();
        ready C_VerifyInit(session: N, by: M, key: N) [mechanism = MechanismPointer(by)] verifying::verify_init(session, mechanism, key);
        ready C_Verify(session: N, data: B, len: N, signature: B, signature_len: N)
            [data = Input(data, len), signature = Input(signature, signature_len)] verifying::verify(session, data, signature);
        ready C_VerifyUpdate(session: N, data: B, len: N) [data = Input(data, len)] verifying::verify_update(session, data);
        ready C_VerifyFinal(session: N, signature: B, len: N)
            [signature = Input(signature, len)] verifying::verify_final(session, signature);
        ready C_VerifyRecoverInit(_session: N, _by: M, _key: N) [] absent();
        ready C_VerifyRecover(_session: N, _signature: B, _len: N, _to: B, _to_len: Num) [] absent();
        ready C_DigestEncryptUpdate(_session: N, _data: B, _len: N, _to: B, _to_len: Num) [] absent();
        ready C_DecryptDigestUpdate(_session: N, _data: B, _len: N, _to: B, _to_len: Num) [] absent();
        ready C_SignEncryptUpdate(_session: N, _data: B, _len: N, _to: B, _to_len: Num) [] absent();
        ready C_DecryptVerifyUpdate(_session: N, _data: B, _len: N, _to: B, _to_len: Num) [] absent();
        ready C_GenerateKey(session: N, by: M, of: A, count: N, to: Num)
            [mechanism = MechanismPointer(by), template = Template(of, count), to = Place(to)]
            keys::generate_key(session, mechanism, template, to);
        ready C_GenerateKeyPair(_session: N, _by: M, _public: A, _public_count: N, _private: A, _private_count: N, _to: Num, _and: Num)
            [] absent();
        ready C_WrapKey(session: N, by: M, wrapping: N, key: N, to: B, to_len: Num)
            [mechanism = MechanismPointer(by), output = Output(to, to_len)] keys::wrap_key(session, mechanism, wrapping, key, output);
        ready C_UnwrapKey(session: N, by: M, unwrapping: N, wrapped: B, len: N, of: A, count: N, to: Num)
            [mechanism = MechanismPointer(by), wrapped = Input(wrapped, len), template = Template(of, count), to = Place(to)]
            keys::unwrap_key(session, mechanism, unwrapping, wrapped, template, to);
        ready C_DeriveKey(_session: N, _by: M, _base: N, _of: A, _count: N, _to: Num) [] absent();
        ready C_SeedRandom(_session: N, _seed: B, _len: N) [] random::seed_random();
        ready C_GenerateRandom(session: N, to: B, len: N) [to = Filled(to, len)] random::generate_random(session, to);
        ready C_GetFunctionStatus(_session: N) [] parallel::get_function_status();
        ready C_CancelFunction(_session: N) [] parallel::cancel_function();
        ready C_WaitForSlotEvent(flags: N, _slot: Num, _reserved: V) [] slots::wait_for_slot_event(flags);
    }
}

functions! {
    /// The functions that version 3.0 has beside those, in their order.
    Functions3 = FUNCTIONS_3 {
        #[unsafe(no_mangle)] any C_GetInterfaceList(list: *mut CK_INTERFACE, count: Num)
            [list = Listing(list, count)] list.put(&INTERFACES.0);
        #[unsafe(no_mangle)] any C_GetInterface(name: *const c_char, version: *const CK_VERSION, to: *mut *const CK_INTERFACE, flags: N)
            [to = Place(to), name = Name(name), version = Version(version)] to.put(interface(&name, &version, flags)?);
        ready C_LoginUser(session: N, user: N, pin: B, len: N, name: B, name_len: N)
            [pin = Input(pin, len), name = Input(name, name_len)] sessions::login_user(session, user, pin, name);
        ready C_SessionCancel(session: N, flags: N) [] sessions::session_cancel(session, flags);
        ready C_MessageEncryptInit(_session: N, _by: M, _key: N) [] absent();
        ready C_EncryptMessage(_session: N, _parameter: V, _parameter_len: N, _data: B, _data_len: N, _text: B, _text_len: N, _to: B, _to_len: Num)
            [] absent();
        ready C_EncryptMessageBegin(_session: N, _parameter: V, _parameter_len: N, _data: B, _data_len: N) [] absent();
        ready C_EncryptMessageNext(_session: N, _parameter: V, _parameter_len: N, _text: B, _text_len: N, _to: B, _to_len: Num, _flags: N)
            [] absent();
        ready C_MessageEncryptFinal(_session: N) [] absent();
        ready C_MessageDecryptInit(_session: N, _by: M, _key: N) [] absent();
        ready C_DecryptMessage(_session: N, _parameter: V, _parameter_len: N, _data: B, _data_len: N, _text: B, _text_len: N, _to: B, _to_len: Num)
            [] absent();
        ready C_DecryptMessageBegin(_session: N, _parameter: V, _parameter_len: N, _data: B, _data_len: N) [] absent();
        ready C_DecryptMessageNext(_session: N, _parameter: V, _parameter_len: N, _text: B, _text_len: N, _to: B, _to_len: Num, _flags: N)
            [] absent();
        ready C_MessageDecryptFinal(_session: N) [] absent();
        ready C_MessageSignInit(_session: N, _by: M, _key: N) [] absent();
        ready C_SignMessage(_session: N, _parameter: V, _parameter_len: N, _data: B, _data_len: N, _to: B, _to_len: Num) [] absent();
        ready C_SignMessageBegin(_session: N, _parameter: V, _parameter_len: N) [] absent();
        ready C_SignMessageNext(_session: N, _parameter: V, _parameter_len: N, _data: B, _data_len: N, _to: B, _to_len: Num) [] absent();
        ready C_MessageSignFinal(_session: N) [] absent();
        ready C_MessageVerifyInit(_session: N, _by: M, _key: N) [] absent();
        ready C_VerifyMessage(_session: N, _parameter: V, _parameter_len: N, _data: B, _data_len: N, _signature: B, _signature_len: N)
            [] absent();
        ready C_VerifyMessageBegin(_session: N, _parameter: V, _parameter_len: N) [] absent();
        ready C_VerifyMessageNext(_session: N, _parameter: V, _parameter_len: N, _data: B, _data_len: N, _signature: B, _signature_len: N)
            [] absent();
        ready C_MessageVerifyFinal(_session: N) [] absent();
    }
}

/// What the token leaves out.
fn absent() -> Answer {
    refused(CKR_FUNCTION_NOT_SUPPORTED)
}

/// # Safety
/// C_GetInfo of the interface of version 3.0: its pointer is as PKCS #11 has it, for the time of the call.
pub unsafe extern "C" fn C_GetInfo_3_0(info: *mut CK_INFO) -> CK_RV {
    answer("C_GetInfo", |call| {
        process::ready()?;
        // SAFETY: the caller promises it of its pointer for the time of the call, which the value doesn't outlive.
        let info = unsafe { Place::new(call, info) };
        general::get_info(info, V3_0)
    })
}

const V2_40: CK_VERSION = CK_VERSION { major: 2, minor: 40 };
const V3_0: CK_VERSION = CK_VERSION { major: 3, minor: 0 };

/// The list of version 2.40.
#[repr(C)]
pub struct CK_FUNCTION_LIST {
    pub version: CK_VERSION,
    pub functions: Functions,
}

/// The list of version 3.0: that of 2.40, and more behind it.
#[repr(C)]
pub struct CK_FUNCTION_LIST_3_0 {
    pub version: CK_VERSION,
    pub functions: Functions,
    pub more: Functions3,
}

// (68 and 24 functions behind a version, with nothing between them)
const _: () = assert!(size_of::<CK_FUNCTION_LIST>() == 69 * size_of::<usize>());
const _: () = assert!(size_of::<CK_FUNCTION_LIST_3_0>() == 93 * size_of::<usize>());

static LIST: CK_FUNCTION_LIST = CK_FUNCTION_LIST { version: V2_40, functions: FUNCTIONS };

static LIST_3_0: CK_FUNCTION_LIST_3_0 =
    CK_FUNCTION_LIST_3_0 { version: V3_0, functions: Functions { C_GetInfo: C_GetInfo_3_0, ..FUNCTIONS }, more: FUNCTIONS_3 };

/// The interfaces, that of the newest version first.
struct Interfaces([CK_INTERFACE; 2]);

// SAFETY: they point to statics alone, which nobody changes.
unsafe impl Sync for Interfaces {}

const NAME: &CStr = c"PKCS 11";

static INTERFACES: Interfaces = Interfaces([
    CK_INTERFACE { interface_name: NAME.as_ptr(), function_list: (&raw const LIST_3_0).cast(), flags: 0 },
    CK_INTERFACE { interface_name: NAME.as_ptr(), function_list: (&raw const LIST).cast(), flags: 0 },
]);

/// The first interface of a name and version that has all flags, or, without name or version, of any.
fn interface(name: &Name, version: &Version, flags: CK_ULONG) -> Answer<*const CK_INTERFACE> {
    let found = [V3_0, V2_40].iter().zip(&INTERFACES.0).find(|(of, _)| version.0.is_none_or(|it| it == **of));
    match found {
        Some((_, found)) if name.allows(NAME) && flags & !found.flags == 0 => Ok(&raw const *found),
        _ => refused(CKR_FUNCTION_FAILED),
    }
}
