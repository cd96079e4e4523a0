//! The module as an application loads it, and its calls in Rust's manner.

use super::Folder;
use std::ffi::{CString, OsStr, c_char, c_int, c_void};
use std::os::unix::ffi::OsStrExt;
use std::path::{Path, PathBuf};
use std::ptr::{null, null_mut};
use std::sync::Mutex;
use tokend_pkcs11::abi::codes::*;
use tokend_pkcs11::abi::*;
use tokend_pkcs11::{CK_FUNCTION_LIST, Functions};

unsafe extern "C" {
    fn dlopen(file: *const c_char, flags: c_int) -> *mut c_void;
    fn dlsym(library: *mut c_void, name: *const c_char) -> *mut c_void;
}

const RTLD_NOW: c_int = 2;

pub const RW: u64 = 6;
pub const RO: u64 = 4;

/// The library that cargo built beside the tests, or that `TOKEND_MODULE` names.
pub fn library() -> PathBuf {
    if let Some(path) = std::env::var_os("TOKEND_MODULE") {
        return path.into();
    }
    let tests = std::env::current_exe().expect("the test's program");
    tests.with_file_name("libtokend_pkcs11.so")
}

/// A module that is loaded. One of another file has a state of its own, as in another process.
#[derive(Clone, Copy)]
pub struct Module {
    library: usize,
    pub c: &'static Functions,
}

/// The environment is one for all threads of the tests.
static ENVIRONMENT: Mutex<()> = Mutex::new(());

impl Module {
    /// Loads a copy of the library, which is no other test's.
    pub fn load(folder: &Folder, name: &str) -> Module {
        let file = folder.file(name);
        std::fs::copy(library(), &file).expect("the library was built");
        let file = CString::new(file.as_os_str().as_bytes()).expect("a path");
        // SAFETY: loading it runs nothing of it but what the system runs of each Rust library.
        let library = unsafe { dlopen(file.as_ptr(), RTLD_NOW) };
        assert!(!library.is_null(), "the library can't be loaded");
        Module { library: library as usize, c: list_of(library) }
    }

    /// A function that the library has as a symbol.
    pub fn symbol(&self, name: &str) -> *mut c_void {
        let name = CString::new(name).expect("a name");
        // SAFETY: the library stays loaded.
        unsafe { dlsym(self.library as *mut c_void, name.as_ptr()) }
    }

    /// C_Initialize, for the socket of a folder, with its settings, if there are any.
    pub fn initialize(&self, folder: &Folder) -> CK_RV {
        self.initialize_at(folder.file("socket"), &folder.file("pkcs11.conf"))
    }

    pub fn initialize_at(&self, socket: impl AsRef<OsStr>, settings: &Path) -> CK_RV {
        let _alone = ENVIRONMENT.lock().unwrap_or_else(|it| it.into_inner());
        // SAFETY: no other thread reads or changes the environment meanwhile but by std, which has a lock for that, or under this one.
        unsafe {
            std::env::set_var("TOKEND_SOCKET", socket.as_ref());
            std::env::set_var("TOKEND_PKCS11_CONF", settings);
            (self.c.C_Initialize)(null_mut())
        }
    }

    pub fn finalize(&self) -> CK_RV {
        unsafe { (self.c.C_Finalize)(null_mut()) }
    }

    pub fn open(&self, flags: u64) -> Result<u64, CK_RV> {
        self.open_at(0, flags)
    }

    pub fn open_at(&self, slot: u64, flags: u64) -> Result<u64, CK_RV> {
        let mut session = 0;
        told(unsafe { (self.c.C_OpenSession)(slot, flags, null_mut(), null_mut(), &mut session) })?;
        Ok(session)
    }

    /// C_GetSlotList: all slots, or those with a token.
    pub fn slots(&self, with_token: bool) -> Result<Vec<u64>, CK_RV> {
        let (mut slots, mut count) = (vec![0; 32], 32);
        told(unsafe { (self.c.C_GetSlotList)(u8::from(with_token), slots.as_mut_ptr(), &mut count) })?;
        slots.truncate(count as usize);
        Ok(slots)
    }

    /// C_GetSlotInfo: the description without the blanks behind it, and whether a token is there.
    pub fn slot(&self, slot: u64) -> Result<(String, bool), CK_RV> {
        let mut info: CK_SLOT_INFO = unsafe { std::mem::zeroed() };
        told(unsafe { (self.c.C_GetSlotInfo)(slot, &mut info) })?;
        let text = String::from_utf8(info.slot_description.to_vec()).expect("UTF-8");
        Ok((text.trim_end().to_owned(), info.flags & 1 == 1))
    }

    pub fn token(&self, slot: u64) -> Result<CK_TOKEN_INFO, CK_RV> {
        let mut info: CK_TOKEN_INFO = unsafe { std::mem::zeroed() };
        told(unsafe { (self.c.C_GetTokenInfo)(slot, &mut info) })?;
        Ok(info)
    }

    pub fn close(&self, session: u64) -> CK_RV {
        unsafe { (self.c.C_CloseSession)(session) }
    }

    pub fn session_info(&self, session: u64) -> Result<CK_SESSION_INFO, CK_RV> {
        let mut info = CK_SESSION_INFO { slot_id: 9, state: 9, flags: 9, device_error: 9 };
        told(unsafe { (self.c.C_GetSessionInfo)(session, &mut info) })?;
        Ok(info)
    }

    pub fn init_token(&self, pin: &str, label: &str) -> CK_RV {
        self.init_token_at(0, pin, label)
    }

    pub fn init_token_at(&self, slot: u64, pin: &str, label: &str) -> CK_RV {
        let mut padded = [b' '; 32];
        padded[..label.len()].copy_from_slice(label.as_bytes());
        unsafe { (self.c.C_InitToken)(slot, pin.as_ptr().cast_mut(), pin.len() as u64, padded.as_mut_ptr()) }
    }

    pub fn login(&self, session: u64, user: u64, pin: &str) -> CK_RV {
        unsafe { (self.c.C_Login)(session, user, pin.as_ptr().cast_mut(), pin.len() as u64) }
    }

    pub fn init_pin(&self, session: u64, pin: &str) -> CK_RV {
        unsafe { (self.c.C_InitPIN)(session, pin.as_ptr().cast_mut(), pin.len() as u64) }
    }

    pub fn create(&self, session: u64, template: &[(u64, &[u8])]) -> Result<u64, CK_RV> {
        let mut entries = attributes(template);
        let mut object = 0;
        told(unsafe { (self.c.C_CreateObject)(session, entries.as_mut_ptr(), entries.len() as u64, &mut object) })?;
        Ok(object)
    }

    pub fn copy(&self, session: u64, object: u64, template: &[(u64, &[u8])]) -> Result<u64, CK_RV> {
        let mut entries = attributes(template);
        let mut copy = 0;
        told(unsafe { (self.c.C_CopyObject)(session, object, entries.as_mut_ptr(), entries.len() as u64, &mut copy) })?;
        Ok(copy)
    }

    pub fn destroy(&self, session: u64, object: u64) -> CK_RV {
        unsafe { (self.c.C_DestroyObject)(session, object) }
    }

    pub fn set(&self, session: u64, object: u64, template: &[(u64, &[u8])]) -> CK_RV {
        let mut entries = attributes(template);
        unsafe { (self.c.C_SetAttributeValue)(session, object, entries.as_mut_ptr(), entries.len() as u64) }
    }

    /// The value of one attribute, at most 2,000 bytes.
    pub fn value(&self, session: u64, object: u64, kind: u64) -> Result<Vec<u8>, CK_RV> {
        let mut value = vec![0xEE; 2_000];
        let mut entry = CK_ATTRIBUTE { attribute_type: kind, value: value.as_mut_ptr().cast(), value_len: value.len() as u64 };
        told(unsafe { (self.c.C_GetAttributeValue)(session, object, &mut entry, 1) })?;
        value.truncate(entry.value_len as usize);
        Ok(value)
    }

    /// All that a search finds, asked for so many at a time.
    pub fn find(&self, session: u64, template: &[(u64, &[u8])], at_once: usize) -> Result<Vec<u64>, CK_RV> {
        let mut entries = attributes(template);
        told(unsafe { (self.c.C_FindObjectsInit)(session, entries.as_mut_ptr(), entries.len() as u64) })?;
        let mut found = Vec::new();
        loop {
            let mut handles = vec![0; at_once];
            let mut count = 0;
            told(unsafe { (self.c.C_FindObjects)(session, handles.as_mut_ptr(), at_once as u64, &mut count) })?;
            found.extend_from_slice(&handles[..count as usize]);
            if (count as usize) < at_once {
                break;
            }
        }
        told(unsafe { (self.c.C_FindObjectsFinal)(session) })?;
        Ok(found)
    }

    /// An Init call.
    pub fn begin(&self, how: Init, session: u64, mechanism: u64, parameter: &[u8], key: u64) -> CK_RV {
        let mut by = CK_MECHANISM { mechanism, parameter: parameter.as_ptr().cast(), parameter_len: parameter.len() as u64 };
        let function = match how {
            Init::Encrypt => self.c.C_EncryptInit,
            Init::Decrypt => self.c.C_DecryptInit,
            Init::Sign => self.c.C_SignInit,
            Init::Verify => self.c.C_VerifyInit,
        };
        unsafe { function(session, &mut by, key) }
    }

    pub fn encrypt(&self, session: u64, data: &[u8]) -> Result<Vec<u8>, CK_RV> {
        returned(data, |at, len, to, to_len| unsafe { (self.c.C_Encrypt)(session, at, len, to, to_len) })
    }

    pub fn decrypt(&self, session: u64, data: &[u8]) -> Result<Vec<u8>, CK_RV> {
        returned(data, |at, len, to, to_len| unsafe { (self.c.C_Decrypt)(session, at, len, to, to_len) })
    }

    pub fn encrypt_update(&self, session: u64, data: &[u8]) -> Result<Vec<u8>, CK_RV> {
        returned(data, |at, len, to, to_len| unsafe { (self.c.C_EncryptUpdate)(session, at, len, to, to_len) })
    }

    pub fn encrypt_final(&self, session: u64) -> Result<Vec<u8>, CK_RV> {
        returned(&[], |_, _, to, to_len| unsafe { (self.c.C_EncryptFinal)(session, to, to_len) })
    }

    pub fn decrypt_update(&self, session: u64, data: &[u8]) -> Result<Vec<u8>, CK_RV> {
        returned(data, |at, len, to, to_len| unsafe { (self.c.C_DecryptUpdate)(session, at, len, to, to_len) })
    }

    pub fn decrypt_final(&self, session: u64) -> Result<Vec<u8>, CK_RV> {
        returned(&[], |_, _, to, to_len| unsafe { (self.c.C_DecryptFinal)(session, to, to_len) })
    }

    pub fn sign(&self, session: u64, data: &[u8]) -> Result<Vec<u8>, CK_RV> {
        returned(data, |at, len, to, to_len| unsafe { (self.c.C_Sign)(session, at, len, to, to_len) })
    }

    pub fn sign_update(&self, session: u64, data: &[u8]) -> CK_RV {
        unsafe { (self.c.C_SignUpdate)(session, data.as_ptr().cast_mut(), data.len() as u64) }
    }

    pub fn sign_final(&self, session: u64) -> Result<Vec<u8>, CK_RV> {
        returned(&[], |_, _, to, to_len| unsafe { (self.c.C_SignFinal)(session, to, to_len) })
    }

    pub fn verify(&self, session: u64, data: &[u8], signature: &[u8]) -> CK_RV {
        let (at, len) = (data.as_ptr().cast_mut(), data.len() as u64);
        unsafe { (self.c.C_Verify)(session, at, len, signature.as_ptr().cast_mut(), signature.len() as u64) }
    }

    pub fn verify_update(&self, session: u64, data: &[u8]) -> CK_RV {
        unsafe { (self.c.C_VerifyUpdate)(session, data.as_ptr().cast_mut(), data.len() as u64) }
    }

    pub fn verify_final(&self, session: u64, signature: &[u8]) -> CK_RV {
        unsafe { (self.c.C_VerifyFinal)(session, signature.as_ptr().cast_mut(), signature.len() as u64) }
    }

    pub fn generate_key(&self, session: u64, mechanism: u64, template: &[(u64, &[u8])]) -> Result<u64, CK_RV> {
        let mut by = CK_MECHANISM { mechanism, parameter: null(), parameter_len: 0 };
        let mut entries = attributes(template);
        let mut key = 0;
        told(unsafe { (self.c.C_GenerateKey)(session, &mut by, entries.as_mut_ptr(), entries.len() as u64, &mut key) })?;
        Ok(key)
    }

    pub fn wrap(&self, session: u64, wrapping: u64, key: u64) -> Result<Vec<u8>, CK_RV> {
        let by = CK_MECHANISM { mechanism: 0x2109, parameter: null(), parameter_len: 0 };
        let at = (&raw const by).cast_mut();
        returned(&[], |_, _, to, to_len| unsafe { (self.c.C_WrapKey)(session, at, wrapping, key, to, to_len) })
    }

    pub fn unwrap(&self, session: u64, unwrapping: u64, wrapped: &[u8], template: &[(u64, &[u8])]) -> Result<u64, CK_RV> {
        let mut by = CK_MECHANISM { mechanism: 0x2109, parameter: null(), parameter_len: 0 };
        let mut entries = attributes(template);
        let (at, len) = (wrapped.as_ptr().cast_mut(), wrapped.len() as u64);
        let mut key = 0;
        told(unsafe { (self.c.C_UnwrapKey)(session, &mut by, unwrapping, at, len, entries.as_mut_ptr(), entries.len() as u64, &mut key) })?;
        Ok(key)
    }

    pub fn random(&self, session: u64, len: usize) -> Result<Vec<u8>, CK_RV> {
        let mut bytes = vec![0; len];
        told(unsafe { (self.c.C_GenerateRandom)(session, bytes.as_mut_ptr(), len as u64) })?;
        Ok(bytes)
    }
}

#[derive(Clone, Copy)]
pub enum Init {
    Encrypt,
    Decrypt,
    Sign,
    Verify,
}

/// An error, unless the code is CKR_OK.
pub fn told(code: CK_RV) -> Result<(), CK_RV> {
    if code == CKR_OK { Ok(()) } else { Err(code) }
}

fn list_of(library: *mut c_void) -> &'static Functions {
    // SAFETY: a library of PKCS #11 has this function, which returns a list that lives as long as the library.
    unsafe {
        let at = dlsym(library, c"C_GetFunctionList".as_ptr());
        assert!(!at.is_null());
        let function: unsafe extern "C" fn(*mut *const CK_FUNCTION_LIST) -> CK_RV = std::mem::transmute(at);
        let mut list = null();
        assert_eq!(function(&mut list), CKR_OK);
        assert_eq!((*list).version, CK_VERSION { major: 2, minor: 40 });
        &(*list).functions
    }
}

/// Attributes over values that live as long as these are used.
pub fn attributes(template: &[(u64, &[u8])]) -> Vec<CK_ATTRIBUTE> {
    let attribute = |(kind, value): &(u64, &[u8])| CK_ATTRIBUTE {
        attribute_type: *kind,
        value: value.as_ptr().cast_mut().cast(),
        value_len: value.len() as u64,
    };
    template.iter().map(attribute).collect()
}

/// How far beyond a buffer is looked whether something was written.
const MARGIN: usize = 64;

/// Asks for the length of what a call returns, which is one that a shorter buffer is refused for, and then for the bytes.
fn returned(data: &[u8], call: impl Fn(*mut u8, u64, *mut u8, *mut u64) -> CK_RV) -> Result<Vec<u8>, CK_RV> {
    let (at, len) = (data.as_ptr().cast_mut(), data.len() as u64);
    let mut wanted = 0;
    told(call(at, len, null_mut(), &mut wanted))?;
    let mut bytes = vec![0xAA; wanted as usize + MARGIN];
    if wanted > 0 {
        let mut short = wanted - 1;
        assert_eq!(call(at, len, bytes.as_mut_ptr(), &mut short), CKR_BUFFER_TOO_SMALL);
        assert_eq!(short, wanted);
        assert!(bytes.iter().all(|it| *it == 0xAA), "a refused buffer was written to");
    }
    let mut found = wanted;
    told(call(at, len, bytes.as_mut_ptr(), &mut found))?;
    assert!(bytes[wanted as usize..].iter().all(|it| *it == 0xAA), "bytes behind the buffer were written");
    bytes.truncate(found as usize);
    Ok(bytes)
}
