//! The application's memory.
//!
//! PKCS #11 says of each pointer what it points to (section 5, with each function): a length or a count beside it holds, or the pointer
//! is null where that is allowed. Each type here is made of such pointers by an unsafe function, whose caller passes on that promise for
//! the time of the call. A value has the lifetime of that call, and while it lives the methods may be called freely. Nothing here keeps
//! a reference into that memory, since an application may pass the same memory for input and output; and nothing asks that it is
//! aligned, since some don't align it.

use crate::abi::codes::*;
use crate::abi::*;
use crate::error::{Answer, Error, Loss, refused};
use std::ffi::{CStr, c_char, c_void};
use std::marker::PhantomData;
use std::ptr::{copy_nonoverlapping, null};

/// A call of the application's: while it is borrowed, what the pointers point to is there.
pub struct Call(());

impl Call {
    /// Only `answer` makes one, for each call.
    pub(super) fn begin() -> Call {
        Call(())
    }
}

/// Pointers that are used for the time of a call alone.
type During<'a> = PhantomData<&'a Call>;

/// The daemon returned more than the application's memory has room for, though it knew how much that is.
const OVERFLOW: Error = Error::Lost(Loss::Nonsense);

/// Bytes that the application passes.
#[derive(Clone, Copy)]
pub struct Input<'a> {
    at: *const u8,
    len: CK_ULONG,
    during: During<'a>,
}

impl<'a> Input<'a> {
    /// # Safety
    /// `at` is null, or `len` bytes can be read there while the value is used.
    pub unsafe fn new(_: &'a Call, at: *const u8, len: CK_ULONG) -> Input<'a> {
        Input { at, len, during: PhantomData }
    }

    pub fn len(&self) -> u64 {
        self.len
    }

    pub fn is_null(&self) -> bool {
        self.at.is_null()
    }

    /// The first bytes, so many at the most.
    pub fn at_most(&self, len: u64) -> Input<'a> {
        Input { len: self.len.min(len), ..*self }
    }

    /// So many bytes from an offset on, as far as they are there.
    pub fn part(&self, offset: u64, len: u64) -> Input<'a> {
        let offset = offset.min(self.len);
        Input { at: self.at.wrapping_add(offset as usize), len: len.min(self.len - offset), ..*self }
    }

    /// Copies as many bytes as there is room for. There is nothing to copy at a null pointer.
    pub fn copy_to(&self, to: &mut [u8]) -> Answer {
        let len = usize::try_from(self.len).map_or(to.len(), |it| it.min(to.len()));
        if len == 0 {
            return Ok(());
        }
        if self.at.is_null() {
            return refused(CKR_ARGUMENTS_BAD);
        }
        // SAFETY: `len` bytes can be read by `new`'s promise, and `to` has room for them; it is memory of the module's own.
        unsafe { copy_nonoverlapping(self.at, to.as_mut_ptr(), len) };
        Ok(())
    }

    /// The number that stands there, if it has the size of one.
    pub fn number(&self) -> Option<u64> {
        let mut bytes = [0; size_of::<CK_ULONG>()];
        if self.len != bytes.len() as u64 || self.copy_to(&mut bytes).is_err() {
            return None;
        }
        Some(u64::from_ne_bytes(bytes))
    }

    /// Whether these bytes stand there, at most eight, and no others.
    pub fn is(&self, bytes: &[u8]) -> bool {
        let mut found = [0; 8];
        let Some(found) = found.get_mut(..bytes.len()) else { return false };
        self.len == bytes.len() as u64 && self.copy_to(found).is_ok() && found == bytes
    }
}

/// A buffer for bytes that the module returns, with the number that holds its length, and then that of what was returned (5.2).
#[derive(Clone, Copy)]
pub struct Output<'a> {
    to: *mut u8,
    len: *mut CK_ULONG,
    /// What stood at `len` when the call came.
    room: CK_ULONG,
    during: During<'a>,
}

impl<'a> Output<'a> {
    /// # Safety
    /// `len` is null, or a number can be read and written there; `to` is null, or as many bytes as that number says can be written
    /// there while the value is used.
    pub unsafe fn new(_: &'a Call, to: *mut u8, len: *mut CK_ULONG) -> Output<'a> {
        // SAFETY: by the promise above.
        let room = if len.is_null() { 0 } else { unsafe { len.read_unaligned() } };
        Output { to, len, room, during: PhantomData }
    }

    /// The length of the buffer, or none where the length alone is asked.
    pub fn buffer_len(&self) -> Answer<Option<u64>> {
        match self {
            it if it.len.is_null() => refused(CKR_ARGUMENTS_BAD),
            it if it.to.is_null() => Ok(None),
            it => Ok(Some(it.room)),
        }
    }

    /// Writes bytes from an offset on, where the buffer has room for them.
    pub fn put(&self, offset: u64, bytes: &[u8]) -> Answer {
        let room = self.buffer_len().ok().flatten().unwrap_or(0);
        if bytes.is_empty() {
            return Ok(());
        }
        if room.checked_sub(offset).is_none_or(|left| bytes.len() as u64 > left) {
            return Err(OVERFLOW);
        }
        // SAFETY: `room` bytes can be written by `new`'s promise, and these stand within them; `bytes` is memory of the module's own.
        unsafe { copy_nonoverlapping(bytes.as_ptr(), self.to.add(offset as usize), bytes.len()) };
        Ok(())
    }

    /// Says how long what was returned is, or would be.
    pub fn set_len(&self, len: u64) -> Answer {
        if self.len.is_null() {
            return refused(CKR_ARGUMENTS_BAD);
        }
        // SAFETY: a number can be written there by `new`'s promise.
        unsafe { self.len.write_unaligned(len) };
        Ok(())
    }
}

/// Where one value goes.
#[derive(Clone, Copy)]
pub struct Place<'a, T> {
    to: *mut T,
    during: During<'a>,
}

impl<'a, T: Copy> Place<'a, T> {
    /// # Safety
    /// `to` is null, or a value can be written there while this is used.
    pub unsafe fn new(_: &'a Call, to: *mut T) -> Place<'a, T> {
        Place { to, during: PhantomData }
    }

    /// Refuses a null pointer, before anything is done.
    pub fn check(&self) -> Answer {
        if self.to.is_null() { refused(CKR_ARGUMENTS_BAD) } else { Ok(()) }
    }

    pub fn put(&self, value: T) -> Answer {
        self.check()?;
        // SAFETY: a value can be written there by `new`'s promise.
        unsafe { self.to.write_unaligned(value) };
        Ok(())
    }
}

/// Where a list of values goes, with the number that holds how many it may have, and then how many there are (5.2).
#[derive(Clone, Copy)]
pub struct Listing<'a, T> {
    to: *mut T,
    count: *mut CK_ULONG,
    during: During<'a>,
}

impl<'a, T: Copy> Listing<'a, T> {
    /// # Safety
    /// `count` is null, or a number can be read and written there; `to` is null, or as many values as that number says can be written.
    pub unsafe fn new(_: &'a Call, to: *mut T, count: *mut CK_ULONG) -> Listing<'a, T> {
        Listing { to, count, during: PhantomData }
    }

    /// Refuses a null pointer for the count, before anything is done.
    pub fn check(&self) -> Answer {
        if self.count.is_null() { refused(CKR_ARGUMENTS_BAD) } else { Ok(()) }
    }

    /// Says how many values there are, and writes them where there is a list with room for all.
    pub fn put(&self, values: &[T]) -> Answer {
        self.check()?;
        // SAFETY: a number can be read and written there by `new`'s promise.
        let room = unsafe { self.count.read_unaligned() };
        // SAFETY: as above.
        unsafe { self.count.write_unaligned(values.len() as CK_ULONG) };
        if self.to.is_null() {
            return Ok(());
        }
        if room < values.len() as CK_ULONG {
            return refused(CKR_BUFFER_TOO_SMALL);
        }
        for (at, value) in values.iter().enumerate() {
            // SAFETY: `room` values can be written by `new`'s promise, and there are no more.
            unsafe { self.to.add(at).write_unaligned(*value) };
        }
        Ok(())
    }
}

/// Numbers that are returned a part at a time, to as many places as the application says.
#[derive(Clone, Copy)]
pub struct Numbers<'a> {
    to: *mut CK_ULONG,
    most: CK_ULONG,
    during: During<'a>,
}

impl<'a> Numbers<'a> {
    /// # Safety
    /// `to` is null, or `most` numbers can be written there while the value is used.
    pub unsafe fn new(_: &'a Call, to: *mut CK_ULONG, most: CK_ULONG) -> Numbers<'a> {
        Numbers { to, most, during: PhantomData }
    }

    /// How many numbers there is room for.
    pub fn room(&self) -> Answer<u64> {
        if self.to.is_null() && self.most != 0 { refused(CKR_ARGUMENTS_BAD) } else { Ok(self.most) }
    }

    /// Writes numbers from an index on.
    pub fn put(&self, from: u64, numbers: &[u64]) -> Answer {
        let room = self.room().unwrap_or(0);
        if room.checked_sub(from).is_none_or(|left| numbers.len() as u64 > left) {
            return Err(OVERFLOW);
        }
        for (at, number) in numbers.iter().enumerate() {
            // SAFETY: `most` numbers can be written by `new`'s promise, and these stand within them.
            unsafe { self.to.add(from as usize + at).write_unaligned(*number) };
        }
        Ok(())
    }
}

/// Bytes that are returned, as many as the application says.
#[derive(Clone, Copy)]
pub struct Filled<'a> {
    to: *mut u8,
    len: CK_ULONG,
    during: During<'a>,
}

impl<'a> Filled<'a> {
    /// # Safety
    /// `to` is null, or `len` bytes can be written there while the value is used.
    pub unsafe fn new(_: &'a Call, to: *mut u8, len: CK_ULONG) -> Filled<'a> {
        Filled { to, len, during: PhantomData }
    }

    pub fn len(&self) -> Answer<u64> {
        if self.to.is_null() && self.len != 0 { refused(CKR_ARGUMENTS_BAD) } else { Ok(self.len) }
    }

    /// Writes bytes from an offset on.
    pub fn put(&self, offset: u64, bytes: &[u8]) -> Answer {
        let room = self.len().unwrap_or(0);
        if room.checked_sub(offset).is_none_or(|left| bytes.len() as u64 > left) {
            return Err(OVERFLOW);
        }
        if !bytes.is_empty() {
            // SAFETY: `len` bytes can be written by `new`'s promise, and these stand within them.
            unsafe { copy_nonoverlapping(bytes.as_ptr(), self.to.add(offset as usize), bytes.len()) };
        }
        Ok(())
    }
}

/// A template, or a query of attributes.
#[derive(Clone, Copy)]
pub struct Template<'a> {
    at: *mut CK_ATTRIBUTE,
    count: CK_ULONG,
    during: During<'a>,
}

impl<'a> Template<'a> {
    /// # Safety
    /// `at` is null, or `count` attributes can be read and written there. The value of each is null, or as many bytes as it says can be
    /// read there, and, in a query, written.
    pub unsafe fn new(_: &'a Call, at: *mut CK_ATTRIBUTE, count: CK_ULONG) -> Template<'a> {
        Template { at, count, during: PhantomData }
    }

    /// How many attributes there are. More than any memory holds are refused.
    pub fn count(&self) -> Answer<usize> {
        let most = isize::MAX as u64 / size_of::<CK_ATTRIBUTE>() as u64;
        if self.count > most || self.at.is_null() && self.count != 0 {
            return refused(CKR_ARGUMENTS_BAD);
        }
        Ok(self.count as usize)
    }

    fn place(&self, at: usize) -> *mut CK_ATTRIBUTE {
        assert!((at as u64) < self.count && !self.at.is_null());
        self.at.wrapping_add(at)
    }

    /// The attribute at an index below the count.
    pub fn entry(&self, at: usize) -> CK_ATTRIBUTE {
        // SAFETY: it stands within the attributes, which can be read by `new`'s promise.
        unsafe { self.place(at).read_unaligned() }
    }

    /// The value of an attribute of this template. Of a list of attributes no bytes are taken: it has pointers of this process. A list of
    /// mechanisms has none.
    pub fn value(&self, entry: &CK_ATTRIBUTE) -> Input<'a> {
        let is_array = entry.attribute_type & numbers::CKF_ARRAY_ATTRIBUTE != 0;
        let is_list = is_array && entry.attribute_type != numbers::CKA_ALLOWED_MECHANISMS;
        Input { at: entry.value.cast(), len: if is_list { 0 } else { entry.value_len }, during: self.during }
    }

    /// Says how long the value of the attribute at an index is.
    pub fn set_len(&self, at: usize, len: u64) {
        let mut entry = self.entry(at);
        entry.value_len = len;
        // SAFETY: as in `entry`; a query's attributes can be written.
        unsafe { self.place(at).write_unaligned(entry) };
    }

    /// Writes the value of an attribute that was read before anything was written to it.
    pub fn put(&self, entry: &CK_ATTRIBUTE, bytes: &[u8]) -> Answer {
        if entry.value.is_null() || bytes.len() as u64 > entry.value_len {
            return Err(OVERFLOW);
        }
        // SAFETY: so many bytes can be written there by `new`'s promise.
        unsafe { copy_nonoverlapping(bytes.as_ptr(), entry.value.cast(), bytes.len()) };
        Ok(())
    }
}

/// A mechanism, or none.
#[derive(Clone, Copy)]
pub struct MechanismPointer<'a> {
    at: *const CK_MECHANISM,
    during: During<'a>,
}

impl<'a> MechanismPointer<'a> {
    /// # Safety
    /// `at` is null, or a mechanism can be read there, whose parameter is null or has as many bytes as it says.
    pub unsafe fn new(_: &'a Call, at: *const CK_MECHANISM) -> MechanismPointer<'a> {
        MechanismPointer { at, during: PhantomData }
    }

    /// No mechanism, as one passes it to end an operation.
    pub fn none() -> MechanismPointer<'a> {
        MechanismPointer { at: null(), during: PhantomData }
    }

    pub fn is_null(&self) -> bool {
        self.at.is_null()
    }

    pub fn read(&self) -> Option<CK_MECHANISM> {
        // SAFETY: a mechanism can be read there by `new`'s promise.
        if self.at.is_null() { None } else { Some(unsafe { self.at.read_unaligned() }) }
    }

    /// The parameter of a mechanism that was read here, as bytes.
    pub fn parameter(&self, found: &CK_MECHANISM) -> Input<'a> {
        Input { at: found.parameter.cast(), len: found.parameter_len, during: self.during }
    }

    /// The parameter of a mechanism that was read here, as that of a counter mode, if it has that size.
    pub fn counter(&self, found: &CK_MECHANISM) -> Option<CK_AES_CTR_PARAMS> {
        let is_one = found.parameter_len == size_of::<CK_AES_CTR_PARAMS>() as u64 && !found.parameter.is_null();
        // SAFETY: so many bytes can be read there by `new`'s promise.
        is_one.then(|| unsafe { found.parameter.cast::<CK_AES_CTR_PARAMS>().read_unaligned() })
    }
}

/// The argument of C_Initialize.
pub struct InitializeArgs {
    args: Option<CK_C_INITIALIZE_ARGS>,
}

impl InitializeArgs {
    /// # Safety
    /// `at` is null, or the arguments can be read there.
    pub unsafe fn new(_: &Call, at: *const c_void) -> InitializeArgs {
        // SAFETY: by the promise above.
        let args = if at.is_null() { None } else { Some(unsafe { at.cast::<CK_C_INITIALIZE_ARGS>().read_unaligned() }) };
        InitializeArgs { args }
    }

    /// Whether the pointer is null that the standard reserves.
    pub fn is_reserved_null(&self) -> bool {
        self.args.as_ref().is_none_or(|it| it.reserved.is_null())
    }

    /// How many of the four functions for mutexes are given, and the flags.
    pub fn locking(&self) -> (usize, CK_ULONG) {
        match &self.args {
            None => (0, 0),
            Some(it) => {
                let functions = [it.create_mutex, it.destroy_mutex, it.lock_mutex, it.unlock_mutex];
                (functions.iter().filter(|it| !it.is_null()).count(), it.flags)
            }
        }
    }
}

/// The name that C_GetInterface is asked for.
pub struct Name<'a> {
    at: *const c_char,
    during: During<'a>,
}

impl<'a> Name<'a> {
    /// # Safety
    /// `at` is null, or a text that ends with a zero stands there.
    pub unsafe fn new(_: &'a Call, at: *const c_char) -> Name<'a> {
        Name { at, during: PhantomData }
    }

    /// Whether it is this one, or none.
    pub fn allows(&self, name: &CStr) -> bool {
        // SAFETY: a text stands there by `new`'s promise.
        self.at.is_null() || unsafe { CStr::from_ptr(self.at) } == name
    }
}

/// The version that C_GetInterface is asked for, or none.
pub struct Version(pub Option<CK_VERSION>);

impl Version {
    /// # Safety
    /// `at` is null, or a version can be read there.
    pub unsafe fn new(_: &Call, at: *const CK_VERSION) -> Version {
        // SAFETY: by the promise above.
        Version(if at.is_null() { None } else { Some(unsafe { at.read_unaligned() }) })
    }
}
