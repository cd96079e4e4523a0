//! Requests as they are written, and replies as they are read (`docs/CLIENTS.md` names the page of the protocol).
//!
//! A frame is the length of its payload in 32 bits, highest byte first, and the payload. A request's payload is the function's number
//! in 16 bits and its fields; a reply's is the return value in 64 bits and its fields.

use crate::abi::numbers::{CKM_AES_CTR, is_number};
use crate::abi::{CK_RV, codes::*};
use crate::buffer::Buffer;
use crate::edge::memory::{Input, MechanismPointer, Output, Template};
use crate::error::{Answer, Error, Loss, refused};
use crate::handles::{Handles, SlotHandles};

/// The most bytes of a payload.
pub const MAX_PAYLOAD: usize = 1_048_576;

/// A frame begins with the length of its payload.
pub const HEADER: usize = 4;

/// The most entries of a template, and of a query of attributes.
pub const MAX_ENTRIES: usize = 32;

/// The numbers of the functions (`docs/PROTOCOL.md`).
#[derive(Clone, Copy, Debug, PartialEq, Eq)]
#[repr(u16)]
pub enum Function {
    GetTokenInfo = 1,
    GetMechanismList = 2,
    GetMechanismInfo = 3,
    InitToken = 4,
    InitPin = 5,
    SetPin = 6,
    OpenSession = 7,
    CloseSession = 8,
    CloseAllSessions = 9,
    GetSessionInfo = 10,
    Login = 11,
    Logout = 12,
    CreateObject = 13,
    CopyObject = 14,
    DestroyObject = 15,
    GetObjectSize = 16,
    GetAttributeValue = 17,
    SetAttributeValue = 18,
    FindObjectsInit = 19,
    FindObjects = 20,
    FindObjectsFinal = 21,
    EncryptInit = 22,
    Encrypt = 23,
    EncryptUpdate = 24,
    EncryptFinal = 25,
    DecryptInit = 26,
    Decrypt = 27,
    DecryptUpdate = 28,
    DecryptFinal = 29,
    SignInit = 30,
    Sign = 31,
    SignUpdate = 32,
    SignFinal = 33,
    VerifyInit = 34,
    Verify = 35,
    VerifyUpdate = 36,
    VerifyFinal = 37,
    GenerateKey = 38,
    WrapKey = 39,
    UnwrapKey = 40,
    GenerateRandom = 41,
}

/// A request that is written. What can't be written is remembered, and refuses the whole.
pub struct Request<'a> {
    bytes: &'a mut Buffer,
    objects: Handles,
    fault: Option<Error>,
}

impl<'a> Request<'a> {
    /// A request for a function, over whatever the buffer had.
    pub fn new(bytes: &'a mut Buffer, function: Function, handles: SlotHandles) -> Request<'a> {
        bytes.clear();
        bytes.append(&[0; HEADER]);
        bytes.append(&(function as u16).to_be_bytes());
        Request { bytes, objects: handles.objects, fault: None }
    }

    fn fail(mut self, fault: impl Into<Error>) -> Self {
        self.fault.get_or_insert(fault.into());
        self
    }

    pub fn tag(self, tag: bool) -> Self {
        self.bytes.append(&[u8::from(tag)]);
        self
    }

    fn count(self, count: usize) -> Self {
        match u32::try_from(count) {
            Ok(count) => {
                self.bytes.append(&count.to_be_bytes());
                self
            }
            Err(_) => self.fail(CKR_ARGUMENTS_BAD),
        }
    }

    pub fn number(self, number: u64) -> Self {
        self.bytes.append(&number.to_be_bytes());
        self
    }

    /// The handle of an object, as the daemon has it.
    pub fn object(self, handle: u64) -> Self {
        let inner = self.objects.inner(handle);
        self.number(inner)
    }

    /// Bytes of the module's own.
    pub fn bytes(self, bytes: &[u8]) -> Self {
        let it = self.count(bytes.len());
        it.bytes.append(bytes);
        it
    }

    /// Bytes of the application's, refused with a code where a frame has no room for them.
    pub fn input(self, input: &Input, too_long: CK_RV) -> Self {
        let left = (HEADER + MAX_PAYLOAD).saturating_sub(self.bytes.len() + 4);
        match usize::try_from(input.len()) {
            Ok(len) if len <= left => {
                let it = self.count(len);
                match input.copy_to(it.bytes.append_zeros(len)) {
                    Ok(()) => it,
                    Err(fault) => it.fail(fault),
                }
            }
            _ => self.fail(too_long),
        }
    }

    /// A PIN, which has no other way to the token: the pointer may not be null.
    pub fn pin(self, pin: &Input) -> Self {
        if pin.is_null() { self.fail(CKR_ARGUMENTS_BAD) } else { self.input(pin, CKR_PIN_LEN_RANGE) }
    }

    /// The length of the application's buffer, or that there is none.
    pub fn buffer_len(self, len: Option<u64>) -> Self {
        match len {
            None => self.tag(false),
            Some(len) => self.tag(true).number(len),
        }
    }

    /// The buffer of an output, of which so many bytes are used already.
    pub fn output(self, output: &Output, used: u64) -> Self {
        match output.buffer_len() {
            Ok(len) => self.buffer_len(len.map(|it| it.saturating_sub(used))),
            Err(fault) => self.fail(fault),
        }
    }

    pub fn mechanism(self, pointer: &MechanismPointer) -> Self {
        let Some(found) = pointer.read() else {
            return self.fail(CKR_ARGUMENTS_BAD);
        };
        let it = self.number(found.mechanism);
        match pointer.counter(&found) {
            Some(counter) if found.mechanism == CKM_AES_CTR => {
                let mut parameter = [0; 24];
                parameter[..8].copy_from_slice(&counter.counter_bits.to_be_bytes());
                parameter[8..].copy_from_slice(&counter.counter_block);
                it.bytes(&parameter)
            }
            _ => it.input(&pointer.parameter(&found), CKR_MECHANISM_PARAM_INVALID),
        }
    }

    /// A mechanism, or none, which ends an operation.
    pub fn mechanism_or_none(self, pointer: &MechanismPointer) -> Self {
        if pointer.is_null() { self.tag(false) } else { self.tag(true).mechanism(pointer) }
    }

    /// A template. The entries that are passed over don't go into it.
    pub fn template(self, template: &Template, is_passed_over: impl Fn(u64, &Input) -> bool) -> Self {
        let count = match template.count() {
            Ok(count) => count,
            Err(fault) => return self.fail(fault),
        };
        let place = self.bytes.len();
        let (mut it, mut written) = (self.count(0), 0_usize);
        for at in 0..count {
            let entry = template.entry(at);
            let value = template.value(&entry);
            if is_passed_over(entry.attribute_type, &value) {
                continue;
            }
            written += 1;
            if written > MAX_ENTRIES {
                return it.fail(CKR_TEMPLATE_INCONSISTENT);
            }
            it = it.number(entry.attribute_type);
            it = match value.number().filter(|_| is_number(entry.attribute_type)) {
                Some(number) => it.bytes(&number.to_be_bytes()),
                None => it.input(&value, CKR_ATTRIBUTE_VALUE_INVALID),
            };
        }
        it.set_count(place, written)
    }

    /// Writes a count again that stands at a place.
    fn set_count(self, place: usize, count: usize) -> Self {
        match u32::try_from(count) {
            Ok(count) => {
                self.bytes.bytes_mut()[place..place + 4].copy_from_slice(&count.to_be_bytes());
                self
            }
            Err(_) => self.fail(CKR_ARGUMENTS_BAD),
        }
    }

    /// An entry of a template that the module adds, whose value is a number, behind those that stand there.
    pub fn and_number(self, template_at: usize, attribute_type: u64, value: u64) -> Self {
        let counted = self.bytes.bytes().get(template_at..).and_then(|it| it.first_chunk());
        let Some(count) = counted.map(|it| u32::from_be_bytes(*it) as usize) else {
            return self.fail(CKR_GENERAL_ERROR);
        };
        if count >= MAX_ENTRIES {
            return self.fail(CKR_TEMPLATE_INCONSISTENT);
        }
        let it = self.number(attribute_type).bytes(&value.to_be_bytes());
        it.set_count(template_at, count + 1)
    }

    /// Where the next field will stand.
    pub fn place(&self) -> usize {
        self.bytes.len()
    }

    /// A query of attributes: each type with the length of its buffer.
    pub fn query(self, entries: &[(u64, Option<u64>)]) -> Self {
        let it = self.count(entries.len());
        entries.iter().fold(it, |it, (kind, len)| it.number(*kind).buffer_len(*len))
    }

    /// The frame is whole: its length is written.
    pub fn finish(self) -> Answer {
        if let Some(fault) = self.fault {
            return Err(fault);
        }
        let len = self.bytes.len() - HEADER;
        match u32::try_from(len) {
            Ok(header) if len <= MAX_PAYLOAD => {
                self.bytes.bytes_mut()[..HEADER].copy_from_slice(&header.to_be_bytes());
                Ok(())
            }
            _ => refused(CKR_DATA_LEN_RANGE),
        }
    }
}

const NONSENSE: Error = Error::Lost(Loss::Nonsense);

/// A reply: its code, and the fields that are left to read.
///
/// Where it has less than what is read of it, what came is no reply.
pub struct Reply<'a> {
    code: CK_RV,
    fields: &'a [u8],
    handles: SlotHandles,
}

impl<'a> Reply<'a> {
    pub fn new(payload: &'a [u8], handles: SlotHandles) -> Answer<Reply<'a>> {
        let mut reply = Reply { code: CKR_OK, fields: payload, handles };
        reply.code = CK_RV(reply.number()?);
        Ok(reply)
    }

    pub fn code(&self) -> CK_RV {
        self.code
    }

    /// The code as an error, unless it is CKR_OK.
    pub fn ok(&self) -> Answer<()> {
        if self.code == CKR_OK { Ok(()) } else { Err(Error::Token(self.code)) }
    }

    fn array<const N: usize>(&mut self) -> Answer<[u8; N]> {
        let (front, rest) = self.fields.split_first_chunk().ok_or(NONSENSE)?;
        self.fields = rest;
        Ok(*front)
    }

    pub fn tag(&mut self) -> Answer<bool> {
        match self.array::<1>()? {
            [0] => Ok(false),
            [1] => Ok(true),
            _ => Err(NONSENSE),
        }
    }

    pub fn count(&mut self) -> Answer<usize> {
        Ok(u32::from_be_bytes(self.array()?) as usize)
    }

    pub fn number(&mut self) -> Answer<u64> {
        Ok(u64::from_be_bytes(self.array()?))
    }

    pub fn label(&mut self) -> Answer<[u8; 32]> {
        self.array()
    }

    /// The handle of a session, as the application has it.
    pub fn session(&mut self) -> Answer<u64> {
        self.handles.sessions.outer(self.number()?).ok_or(NONSENSE)
    }

    /// The handle of an object, as the application has it.
    pub fn object(&mut self) -> Answer<u64> {
        self.handles.objects.outer(self.number()?).ok_or(NONSENSE)
    }

    pub fn numbers(&mut self) -> Answer<Vec<u64>> {
        (0..self.count()?).map(|_| self.number()).collect()
    }

    /// So many bytes.
    pub fn raw(&mut self, len: u64) -> Answer<&'a [u8]> {
        let len = usize::try_from(len).map_err(|_| NONSENSE)?;
        let (front, rest) = self.fields.split_at_checked(len).ok_or(NONSENSE)?;
        self.fields = rest;
        Ok(front)
    }

    /// Bytes behind their length.
    pub fn bytes(&mut self) -> Answer<&'a [u8]> {
        let len = self.count()?;
        self.raw(len as u64)
    }

    /// Nothing may follow the last field.
    pub fn end(&self) -> Answer<()> {
        if self.fields.is_empty() { Ok(()) } else { Err(NONSENSE) }
    }
}

#[cfg(test)]
mod tests {
    use super::{Function, NONSENSE, Reply, Request};
    use crate::abi::codes::*;
    use crate::buffer::Buffer;
    use crate::error::refused;
    use crate::handles::of_slot;

    #[test]
    fn the_first_request_of_all() {
        let mut bytes = Buffer::default();
        Request::new(&mut bytes, Function::OpenSession, of_slot(0)).number(0).number(6).finish().unwrap();
        let wanted = [0, 0, 0, 0x12, 0, 7, 0, 0, 0, 0, 0, 0, 0, 0, 0, 0, 0, 0, 0, 0, 0, 6];
        assert_eq!(bytes.bytes(), wanted);
        assert_eq!(Function::GenerateRandom as u16, 41);
    }

    #[test]
    fn a_fault_refuses_the_whole() {
        let mut bytes = Buffer::default();
        let request = Request::new(&mut bytes, Function::Login, of_slot(0)).fail(CKR_PIN_LEN_RANGE).fail(CKR_ARGUMENTS_BAD);
        assert_eq!(request.number(1).finish(), refused(CKR_PIN_LEN_RANGE));
        let request = Request::new(&mut bytes, Function::SignUpdate, of_slot(0)).bytes(&[0; 1_048_576]);
        assert_eq!(request.finish(), refused(CKR_DATA_LEN_RANGE));
    }

    #[test]
    fn what_is_no_reply_is_nonsense() {
        assert_eq!(Reply::new(&[0; 7], of_slot(0)).err(), Some(NONSENSE));
        let payload = [0, 0, 0, 0, 0, 0, 0, 0, 0, 0, 0, 2, 9, 9, 5];
        let mut reply = Reply::new(&payload, of_slot(0)).unwrap();
        assert_eq!(reply.bytes(), Ok(&[9, 9][..]));
        assert_eq!(reply.end(), Err(NONSENSE));
        assert_eq!(reply.tag(), Err(NONSENSE));
        assert_eq!(reply.number(), Err(NONSENSE));
    }
}
