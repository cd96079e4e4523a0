//! Encryption functions (5.8).

use super::pieces::{Calls, cipher, returned};
use super::{begin, ending};
use crate::edge::memory::{Input, MechanismPointer, Output};
use crate::error::Answer;
use crate::frame::Function;

/// C_EncryptInit.
pub fn encrypt_init(session: u64, mechanism: MechanismPointer, key: u64) -> Answer {
    begin(Function::EncryptInit, session, mechanism, key)
}

/// C_Encrypt.
pub fn encrypt(session: u64, data: Input, output: Output) -> Answer {
    let calls = Calls { whole: Function::Encrypt, update: Function::EncryptUpdate, last: Some(Function::EncryptFinal) };
    ending(Function::EncryptInit, session, cipher(&calls, session, data, output))
}

/// C_EncryptUpdate.
pub fn encrypt_update(session: u64, data: Input, output: Output) -> Answer {
    let calls = Calls { whole: Function::EncryptUpdate, update: Function::EncryptUpdate, last: None };
    ending(Function::EncryptInit, session, cipher(&calls, session, data, output))
}

/// C_EncryptFinal.
pub fn encrypt_final(session: u64, output: Output) -> Answer {
    ending(Function::EncryptInit, session, returned(Function::EncryptFinal, session, output, |it| it))
}
