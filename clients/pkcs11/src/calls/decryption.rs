//! Decryption functions (5.10).

use super::pieces::{Calls, cipher, returned};
use super::{begin, ending};
use crate::edge::memory::{Input, MechanismPointer, Output};
use crate::error::Answer;
use crate::frame::Function;

/// C_DecryptInit.
pub fn decrypt_init(session: u64, mechanism: MechanismPointer, key: u64) -> Answer {
    begin(Function::DecryptInit, session, mechanism, key)
}

/// C_Decrypt.
pub fn decrypt(session: u64, data: Input, output: Output) -> Answer {
    let calls = Calls { whole: Function::Decrypt, update: Function::DecryptUpdate, last: Some(Function::DecryptFinal) };
    ending(Function::DecryptInit, session, cipher(&calls, session, data, output))
}

/// C_DecryptUpdate.
pub fn decrypt_update(session: u64, data: Input, output: Output) -> Answer {
    let calls = Calls { whole: Function::DecryptUpdate, update: Function::DecryptUpdate, last: None };
    ending(Function::DecryptInit, session, cipher(&calls, session, data, output))
}

/// C_DecryptFinal.
pub fn decrypt_final(session: u64, output: Output) -> Answer {
    ending(Function::DecryptInit, session, returned(Function::DecryptFinal, session, output, |it| it))
}
