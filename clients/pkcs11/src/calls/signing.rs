//! Signing and MACing functions (5.13).

use super::pieces::{ONE_FRAME, returned, signature_len, taken};
use super::{begin, ending};
use crate::abi::codes::*;
use crate::edge::memory::{Input, MechanismPointer, Output};
use crate::error::{Answer, refused};
use crate::frame::Function;
use crate::process::with_session;

/// C_SignInit.
pub fn sign_init(session: u64, mechanism: MechanismPointer, key: u64) -> Answer {
    begin(Function::SignInit, session, mechanism, key)
}

/// C_Sign.
pub fn sign(session: u64, data: Input, signature: Output) -> Answer {
    ending(Function::SignInit, session, signed(session, data, signature))
}

fn signed(session: u64, data: Input, signature: Output) -> Answer {
    if data.len() <= ONE_FRAME {
        return returned(Function::Sign, session, signature, |it| it.input(&data, CKR_DATA_LEN_RANGE));
    }
    if data.is_null() {
        return refused(CKR_ARGUMENTS_BAD);
    }
    let room = signature.buffer_len()?;
    let is_taken = with_session(session, |link| {
        let wanted = signature_len(link, Function::Sign, session)?;
        if room.is_none_or(|it| it < wanted) {
            signature.set_len(wanted)?;
            return if room.is_none() { Ok(false) } else { refused(CKR_BUFFER_TOO_SMALL) };
        }
        taken(link, Function::SignUpdate, session, &data)?;
        Ok(true)
    })?;
    if is_taken { sign_final(session, signature) } else { Ok(()) }
}

/// C_SignUpdate.
pub fn sign_update(session: u64, data: Input) -> Answer {
    let answer = with_session(session, |link| taken(link, Function::SignUpdate, session, &data));
    ending(Function::SignInit, session, answer)
}

/// C_SignFinal.
pub fn sign_final(session: u64, signature: Output) -> Answer {
    ending(Function::SignInit, session, returned(Function::SignFinal, session, signature, |it| it))
}
