//! Functions for verifying signatures and MACs (5.15).
//!
//! C_Verify of an operation that has taken data by C_VerifyUpdate is CKR_OPERATION_ACTIVE. Data longer than a frame goes by
//! C_VerifyUpdate itself, and no call asks whether data was taken without ending the operation; so the link notes it.

use super::pieces::{ONE_FRAME, taken};
use super::{begin, ending};
use crate::abi::codes::*;
use crate::edge::memory::{Input, MechanismPointer};
use crate::error::{Answer, refused};
use crate::frame::Function;
use crate::link::Link;
use crate::process::with_session;

/// A longer signature than this is of no mechanism: so much of it is refused for its length as well.
const LONGEST_SIGNATURE: u64 = 1_024;

/// C_VerifyInit.
pub fn verify_init(session: u64, mechanism: MechanismPointer, key: u64) -> Answer {
    begin(Function::VerifyInit, session, mechanism, key)?;
    with_session(session, |link| {
        link.set_taken_data(session, false);
        Ok(())
    })
}

/// C_Verify.
pub fn verify(session: u64, data: Input, signature: Input) -> Answer {
    ending(Function::VerifyInit, session, verified(session, data, signature))
}

fn verified(session: u64, data: Input, signature: Input) -> Answer {
    let signature = signature.at_most(LONGEST_SIGNATURE);
    if data.is_null() && data.len() != 0 {
        return refused(CKR_ARGUMENTS_BAD);
    }
    with_session(session, |link| {
        let is_whole = data.len() <= ONE_FRAME - LONGEST_SIGNATURE;
        if is_whole || link.has_taken_data(session) {
            // (where data was taken, the token refuses it, whatever comes now)
            let data = if is_whole { data } else { data.at_most(0) };
            return link.in_session(
                Function::Verify,
                session,
                |it| it.input(&data, CKR_DATA_LEN_RANGE).input(&signature, CKR_SIGNATURE_LEN_RANGE),
                |it| it.ok(),
            );
        }
        taken(link, Function::VerifyUpdate, session, &data)?;
        last(link, session, &signature)
    })
}

/// C_VerifyUpdate.
pub fn verify_update(session: u64, data: Input) -> Answer {
    let answer = with_session(session, |link| {
        taken(link, Function::VerifyUpdate, session, &data)?;
        if data.len() != 0 {
            link.set_taken_data(session, true);
        }
        Ok(())
    });
    ending(Function::VerifyInit, session, answer)
}

/// C_VerifyFinal.
pub fn verify_final(session: u64, signature: Input) -> Answer {
    let answer = with_session(session, |link| last(link, session, &signature.at_most(LONGEST_SIGNATURE)));
    ending(Function::VerifyInit, session, answer)
}

fn last(link: &mut Link, session: u64, signature: &Input) -> Answer {
    link.in_session(Function::VerifyFinal, session, |it| it.input(signature, CKR_SIGNATURE_LEN_RANGE), |it| it.ok())
}
