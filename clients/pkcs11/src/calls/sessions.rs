//! Session management functions (5.6).

use super::{begin, in_session, told, verifying};
use crate::abi::CK_SESSION_INFO;
use crate::abi::codes::*;
use crate::abi::numbers::*;
use crate::edge::memory::{Input, MechanismPointer, Place};
use crate::error::{Answer, Error, refused};
use crate::frame::Function;
use crate::handles::slot_of;
use crate::process::{with_link, with_session};

/// C_OpenSession. No callback is ever called.
pub fn open_session(slot: u64, flags: u64, session: Place<u64>) -> Answer {
    session.check()?;
    let found = with_link(slot, |link| link.open_session(flags))?;
    session.put(found)
}

/// C_CloseSession.
pub fn close_session(session: u64) -> Answer {
    with_session(session, |link| link.close_session(session))
}

/// C_CloseAllSessions.
pub fn close_all_sessions(slot: u64) -> Answer {
    with_link(slot, |link| link.close_all_sessions())
}

/// C_GetSessionInfo.
pub fn get_session_info(session: u64, info: Place<CK_SESSION_INFO>) -> Answer {
    info.check()?;
    info.put(session_info(session)?)
}

fn session_info(session: u64) -> Answer<CK_SESSION_INFO> {
    in_session(
        Function::GetSessionInfo,
        session,
        |it| it,
        |it| {
            it.ok()?;
            // (the daemon has one slot, which is one of several for the application)
            it.number()?;
            Ok(CK_SESSION_INFO { slot_id: slot_of(session), state: it.number()?, flags: it.number()?, device_error: it.number()? })
        },
    )
}

/// C_SessionCancel: the operations that the flags name end. One that isn't active is none to end.
pub fn session_cancel(session: u64, flags: u64) -> Answer {
    session_info(session)?;
    let inits = [(CKF_ENCRYPT, Function::EncryptInit), (CKF_DECRYPT, Function::DecryptInit), (CKF_SIGN, Function::SignInit)];
    for (_, function) in inits.into_iter().filter(|(flag, _)| flags & flag != 0) {
        begin(function, session, MechanismPointer::none(), 0)?;
    }
    if flags & CKF_VERIFY != 0 {
        verifying::verify_init(session, MechanismPointer::none(), 0)?;
    }
    if flags & CKF_FIND_OBJECTS == 0 {
        return Ok(());
    }
    match told(Function::FindObjectsFinal, session, |it| it) {
        Err(Error::Token(CKR_OPERATION_NOT_INITIALIZED)) => Ok(()),
        ended => ended,
    }
}

/// C_Login.
pub fn login(session: u64, user: u64, pin: Input) -> Answer {
    told(Function::Login, session, |it| it.number(user).pin(&pin))
}

/// C_LoginUser. The token has users without names: with one it is CKR_FUNCTION_NOT_SUPPORTED.
pub fn login_user(session: u64, user: u64, pin: Input, name: Input) -> Answer {
    if name.len() == 0 { login(session, user, pin) } else { refused(CKR_FUNCTION_NOT_SUPPORTED) }
}

/// C_Logout.
pub fn logout(session: u64) -> Answer {
    told(Function::Logout, session, |it| it)
}
