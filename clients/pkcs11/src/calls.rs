//! The functions of PKCS #11, a group of the standard a file, in its order. Each takes what `edge` made of the application's pointers.
//!
//! The groups of the messages, of digesting and of dual functions (5.9, 5.11, 5.12, 5.14, 5.16, 5.17) have no file: the token leaves
//! them out, and `edge::functions` answers them CKR_FUNCTION_NOT_SUPPORTED.

mod pieces;

pub mod decryption;
pub mod encryption;
pub mod general;
pub mod keys;
pub mod objects;
pub mod parallel;
pub mod random;
pub mod sessions;
pub mod signing;
pub mod slots;
pub mod verifying;

use crate::abi::codes::CKR_BUFFER_TOO_SMALL;
use crate::edge::memory::{MechanismPointer, Place};
use crate::error::{Answer, Error};
use crate::frame::{Function, Reply, Request};
use crate::process::with_session;

/// A call in a session, read by `read`.
fn in_session<T>(
    function: Function,
    session: u64,
    write: impl FnOnce(Request<'_>) -> Request<'_>,
    read: impl FnOnce(&mut Reply<'_>) -> Answer<T>,
) -> Answer<T> {
    with_session(session, |link| link.in_session(function, session, write, read))
}

/// A call in a session that returns nothing.
fn told(function: Function, session: u64, write: impl FnOnce(Request<'_>) -> Request<'_>) -> Answer {
    in_session(function, session, write, |it| it.ok())
}

/// A call in a session that returns the handle of an object.
fn made(function: Function, session: u64, object: Place<u64>, write: impl FnOnce(Request<'_>) -> Request<'_>) -> Answer {
    object.check()?;
    let handle = in_session(function, session, write, |it| {
        it.ok()?;
        it.object()
    })?;
    object.put(handle)
}

/// An Init call: an operation begins with a key, or, without a mechanism, the one that is active ends.
fn begin(function: Function, session: u64, mechanism: MechanismPointer, key: u64) -> Answer {
    told(function, session, |it| it.mechanism_or_none(&mechanism).object(key))
}

/// The answer of a call of an operation. Where the module refuses the call by itself, the operation ends, as it ends where the token
/// refuses it: an error but CKR_BUFFER_TOO_SMALL ends it (5.8.2 and its like).
fn ending(init: Function, session: u64, answer: Answer) -> Answer {
    if matches!(answer, Err(Error::Module(code)) if code != CKR_BUFFER_TOO_SMALL) {
        let _ = begin(init, session, MechanismPointer::none(), 0);
    }
    answer
}
