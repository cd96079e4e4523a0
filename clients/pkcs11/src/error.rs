//! Why a call has no value: the one error of the module. Where a call ends, `edge` makes it a return value.

use crate::abi::{CK_RV, codes::*};

/// What a call ends with.
pub type Answer<T = ()> = Result<T, Error>;

/// Why a call has no value.
#[derive(Clone, Copy, Debug, PartialEq, Eq)]
pub enum Error {
    /// The token's return value. An operation that the standard ends with it has ended there.
    Token(CK_RV),
    /// The module's own, of which the daemon knows nothing.
    Module(CK_RV),
    /// The connection can't be used any more.
    Lost(Loss),
}

/// Why a connection can't be used any more.
#[derive(Clone, Copy, Debug, PartialEq, Eq)]
pub enum Loss {
    /// The daemon closed it, or can't be written to, or the application closed its descriptor.
    Closed,
    /// The daemon took too long.
    Silent,
    /// What came is no reply.
    Nonsense,
}

impl Error {
    /// What the application gets.
    pub fn code(self) -> CK_RV {
        match self {
            Error::Token(code) | Error::Module(code) => code,
            Error::Lost(Loss::Nonsense) => CKR_DEVICE_ERROR,
            Error::Lost(_) => CKR_DEVICE_REMOVED,
        }
    }
}

impl From<CK_RV> for Error {
    fn from(code: CK_RV) -> Error {
        Error::Module(code)
    }
}

/// The module refuses a call.
pub fn refused<T>(code: CK_RV) -> Answer<T> {
    Err(Error::Module(code))
}
