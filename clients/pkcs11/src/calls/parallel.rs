//! Parallel function management functions (5.20), which are there for old applications alone.

use crate::abi::codes::*;
use crate::error::{Answer, refused};

/// C_GetFunctionStatus.
pub fn get_function_status() -> Answer {
    refused(CKR_FUNCTION_NOT_PARALLEL)
}

/// C_CancelFunction.
pub fn cancel_function() -> Answer {
    refused(CKR_FUNCTION_NOT_PARALLEL)
}
