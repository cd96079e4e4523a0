//! Key management functions (5.18).

use super::made;
use super::objects::made_of;
use super::pieces::returned;
use crate::abi::codes::*;
use crate::abi::numbers::CKO_SECRET_KEY;
use crate::edge::memory::{Input, MechanismPointer, Output, Place, Template};
use crate::error::Answer;
use crate::frame::Function;

/// C_GenerateKey.
pub fn generate_key(session: u64, mechanism: MechanismPointer, template: Template, key: Place<u64>) -> Answer {
    made(Function::GenerateKey, session, key, |it| made_of(it.mechanism(&mechanism), &template, Some(CKO_SECRET_KEY)))
}

/// C_WrapKey.
pub fn wrap_key(session: u64, mechanism: MechanismPointer, wrapping_key: u64, key: u64, wrapped: Output) -> Answer {
    returned(Function::WrapKey, session, wrapped, |it| it.mechanism(&mechanism).object(wrapping_key).object(key))
}

/// C_UnwrapKey.
pub fn unwrap_key(
    session: u64,
    mechanism: MechanismPointer,
    unwrapping_key: u64,
    wrapped: Input,
    template: Template,
    key: Place<u64>,
) -> Answer {
    made(Function::UnwrapKey, session, key, |it| {
        let it = it.mechanism(&mechanism).object(unwrapping_key).input(&wrapped, CKR_WRAPPED_KEY_LEN_RANGE);
        made_of(it, &template, Some(CKO_SECRET_KEY))
    })
}
