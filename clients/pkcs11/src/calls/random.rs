//! Random number generation functions (5.19).

use crate::abi::codes::*;
use crate::edge::memory::Filled;
use crate::error::{Answer, Error, Loss, refused};
use crate::frame::Function;
use crate::process::with_session;

/// The most bytes that the token returns at once.
const MOST: u64 = 32_768;

/// C_SeedRandom. The token takes none.
pub fn seed_random() -> Answer {
    refused(CKR_RANDOM_SEED_NOT_SUPPORTED)
}

/// C_GenerateRandom.
pub fn generate_random(session: u64, random: Filled) -> Answer {
    let len = random.len()?;
    with_session(session, |link| {
        let mut done = 0;
        loop {
            let wanted = (len - done).min(MOST);
            link.in_session(
                Function::GenerateRandom,
                session,
                |it| it.number(wanted),
                |it| {
                    it.ok()?;
                    let bytes = it.bytes()?;
                    if bytes.len() as u64 != wanted {
                        return Err(Error::Lost(Loss::Nonsense));
                    }
                    random.put(done, bytes)
                },
            )?;
            done += wanted;
            if done == len {
                return Ok(());
            }
        }
    })
}
