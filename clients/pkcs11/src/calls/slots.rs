//! Slot and token management functions (5.5). A slot's number is the index of its socket in the settings.

use super::general::{MANUFACTURER, VERSION, padded};
use super::told;
use crate::abi::codes::*;
use crate::abi::numbers::*;
use crate::abi::{CK_MECHANISM_INFO, CK_SLOT_INFO, CK_TOKEN_INFO};
use crate::absence::description;
use crate::edge::memory::{Input, Listing, Place};
use crate::error::{Answer, refused};
use crate::frame::{Function, Reply};
use crate::link::Again;
use crate::process::{count, with_link};
use crate::settings;
use std::os::unix::ffi::OsStrExt;
use std::path::Path;

/// How many bytes a token's label has.
const LABEL_LEN: u64 = 32;

/// C_GetSlotList. Slots with a token are those at whose socket a daemon answers.
pub fn get_slot_list(token_present: u8, list: Listing<u64>) -> Answer {
    list.check()?;
    let mut listed = Vec::new();
    for slot in 0..count()? as u64 {
        if token_present == CK_FALSE || with_link(slot, |link| link.absence())?.is_none() {
            listed.push(slot);
        }
    }
    list.put(&listed)
}

/// C_GetSlotInfo. The slot is one of a device that can be removed, since the daemon may come and go. Its description is the socket, and
/// the cause, where no token is there.
pub fn get_slot_info(slot: u64, info: Place<CK_SLOT_INFO>) -> Answer {
    info.check()?;
    let (absence, text) = with_link(slot, |link| {
        let absence = link.absence()?;
        Ok((absence, description(&link.place()?.socket, absence)))
    })?;
    let present = if absence.is_none() { CKF_TOKEN_PRESENT } else { 0 };
    info.put(CK_SLOT_INFO {
        slot_description: padded(&text),
        manufacturer_id: padded(MANUFACTURER),
        flags: CKF_REMOVABLE_DEVICE | present,
        hardware_version: VERSION,
        firmware_version: VERSION,
    })
}

/// C_GetTokenInfo. What the daemon doesn't say is blank, or CK_UNAVAILABLE_INFORMATION.
pub fn get_token_info(slot: u64, info: Place<CK_TOKEN_INFO>) -> Answer {
    info.check()?;
    let found = with_link(slot, |link| {
        let serial = serial_number(link.place()?);
        link.on_slot(
            Function::GetTokenInfo,
            Again::Sent,
            |it| it,
            |it| {
                it.ok()?;
                token_info(it, serial)
            },
        )
    })?;
    info.put(found)
}

fn token_info(reply: &mut Reply<'_>, serial_number: [u8; 16]) -> Answer<CK_TOKEN_INFO> {
    Ok(CK_TOKEN_INFO {
        label: reply.label()?,
        manufacturer_id: padded(MANUFACTURER),
        model: padded("tokend"),
        serial_number,
        flags: reply.number()?,
        max_session_count: reply.number()?,
        session_count: reply.number()?,
        max_rw_session_count: reply.number()?,
        rw_session_count: reply.number()?,
        max_pin_len: reply.number()?,
        min_pin_len: reply.number()?,
        total_public_memory: UNAVAILABLE,
        free_public_memory: UNAVAILABLE,
        total_private_memory: UNAVAILABLE,
        free_private_memory: UNAVAILABLE,
        hardware_version: VERSION,
        firmware_version: VERSION,
        utc_time: [b' '; 16],
    })
}

/// The serial number of the settings, or else one that tells the tokens of different sockets apart: a hash of the path, since the daemon
/// has no number of its own. Two tokens behind one path, one after the other, look like one. A socket that is named in several ways, as
/// by a link, has one path: that without links.
fn serial_number(place: &settings::Place) -> [u8; settings::SERIAL_LEN] {
    match &place.serial {
        Some(serial) => padded(serial),
        None => hashed(&std::fs::canonicalize(&place.socket).unwrap_or_else(|_| place.socket.clone())),
    }
}

/// Sixteen hexadecimal digits: FNV-1a of a path.
fn hashed(socket: &Path) -> [u8; settings::SERIAL_LEN] {
    let hash = socket
        .as_os_str()
        .as_bytes()
        .iter()
        .fold(0xCBF2_9CE4_8422_2325_u64, |hash, byte| (hash ^ u64::from(*byte)).wrapping_mul(0x100_0000_01B3));
    padded(&format!("{hash:016x}"))
}

/// C_WaitForSlotEvent. There are none: a daemon that comes or goes is found out by asking.
pub fn wait_for_slot_event(flags: u64) -> Answer {
    refused(if flags & CKF_DONT_BLOCK != 0 { CKR_NO_EVENT } else { CKR_FUNCTION_NOT_SUPPORTED })
}

/// C_GetMechanismList.
pub fn get_mechanism_list(slot: u64, list: Listing<u64>) -> Answer {
    list.check()?;
    let found = with_link(slot, |link| {
        link.on_slot(
            Function::GetMechanismList,
            Again::Sent,
            |it| it,
            |it| {
                it.ok()?;
                it.numbers()
            },
        )
    })?;
    list.put(&found)
}

/// C_GetMechanismInfo.
pub fn get_mechanism_info(slot: u64, mechanism: u64, info: Place<CK_MECHANISM_INFO>) -> Answer {
    info.check()?;
    let found = with_link(slot, |link| {
        link.on_slot(
            Function::GetMechanismInfo,
            Again::Sent,
            |it| it.number(mechanism),
            |it| {
                it.ok()?;
                Ok(CK_MECHANISM_INFO { min_key_size: it.number()?, max_key_size: it.number()?, flags: it.number()? })
            },
        )
    })?;
    info.put(found)
}

/// C_InitToken. Where the connection is lost, it isn't sent again: whether the token was made anew isn't known.
pub fn init_token(slot: u64, pin: Input, label: Input) -> Answer {
    if label.is_null() {
        return refused(CKR_ARGUMENTS_BAD);
    }
    let label = label.at_most(LABEL_LEN);
    with_link(slot, |link| {
        link.on_slot(Function::InitToken, Again::NotSent, |it| it.pin(&pin).input(&label, CKR_ARGUMENTS_BAD), |it| it.ok())
    })
}

/// C_InitPIN.
pub fn init_pin(session: u64, pin: Input) -> Answer {
    told(Function::InitPin, session, |it| it.pin(&pin))
}

/// C_SetPIN.
pub fn set_pin(session: u64, old: Input, new: Input) -> Answer {
    told(Function::SetPin, session, |it| it.pin(&old).pin(&new))
}

#[cfg(test)]
mod tests {
    use super::{hashed, serial_number};
    use crate::settings::Place;
    use std::path::Path;

    #[test]
    fn serial_numbers_are_hexadecimal_digits_of_the_path() {
        // (the published values of FNV-1a with 64 bits)
        assert_eq!(&hashed(Path::new("")), b"cbf29ce484222325");
        assert_eq!(&hashed(Path::new("a")), b"af63dc4c8601ec8c");
        assert_eq!(&hashed(Path::new("foobar")), b"85944171f73967e8");
    }

    #[test]
    fn a_serial_number_of_the_settings_comes_first() {
        let place = |serial: Option<&str>| Place { socket: "foobar".into(), serial: serial.map(String::from) };
        assert_eq!(&serial_number(&place(Some("A-1"))), b"A-1             ");
        assert_eq!(&serial_number(&place(None)), b"85944171f73967e8");
    }
}
