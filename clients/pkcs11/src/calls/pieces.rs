//! Data that is longer than a frame: it goes in parts, by the Update and Final calls of the same operation.
//!
//! Nothing is taken of it before the application's buffer is known to be large enough: what is wanted for so much data is what is wanted
//! for less by whole blocks, and those.

use super::in_session;
use crate::abi::{CK_RV, codes::*};
use crate::edge::memory::{Input, Output};
use crate::error::{Answer, Error, Loss, refused};
use crate::frame::{Function, Reply, Request};
use crate::link::Link;
use crate::process::with_session;

/// The most data of one request: whole blocks, so that the request's other fields, and a reply with a block more, have room in a frame.
pub const ONE_FRAME: u64 = 1_048_544;

/// How much data goes at once where it is longer than a frame.
const PIECE: u64 = 262_144;

/// The size of a block of the token's one cipher.
const BLOCK: u64 = 16;

/// The calls of an operation that returns data: of all data at once, of a part, and of the end.
pub struct Calls {
    /// C_Encrypt, C_Decrypt, or the Update call itself, which may have longer data too.
    pub whole: Function,
    pub update: Function,
    /// None of an Update call.
    pub last: Option<Function>,
}

/// Reads an output: bytes, which are written to the application's buffer from an offset on, or the length that is wanted. Returns the
/// length with the code. Bytes come where there is a buffer, and only the length where there is none, or too short a one: anything
/// else would have the application read what isn't there.
fn output_in(reply: &mut Reply<'_>, buffer: Option<(&Output, u64)>) -> Answer<(u64, CK_RV)> {
    let code = reply.code();
    if code != CKR_BUFFER_TOO_SMALL {
        reply.ok()?;
    }
    match (reply.tag()?, buffer) {
        (false, None) => Ok((reply.number()?, code)),
        (false, Some(_)) if code == CKR_BUFFER_TOO_SMALL => Ok((reply.number()?, code)),
        (true, Some((output, offset))) if code == CKR_OK => {
            let bytes = reply.bytes()?;
            output.put(offset, bytes)?;
            Ok((bytes.len() as u64, code))
        }
        _ => Err(Error::Lost(Loss::Nonsense)),
    }
}

/// A call that returns an output, whatever else it is given.
pub fn returned(function: Function, session: u64, output: Output, write: impl FnOnce(Request<'_>) -> Request<'_>) -> Answer {
    let buffer = output.buffer_len()?.map(|_| (&output, 0));
    let (len, code) = in_session(function, session, |it| write(it).output(&output, 0), |it| output_in(it, buffer))?;
    output.set_len(len)?;
    if code == CKR_OK { Ok(()) } else { Err(Error::Token(code)) }
}

/// Encrypts or decrypts data.
pub fn cipher(calls: &Calls, session: u64, data: Input, output: Output) -> Answer {
    if data.len() <= ONE_FRAME {
        return returned(calls.whole, session, output, |it| it.input(&data, CKR_DATA_LEN_RANGE));
    }
    if data.is_null() {
        return refused(CKR_ARGUMENTS_BAD);
    }
    let room = output.buffer_len()?;
    with_session(session, |link| {
        let probe = BLOCK + data.len() % BLOCK;
        let wanted = wanted(link, calls.whole, session, probe)?.saturating_add(data.len() - probe);
        if room.is_none_or(|it| it < wanted) {
            output.set_len(wanted)?;
            return if room.is_none() { Ok(()) } else { refused(CKR_BUFFER_TOO_SMALL) };
        }
        let written = in_pieces(link, calls, session, &data, &output)?;
        output.set_len(written)
    })
}

/// The length of the output for so many bytes of data, at most two blocks. Nothing is taken.
fn wanted(link: &mut Link, function: Function, session: u64, len: u64) -> Answer<u64> {
    let zeros = [0; 2 * BLOCK as usize];
    let zeros = zeros.get(..len as usize).ok_or(CKR_GENERAL_ERROR)?;
    let (len, _) = link.in_session(function, session, |it| it.bytes(zeros).buffer_len(None), |it| output_in(it, None))?;
    Ok(len)
}

fn in_pieces(link: &mut Link, calls: &Calls, session: u64, data: &Input, output: &Output) -> Answer<u64> {
    let (mut read, mut written) = (0, 0);
    while read < data.len() {
        // (a piece is in the request before its output is written, which may be over it)
        let piece = data.part(read, PIECE);
        written += part(link, calls.update, session, Some(&piece), output, written)?;
        read += piece.len();
    }
    match calls.last {
        Some(last) => Ok(written + part(link, last, session, None, output, written)?),
        None => Ok(written),
    }
}

/// One call of several, whose output stands behind what was written. Returns how much it is.
fn part(link: &mut Link, function: Function, session: u64, data: Option<&Input>, output: &Output, written: u64) -> Answer<u64> {
    let (len, code) = link.in_session(
        function,
        session,
        |it| data.into_iter().fold(it, |it, data| it.input(data, CKR_DATA_LEN_RANGE)).output(output, written),
        |it| output_in(it, Some((output, written))),
    )?;
    // (there was room for all)
    if code == CKR_OK { Ok(len) } else { refused(CKR_DEVICE_ERROR) }
}

/// Gives data to an operation that returns nothing for it.
pub fn taken(link: &mut Link, function: Function, session: u64, data: &Input) -> Answer {
    let mut read = 0;
    loop {
        let piece = if data.len() <= ONE_FRAME { *data } else { data.part(read, PIECE) };
        link.in_session(function, session, |it| it.input(&piece, CKR_DATA_LEN_RANGE), |it| it.ok())?;
        read += piece.len();
        if read >= data.len() {
            return Ok(());
        }
    }
}

/// The length of a signature, where no data was taken yet.
pub fn signature_len(link: &mut Link, function: Function, session: u64) -> Answer<u64> {
    wanted(link, function, session, 0)
}
