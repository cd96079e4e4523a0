//! The connection of this process to the daemon of a slot, with its sessions.
//!
//! - A connection is one application of the daemon's, and takes one of its places. So it is made at the first call that needs it, kept
//!   from the first session to the last, and else ended after each call.
//! - Where it is lost, its sessions and objects are gone. The call that finds that out is answered CKR_DEVICE_REMOVED (or
//!   CKR_DEVICE_ERROR, where what came is no reply), the next in such a session CKR_SESSION_HANDLE_INVALID. A call on the slot, and
//!   C_OpenSession, connects anew.
//! - Where the daemon doesn't answer a new connection, the calls of the next seconds don't wait for it again.

use crate::abi::codes::*;
use crate::abi::numbers::DAEMON_SLOT;
use crate::absence::Absence;
use crate::connection::Connection;
use crate::error::{Answer, Error, Loss, refused};
use crate::frame::{Function, Reply, Request};
use crate::handles::{self, SlotHandles};
use crate::process;
use crate::settings::{Patience, Place};
use crate::trace;
use std::collections::BTreeSet;
use std::time::{Duration, Instant};

/// How long a daemon that didn't answer isn't asked again.
const SILENCE: Duration = Duration::from_secs(5);

/// What a process has of a slot's daemon.
pub struct Link {
    /// The slot's index.
    slot: usize,
    /// None until C_Initialize, and after C_Finalize.
    place: Option<(Place, Patience)>,
    connection: Option<Connection>,
    /// How many sessions are open on the connection.
    open_sessions: u64,
    /// The sessions whose verification has taken data by C_VerifyUpdate. See `calls::verifying`.
    verifying: BTreeSet<u64>,
    /// When the daemon hadn't answered a new connection, and what that came to.
    silent: Option<(Instant, Absence)>,
}

/// Whether a call may be sent a second time, where the daemon was started again since the last one.
#[derive(Clone, Copy, PartialEq, Eq)]
pub enum Again {
    Sent,
    NotSent,
}

impl Link {
    pub const fn new() -> Link {
        Link { slot: 0, place: None, connection: None, open_sessions: 0, verifying: BTreeSet::new(), silent: None }
    }

    pub fn begin(&mut self, slot: usize, place: Place, patience: Patience) {
        self.slot = slot;
        self.place = Some((place, patience));
        self.silent = None;
    }

    pub fn is_begun(&self) -> bool {
        self.place.is_some()
    }

    /// Where the token is.
    pub fn place(&self) -> Answer<&Place> {
        let (place, _) = self.place.as_ref().ok_or(CKR_CRYPTOKI_NOT_INITIALIZED)?;
        Ok(place)
    }

    fn handles(&self) -> SlotHandles {
        handles::of_slot(self.slot)
    }

    /// C_Finalize: the sessions are closed first, so that the daemon has forgotten them when this returns.
    pub fn end(&mut self) {
        if self.open_sessions > 0 {
            let _ = self.ask(Function::CloseAllSessions, |it| it.number(DAEMON_SLOT), |it| it.ok());
        }
        self.lose();
        self.place = None;
    }

    /// The connection ends, and all that it had.
    pub fn lose(&mut self) {
        if let Some(connection) = self.connection.take() {
            process::forget_socket(self.slot);
            connection.end();
        }
        self.forget();
    }

    fn forget(&mut self) {
        self.open_sessions = 0;
        self.verifying.clear();
        self.handles().sessions.forget();
        self.handles().objects.forget();
    }

    /// In the child of a fork, what is here is of the process that forked: its socket's copy is closed, if that was not done yet.
    pub fn leave_to_parent(&mut self, slot: usize) {
        self.slot = slot;
        process::close_socket(slot);
        if let Some(connection) = self.connection.take() {
            connection.leave();
        }
        self.forget();
        self.place = None;
    }

    /// Why no token is in the slot, as far as connecting and a first answer show it. Where there is a connection, there is a token.
    pub fn absence(&mut self) -> Answer<Option<Absence>> {
        if self.connection.is_some() {
            return Ok(None);
        }
        let absence = self.connect()?;
        self.end_if_unused();
        Ok(absence)
    }

    /// Makes the connection, or finds out why there is none.
    fn connect(&mut self) -> Answer<Option<Absence>> {
        let (place, patience) = self.place.as_ref().ok_or(CKR_CRYPTOKI_NOT_INITIALIZED)?;
        let found = match self.silent {
            Some((at, absence)) if at.elapsed() < SILENCE => Err(absence),
            _ => Connection::open(&place.socket, *patience, self.handles()),
        };
        match found {
            Ok(opened) => {
                process::set_socket(self.slot, opened.descriptor(), opened.identity());
                self.connection = Some(opened);
                self.silent = None;
                Ok(None)
            }
            Err(absence) => {
                trace::note_absence(&place.socket, absence);
                if matches!(absence, Absence::Silent(_)) && self.silent.is_none_or(|(at, _)| at.elapsed() >= SILENCE) {
                    self.silent = Some((Instant::now(), absence));
                }
                Ok(Some(absence))
            }
        }
    }

    /// Makes the connection for a call on the slot.
    fn connect_or_refuse(&mut self) -> Answer {
        match self.connect()? {
            None => Ok(()),
            Some(absence) => refused(absence.code()),
        }
    }

    /// Asks on the connection. Where it is lost, it ends.
    fn ask<T>(
        &mut self,
        function: Function,
        write: impl FnOnce(Request<'_>) -> Request<'_>,
        read: impl FnOnce(&mut Reply<'_>) -> Answer<T>,
    ) -> Answer<T> {
        let connection = self.connection.as_mut().ok_or(Error::Lost(Loss::Closed))?;
        let found = connection.ask(function, write, read);
        if let Err(Error::Lost(_)) = found {
            self.lose();
        }
        found
    }

    /// A call in a session. One of an earlier connection is none.
    pub fn in_session<T>(
        &mut self,
        function: Function,
        session: u64,
        write: impl FnOnce(Request<'_>) -> Request<'_>,
        read: impl FnOnce(&mut Reply<'_>) -> Answer<T>,
    ) -> Answer<T> {
        let inner = self.handles().sessions.inner(session);
        if self.connection.is_none() || inner == 0 {
            return refused(CKR_SESSION_HANDLE_INVALID);
        }
        self.ask(function, |it| write(it.number(inner)), read)
    }

    /// A call on the slot, which makes the connection where there is none, and ends it where no session is open.
    pub fn on_slot<T>(
        &mut self,
        function: Function,
        again: Again,
        write: impl FnMut(Request<'_>) -> Request<'_>,
        read: impl FnMut(&mut Reply<'_>) -> Answer<T>,
    ) -> Answer<T> {
        let found = self.connected(function, again, write, read);
        self.end_if_unused();
        found
    }

    /// A call on the slot, after which the connection is there as long as it isn't lost. Where the daemon was started again since the
    /// last call, a new connection is made, unless the call may not be sent twice.
    fn connected<T>(
        &mut self,
        function: Function,
        again: Again,
        mut write: impl FnMut(Request<'_>) -> Request<'_>,
        mut read: impl FnMut(&mut Reply<'_>) -> Answer<T>,
    ) -> Answer<T> {
        let mut ask = |link: &mut Link| link.ask(function, |it| write(it.number(DAEMON_SLOT)), &mut read);
        if self.connection.is_some() {
            let found = ask(self);
            if again == Again::NotSent || !matches!(found, Err(Error::Lost(Loss::Closed))) {
                return found;
            }
        }
        self.connect_or_refuse()?;
        ask(self)
    }

    /// Opens a session, with which the connection stays.
    pub fn open_session(&mut self, flags: u64) -> Answer<u64> {
        let found = self.connected(
            Function::OpenSession,
            Again::Sent,
            |it| it.number(flags),
            |it| {
                it.ok()?;
                it.session()
            },
        );
        self.open_sessions += u64::from(found.is_ok());
        self.end_if_unused();
        found
    }

    /// Closes a session, and with the last one the connection.
    pub fn close_session(&mut self, session: u64) -> Answer {
        self.in_session(Function::CloseSession, session, |it| it, |it| it.ok())?;
        self.verifying.remove(&session);
        self.open_sessions = self.open_sessions.saturating_sub(1);
        self.end_if_unused();
        Ok(())
    }

    /// Closes all sessions, and the connection.
    pub fn close_all_sessions(&mut self) -> Answer {
        if self.connection.is_none() {
            return Ok(());
        }
        self.connected(Function::CloseAllSessions, Again::NotSent, |it| it, |it| it.ok())?;
        self.open_sessions = 0;
        self.end_if_unused();
        Ok(())
    }

    fn end_if_unused(&mut self) {
        if self.open_sessions == 0 {
            self.lose();
        }
    }

    /// Whether the verification of a session has taken data by C_VerifyUpdate.
    pub fn has_taken_data(&self, session: u64) -> bool {
        self.verifying.contains(&session)
    }

    /// Notes whether it has.
    pub fn set_taken_data(&mut self, session: u64, has_taken: bool) {
        if has_taken {
            self.verifying.insert(session);
        } else {
            self.verifying.remove(&session);
        }
    }
}
