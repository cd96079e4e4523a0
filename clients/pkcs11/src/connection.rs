//! A connection to the daemon: a request goes out, and its reply comes back.

use crate::abi::numbers::DAEMON_SLOT;
use crate::absence::Absence;
use crate::buffer::Buffer;
use crate::edge::system::{Identity, connected, identity, sent};
use crate::error::{Answer, Error, Loss};
use crate::frame::{Function, HEADER, MAX_PAYLOAD, Reply, Request};
use crate::handles::SlotHandles;
use crate::settings::Patience;
use std::io::{self, ErrorKind, Read};
use std::net::Shutdown;
use std::os::fd::{AsRawFd, IntoRawFd, RawFd};
use std::os::unix::net::UnixStream;
use std::path::Path;
use std::time::{Duration, Instant};

/// How many bytes are read at once. A longer reply is read in two parts.
const READ_LEN: usize = 32_768;

/// One application of the daemon's.
pub struct Connection {
    stream: UnixStream,
    /// What the descriptor stood for when it was made. An application may close it, and open something else by its number.
    identity: Identity,
    handles: SlotHandles,
    limit: Duration,
    output: Buffer,
    input: Buffer,
}

impl Connection {
    /// Connects, and asks something harmless. A connection beyond those that the daemon serves is accepted by the system, and a request
    /// that was given up there would be read once a place is free. Both together have the time that is given for connecting.
    pub fn open(socket: &Path, patience: Patience, handles: SlotHandles) -> Result<Connection, Absence> {
        let since = Instant::now();
        let waited = patience.connect.as_secs();
        let stream = connected(socket, patience.connect).map_err(|it| Absence::of(&it, socket, waited))?;
        let identity = identity(stream.as_raw_fd()).ok_or(Absence::Lost(Loss::Closed))?;
        let (output, input) = (Buffer::default(), Buffer::zeros(READ_LEN));
        let mut made = Connection { stream, identity, handles, limit: patience.answer, output, input };
        let left = patience.connect.saturating_sub(since.elapsed()).max(Duration::from_millis(1));
        made.set_limit(left).map_err(|it| Absence::of(&it, socket, waited))?;
        match made.ask(Function::CloseAllSessions, |it| it.number(DAEMON_SLOT), |it| it.ok()) {
            Ok(()) => {}
            Err(Error::Lost(Loss::Silent)) => return Err(Absence::Silent(waited)),
            Err(Error::Lost(loss)) => return Err(Absence::Lost(loss)),
            Err(_) => return Err(Absence::Lost(Loss::Nonsense)),
        }
        made.set_limit(patience.answer).map_err(|it| Absence::of(&it, socket, waited))?;
        Ok(made)
    }

    /// How long a request may take to go, and a reply to come.
    fn set_limit(&mut self, limit: Duration) -> io::Result<()> {
        self.limit = limit;
        self.stream.set_write_timeout(Some(limit))?;
        self.stream.set_read_timeout(Some(limit))
    }

    pub fn descriptor(&self) -> RawFd {
        self.stream.as_raw_fd()
    }

    pub fn identity(&self) -> Identity {
        self.identity
    }

    /// Whether the descriptor is this connection's still.
    fn is_ours(&self) -> bool {
        identity(self.stream.as_raw_fd()) == Some(self.identity)
    }

    /// The daemon learns that the application is gone, also where the child of a fork has a copy of the socket. A descriptor that the
    /// application took for something else is left alone.
    pub fn end(self) {
        if self.is_ours() {
            let _ = self.stream.shutdown(Shutdown::Both);
        } else {
            self.leave();
        }
    }

    /// Gives up the descriptor without closing it.
    pub fn leave(self) {
        let _ = self.stream.into_raw_fd();
    }

    /// Asks, and reads the reply. Both are wiped then.
    pub fn ask<T>(
        &mut self,
        function: Function,
        write: impl FnOnce(Request<'_>) -> Request<'_>,
        read: impl FnOnce(&mut Reply<'_>) -> Answer<T>,
    ) -> Answer<T> {
        if !self.is_ours() {
            return Err(Error::Lost(Loss::Closed));
        }
        let written = write(Request::new(&mut self.output, function, self.handles)).finish();
        let sent = written.and_then(|()| self.send());
        self.output.clear();
        sent?;
        let received = self.receive();
        let found = received.and_then(|len| read_whole(&self.input.bytes()[HEADER..len], self.handles, read));
        self.input.wipe_front(received.unwrap_or(self.input.len()));
        found
    }

    fn send(&mut self) -> Answer {
        let mut left = self.output.bytes();
        let mut clock = Clock::new(self.limit);
        while !left.is_empty() {
            match sent(&self.stream, left) {
                Ok(count) => left = &left[count..],
                Err(error) => clock.go_on(&error)?,
            }
            if !left.is_empty() {
                clock.check()?;
            }
        }
        Ok(())
    }

    /// Receives a frame, and returns its length. The daemon sends nothing unasked.
    fn receive(&mut self) -> Answer<usize> {
        let (mut have, mut want) = (0, HEADER);
        let mut clock = Clock::new(self.limit);
        while have < want {
            match self.stream.read(&mut self.input.bytes_mut()[have..]) {
                Ok(0) => return Err(Error::Lost(Loss::Closed)),
                Ok(count) => have += count,
                Err(error) => clock.go_on(&error)?,
            }
            if have >= HEADER && want == HEADER {
                want = self.frame_len()?;
            }
            if have < want {
                clock.check()?;
            }
        }
        if have == want { Ok(have) } else { Err(Error::Lost(Loss::Nonsense)) }
    }

    /// The length of the frame whose header was read. The buffer has room for it then.
    fn frame_len(&mut self) -> Answer<usize> {
        let header = self.input.bytes().first_chunk().map_or(0, |it| u32::from_be_bytes(*it));
        match usize::try_from(header) {
            Ok(payload) if payload <= MAX_PAYLOAD => {
                let len = HEADER + payload;
                self.input.append_zeros(len.saturating_sub(self.input.len()));
                Ok(len)
            }
            _ => Err(Error::Lost(Loss::Nonsense)),
        }
    }
}

/// Reads a payload to its end, unless it is none.
fn read_whole<T>(payload: &[u8], handles: SlotHandles, read: impl FnOnce(&mut Reply<'_>) -> Answer<T>) -> Answer<T> {
    let mut reply = Reply::new(payload, handles)?;
    let found = read(&mut reply);
    if !matches!(found, Err(Error::Lost(_))) {
        reply.end()?;
    }
    found
}

/// How long a frame may take in all, if it doesn't come or go at once.
struct Clock {
    limit: Duration,
    since: Option<Instant>,
}

impl Clock {
    fn new(limit: Duration) -> Clock {
        Clock { limit, since: None }
    }

    /// Begins at the first part that isn't the whole, and then has an end.
    fn check(&mut self) -> Answer {
        let since = *self.since.get_or_insert_with(Instant::now);
        if since.elapsed() < self.limit { Ok(()) } else { Err(Error::Lost(Loss::Silent)) }
    }

    /// Goes on where a signal came.
    fn go_on(&mut self, error: &io::Error) -> Answer {
        match error.kind() {
            ErrorKind::Interrupted => self.check(),
            ErrorKind::WouldBlock | ErrorKind::TimedOut => Err(Error::Lost(Loss::Silent)),
            _ => Err(Error::Lost(Loss::Closed)),
        }
    }
}
