//! Where the daemons' sockets are, how long a daemon may take, and whether calls are traced.
//!
//! - The file of settings is /etc/tokend/pkcs11.conf, or what `TOKEND_PKCS11_CONF` names. It may be absent. Each line is
//!   `socket = PATH`, `serial = NAME`, `timeout = SECONDS`, `connect-timeout = SECONDS` (1 to 3,600) or `trace = FILE`, is blank, or
//!   begins with `#`. Each `socket` is a slot of its own, in their order; `serial` belongs to the socket above it.
//! - `TOKEND_SOCKET` names the sockets instead of the file, with colons between them.
//!
//! Neither variable is read in a program that runs with more rights than its user.

use crate::abi::codes::*;
use crate::abi::numbers::MAX_SLOTS;
use crate::edge::system::environment;
use crate::error::{Answer, refused};
use std::ffi::{CStr, OsStr};
use std::io::ErrorKind;
use std::os::unix::ffi::OsStrExt;
use std::path::{Path, PathBuf};
use std::time::Duration;

const FILE: &str = "/etc/tokend/pkcs11.conf";
const SOCKET: &str = "/run/tokend/tokend.sock";

/// How long the daemon may take for an answer, in seconds, where the file doesn't say.
const TIMEOUT: u64 = 10;

/// How long connecting and the first answer may take together, in seconds, where the file doesn't say.
const CONNECT_TIMEOUT: u64 = 2;

/// How many bytes a serial number has.
pub const SERIAL_LEN: usize = 16;

/// Where a token is.
#[derive(Clone, Debug, PartialEq, Eq)]
pub struct Place {
    pub socket: PathBuf,
    /// The serial number, if the settings give one.
    pub serial: Option<String>,
}

impl Place {
    fn at(socket: &Path) -> Place {
        Place { socket: socket.to_path_buf(), serial: None }
    }
}

/// How long a daemon may take.
#[derive(Clone, Copy, Debug, PartialEq, Eq)]
pub struct Patience {
    pub answer: Duration,
    pub connect: Duration,
}

/// What C_Initialize found.
#[derive(Clone, Debug, PartialEq, Eq)]
pub struct Settings {
    /// One or more, at most `MAX_SLOTS`, in the order of the slots.
    pub places: Vec<Place>,
    pub patience: Patience,
    pub trace: Option<PathBuf>,
}

impl Settings {
    fn new() -> Settings {
        let patience = Patience { answer: Duration::from_secs(TIMEOUT), connect: Duration::from_secs(CONNECT_TIMEOUT) };
        Settings { places: vec![Place::at(Path::new(SOCKET))], patience, trace: None }
    }

    /// The settings of this process. A file that can't be read, or has a line that is none, is CKR_GENERAL_ERROR.
    pub fn read() -> Answer<Settings> {
        let file = variable(c"TOKEND_PKCS11_CONF").unwrap_or_else(|| FILE.into());
        let mut settings = Settings::in_file(Path::new(OsStr::from_bytes(&file)))?;
        if let Some(sockets) = variable(c"TOKEND_SOCKET") {
            settings.places = places_in(&sockets)?;
        }
        for place in &mut settings.places {
            // (the program may change its folder later)
            if let Ok(socket) = std::path::absolute(&place.socket) {
                place.socket = socket;
            }
        }
        Ok(settings)
    }

    fn in_file(file: &Path) -> Answer<Settings> {
        match std::fs::read(file) {
            Ok(text) => Settings::of(&text),
            Err(error) if error.kind() == ErrorKind::NotFound => Ok(Settings::new()),
            Err(_) => refused(CKR_GENERAL_ERROR),
        }
    }

    /// The settings of a file's text. Paths may have any bytes but a line feed.
    fn of(text: &[u8]) -> Answer<Settings> {
        let mut settings = Settings::new();
        let mut places = Vec::new();
        for line in text.split(|it| *it == b'\n').map(<[u8]>::trim_ascii) {
            if line.is_empty() || line.starts_with(b"#") {
                continue;
            }
            let at = line.iter().position(|it| *it == b'=').ok_or(CKR_GENERAL_ERROR)?;
            let (name, value) = (line[..at].trim_ascii(), line[at + 1..].trim_ascii());
            match name {
                b"socket" => places.push(Place::at(path(value)?)),
                b"serial" => set_serial(places.last_mut(), value)?,
                b"trace" => settings.trace = Some(path(value)?.to_path_buf()),
                b"timeout" => settings.patience.answer = seconds(value)?,
                b"connect-timeout" => settings.patience.connect = seconds(value)?,
                _ => return refused(CKR_GENERAL_ERROR),
            }
        }
        if !places.is_empty() {
            settings.places = at_most_all(places)?;
        }
        Ok(settings)
    }
}

fn variable(name: &CStr) -> Option<Vec<u8>> {
    environment(name).filter(|it| !it.is_empty())
}

/// The sockets that `TOKEND_SOCKET` names.
fn places_in(sockets: &[u8]) -> Answer<Vec<Place>> {
    let paths = sockets.split(|it| *it == b':').filter(|it| !it.is_empty());
    let places: Vec<_> = paths.map(|it| Place::at(Path::new(OsStr::from_bytes(it)))).collect();
    if places.is_empty() { refused(CKR_GENERAL_ERROR) } else { at_most_all(places) }
}

fn at_most_all(places: Vec<Place>) -> Answer<Vec<Place>> {
    if places.len() <= MAX_SLOTS { Ok(places) } else { refused(CKR_GENERAL_ERROR) }
}

fn path(value: &[u8]) -> Answer<&Path> {
    let path = Path::new(OsStr::from_bytes(value));
    if path.is_absolute() { Ok(path) } else { refused(CKR_GENERAL_ERROR) }
}

/// Sets the serial number of the socket above: 1 to 16 letters, digits and other signs of ASCII, without blanks.
fn set_serial(place: Option<&mut Place>, value: &[u8]) -> Answer {
    let is_one = (1..=SERIAL_LEN).contains(&value.len()) && value.iter().all(u8::is_ascii_graphic);
    match place {
        Some(place) if is_one && place.serial.is_none() => {
            place.serial = Some(String::from_utf8_lossy(value).into_owned());
            Ok(())
        }
        _ => refused(CKR_GENERAL_ERROR),
    }
}

fn seconds(value: &[u8]) -> Answer<Duration> {
    let seconds = std::str::from_utf8(value).ok().and_then(|it| it.parse().ok());
    let duration = seconds.filter(|it| (1..=3_600).contains(it)).map(Duration::from_secs);
    Ok(duration.ok_or(CKR_GENERAL_ERROR)?)
}

#[cfg(test)]
mod tests {
    use super::{Patience, Place, Settings, places_in};
    use crate::abi::codes::CKR_GENERAL_ERROR;
    use crate::error::refused;
    use std::path::PathBuf;
    use std::time::Duration;

    fn place(socket: &str, serial: Option<&str>) -> Place {
        Place { socket: PathBuf::from(socket), serial: serial.map(String::from) }
    }

    #[test]
    fn a_file_with_all_lines() {
        let text = b"# tokend\n\n socket = /run/a b.sock \nserial=A-1\ntimeout=3\nconnect-timeout = 1\nsocket = /run/2\ntrace =/tmp/t\n";
        let patience = Patience { answer: Duration::from_secs(3), connect: Duration::from_secs(1) };
        let places = vec![place("/run/a b.sock", Some("A-1")), place("/run/2", None)];
        assert_eq!(Settings::of(text), Ok(Settings { places, patience, trace: Some(PathBuf::from("/tmp/t")) }));
        assert_eq!(Settings::of(b""), Ok(Settings::new()));
    }

    #[test]
    fn a_line_that_is_none_refuses_the_file() {
        let texts = [
            "socket",
            "socket =",
            "socket = run/x",
            "timeout = 0",
            "timeout = 3601",
            "timeout = 1s",
            "pin = 1234",
            "trace = t",
            "serial = 1",
            "socket = /a\nserial =",
            "socket = /a\nserial = 0123456789abcdefg",
            "socket = /a\nserial = a b",
            "socket = /a\nserial = 1\nserial = 2",
            "connect-timeout = 0",
        ];
        for text in texts {
            assert_eq!(Settings::of(text.as_bytes()), refused(CKR_GENERAL_ERROR), "{text}");
        }
        let many = "socket = /a\n".repeat(16);
        assert_eq!(Settings::of(many.as_bytes()).map(|it| it.places.len()), Ok(16));
        assert_eq!(Settings::of(format!("{many}socket = /b\n").as_bytes()), refused(CKR_GENERAL_ERROR));
    }

    #[test]
    fn colons_stand_between_sockets() {
        assert_eq!(places_in(b"/a:b:/c"), Ok(vec![place("/a", None), place("b", None), place("/c", None)]));
        assert_eq!(places_in(b":/a:"), Ok(vec![place("/a", None)]));
        assert_eq!(places_in(b":"), refused(CKR_GENERAL_ERROR));
    }
}
