//! Why no token is in a slot: what connecting to its socket came to, for C_GetSlotInfo's description and for the trace.

use crate::abi::{CK_RV, codes::*};
use crate::error::Loss;
use std::fmt;
use std::io;
use std::os::unix::fs::FileTypeExt;
use std::path::Path;

/// Why nobody answers at a socket.
#[derive(Clone, Copy, Debug, PartialEq, Eq)]
pub enum Absence {
    /// There is a socket, at which no program listens: the daemon isn't started.
    NobodyListens,
    /// There is nothing by that path.
    NoFile,
    /// There is a file, which is no socket.
    NoSocket,
    /// The path is longer than a socket's can be, or empty.
    NoPath,
    /// What the system says, by its number.
    System(i32),
    /// Who listens doesn't answer for so many seconds: all places of the daemon are taken, or it is stopped.
    Silent(u64),
    /// Who listens closes the connection, or answers what no daemon of tokend answers.
    Lost(Loss),
}

impl Absence {
    /// What a connect came to that failed. It is the same for a file that is no socket and for one at which nobody listens.
    pub fn of(error: &io::Error, socket: &Path, waited: u64) -> Absence {
        match (error.kind(), error.raw_os_error()) {
            (io::ErrorKind::WouldBlock | io::ErrorKind::TimedOut, _) => Absence::Silent(waited),
            (io::ErrorKind::NotFound, _) => Absence::NoFile,
            (io::ErrorKind::ConnectionRefused, _) if is_other_file(socket) => Absence::NoSocket,
            (io::ErrorKind::ConnectionRefused, _) => Absence::NobodyListens,
            (_, Some(number)) => Absence::System(number),
            (_, None) => Absence::NoPath,
        }
    }

    /// What a call on the slot is answered.
    pub fn code(self) -> CK_RV {
        match self {
            Absence::Lost(Loss::Nonsense) => CKR_DEVICE_ERROR,
            _ => CKR_TOKEN_NOT_PRESENT,
        }
    }
}

fn is_other_file(path: &Path) -> bool {
    std::fs::metadata(path).is_ok_and(|it| !it.file_type().is_socket())
}

impl fmt::Display for Absence {
    fn fmt(&self, to: &mut fmt::Formatter<'_>) -> fmt::Result {
        match self {
            Absence::NobodyListens => to.write_str("nobody listens"),
            Absence::NoFile => to.write_str("no such file"),
            Absence::NoSocket => to.write_str("no socket"),
            Absence::NoPath => to.write_str("no path of a socket"),
            Absence::System(number) => to.write_str(&words_of(*number)),
            Absence::Silent(seconds) => write!(to, "no answer in {seconds} s"),
            Absence::Lost(Loss::Nonsense) => to.write_str("not tokend's answer"),
            Absence::Lost(_) => to.write_str("connection closed"),
        }
    }
}

/// The system's words for an error, without its number: `permission denied`.
fn words_of(number: i32) -> String {
    let text = io::Error::from_raw_os_error(number).to_string();
    let words = text.split(" (os error").next().unwrap_or(&text);
    let mut letters = words.chars();
    letters.next().map_or_else(String::new, |it| it.to_lowercase().chain(letters).collect())
}

/// A path as text that goes into one line.
pub fn text_of(path: &Path) -> String {
    path.to_string_lossy().chars().map(|it| if it.is_control() { '?' } else { it }).collect()
}

/// How many bytes C_GetSlotInfo's description has.
pub const DESCRIPTION_LEN: usize = 64;

/// C_GetSlotInfo's description: the socket, and, where no token is there, why. Of a path that is too long the end stands there.
pub fn description(socket: &Path, absence: Option<Absence>) -> String {
    let path = text_of(socket);
    let cause = absence.map_or_else(String::new, |it| format!(": {it}"));
    let room = DESCRIPTION_LEN.saturating_sub("tokend: ".len() + cause.len());
    if path.len() <= room {
        return format!("tokend: {path}{cause}");
    }
    let from = path.len() - room.saturating_sub("...".len()).min(path.len());
    let from = (from..=path.len()).find(|at| path.is_char_boundary(*at)).unwrap_or(path.len());
    format!("tokend: ...{}{cause}", &path[from..])
}

#[cfg(test)]
mod tests {
    use super::{Absence, DESCRIPTION_LEN, description};
    use crate::error::Loss;
    use std::path::Path;

    #[test]
    fn a_description_has_the_socket_and_the_cause() {
        let socket = Path::new("/run/tokend/tokend.sock");
        assert_eq!(description(socket, None), "tokend: /run/tokend/tokend.sock");
        assert_eq!(description(socket, Some(Absence::System(13))), "tokend: /run/tokend/tokend.sock: permission denied");
        assert_eq!(description(socket, Some(Absence::NoFile)), "tokend: /run/tokend/tokend.sock: no such file");
        assert_eq!(description(socket, Some(Absence::Silent(2))), "tokend: /run/tokend/tokend.sock: no answer in 2 s");
    }

    #[test]
    fn a_long_path_leaves_room_for_the_cause() {
        let causes = [Absence::NobodyListens, Absence::NoPath, Absence::Silent(3_600), Absence::Lost(Loss::Nonsense), Absence::System(20)];
        for len in 1..150 {
            for name in ["x", "\u{e4}", "\u{1d11e}"] {
                let path = format!("/{}", name.repeat(len));
                for absence in causes.into_iter().map(Some).chain([None]) {
                    let text = description(Path::new(&path), absence);
                    assert!(text.len() <= DESCRIPTION_LEN, "{text}");
                    assert!(absence.is_none_or(|it| text.ends_with(&format!(": {it}"))), "{text}");
                    assert!(text.len() > DESCRIPTION_LEN - 4 || text.contains(&path), "{text}");
                }
            }
        }
        assert_eq!(description(Path::new("/a\nb"), None), "tokend: /a?b");
    }
}
