//! The few calls of the C library that std doesn't have.

use std::ffi::{CStr, c_char, c_int, c_ulong, c_void};
use std::io;
use std::mem::MaybeUninit;
use std::os::fd::{AsRawFd, FromRawFd, OwnedFd, RawFd};
use std::os::unix::ffi::OsStrExt;
use std::os::unix::net::UnixStream;
use std::path::Path;
use std::time::Duration;

unsafe extern "C" {
    fn secure_getenv(name: *const c_char) -> *const c_char;
    fn pthread_atfork(prepare: Option<extern "C" fn()>, parent: Option<extern "C" fn()>, child: Option<extern "C" fn()>) -> c_int;
    fn explicit_bzero(at: *mut c_void, len: usize);
    fn socket(domain: c_int, kind: c_int, protocol: c_int) -> c_int;
    fn connect(socket: c_int, address: *const SocketAddress, len: u32) -> c_int;
    fn send(socket: c_int, bytes: *const c_void, len: usize, flags: c_int) -> isize;
    fn fcntl(descriptor: c_int, command: c_int, ...) -> c_int;
    fn fstat64(descriptor: c_int, found: *mut Status) -> c_int;
    fn getauxval(kind: c_ulong) -> c_ulong;
    fn dladdr(address: *const c_void, found: *mut Found) -> c_int;
}

const AF_UNIX: u16 = 1;
const SOCK_STREAM: c_int = 1;
const SOCK_CLOEXEC: c_int = 0o2_000_000;
const MSG_NOSIGNAL: c_int = 0x4000;
const F_DUPFD_CLOEXEC: c_int = 1_030;
const AT_PHDR: c_ulong = 3;

/// The least descriptor that isn't one of the three streams.
const FIRST_DESCRIPTOR: c_int = 3;

/// C's `struct sockaddr_un`.
#[repr(C)]
struct SocketAddress {
    family: u16,
    path: [u8; 108],
}

/// C's `Dl_info`: what a program or library has at an address.
#[repr(C)]
struct Found {
    file: *const c_char,
    base: *const c_void,
    symbol: *const c_char,
    symbol_at: *const c_void,
}

/// Overwrites bytes with zeros, which the compiler doesn't leave out though nobody reads them.
pub fn wipe(bytes: &mut [u8]) {
    // SAFETY: it writes the bytes of a slice.
    unsafe { explicit_bzero(bytes.as_mut_ptr().cast(), bytes.len()) };
}

/// A variable of the environment; none in a program that runs with more rights than its user.
pub fn environment(name: &CStr) -> Option<Vec<u8>> {
    // SAFETY: the name ends with a zero.
    let at = unsafe { secure_getenv(name.as_ptr()) };
    // SAFETY: what is returned is null, or a text that ends with a zero, which is copied at once.
    if at.is_null() { None } else { Some(unsafe { CStr::from_ptr(at) }.to_bytes().to_vec()) }
}

/// Has a function called in the child of each fork. It goes with the module where that is unloaded, as the C library does it.
pub fn on_fork_in_child(handler: extern "C" fn()) -> bool {
    // SAFETY: it registers a function that lives as long as the module.
    unsafe { pthread_atfork(None, None, Some(handler)) == 0 }
}

/// Where the program or library begins that has an address.
fn base_of(address: *const c_void) -> Option<*const c_void> {
    let mut found = Found { file: std::ptr::null(), base: std::ptr::null(), symbol: std::ptr::null(), symbol_at: std::ptr::null() };
    // SAFETY: it reads the system's list of what is loaded, by whatever address, and writes what it finds.
    let is_found = unsafe { dladdr(address, &mut found) } != 0;
    is_found.then_some(found.base)
}

/// Whether this code is a library that was loaded, whose std nobody else uses, and no part of the program itself.
pub fn is_library() -> bool {
    // SAFETY: it looks up a number that the system gave the process.
    let program = unsafe { getauxval(AT_PHDR) };
    let ours = base_of(base_of as *const c_void);
    ours.is_some() && ours != base_of(std::ptr::without_provenance(program as usize))
}

/// What a descriptor stands for, for as long as that is open: its device and its inode.
#[derive(Clone, Copy, Debug, PartialEq, Eq)]
#[repr(C)]
pub struct Identity {
    pub device: u64,
    pub inode: u64,
}

/// C's `struct stat`, of which these two are the first, and no more than so much follows, on 64 bits of Linux.
#[repr(C)]
struct Status {
    identity: Identity,
    rest: [u64; 30],
}

/// What a descriptor stands for, if it is open.
pub fn identity(descriptor: RawFd) -> Option<Identity> {
    let mut found = MaybeUninit::<Status>::zeroed();
    // SAFETY: it is asked what a number stands for, and the answer has room.
    let is_open = unsafe { fstat64(descriptor, found.as_mut_ptr()) } == 0;
    // SAFETY: all of it was zeros, which are numbers, before the call wrote to it.
    is_open.then(|| unsafe { found.assume_init() }.identity)
}

/// Closes a descriptor that nothing else owns.
pub fn close(descriptor: RawFd) {
    // SAFETY: the caller has taken it out of whatever owned it (`into_raw_fd`), or it is a forked child's copy, whose owner is
    // never dropped there.
    drop(unsafe { OwnedFd::from_raw_fd(descriptor) });
}

/// Takes over a descriptor that a call of the system returned, or its error.
fn owned(descriptor: c_int) -> io::Result<OwnedFd> {
    if descriptor < 0 {
        return Err(io::Error::last_os_error());
    }
    // SAFETY: the descriptor was made just now, and nothing else owns it.
    Ok(unsafe { OwnedFd::from_raw_fd(descriptor) })
}

/// A socket whose descriptor is none of the three streams: where one of those is closed, the application may print to its number.
fn new_socket() -> io::Result<OwnedFd> {
    // SAFETY: it makes a descriptor, or fails.
    let made = owned(unsafe { socket(AF_UNIX.into(), SOCK_STREAM | SOCK_CLOEXEC, 0) })?;
    if made.as_raw_fd() >= FIRST_DESCRIPTOR {
        return Ok(made);
    }
    // SAFETY: it makes a second descriptor for the one that is owned here, or fails. The first is closed then.
    owned(unsafe { fcntl(made.as_raw_fd(), F_DUPFD_CLOEXEC, FIRST_DESCRIPTOR) })
}

/// Connects to a socket. Connecting, each read and each write wait at most so long.
pub fn connected(path: &Path, limit: Duration) -> io::Result<UnixStream> {
    let mut address = SocketAddress { family: AF_UNIX, path: [0; 108] };
    let bytes = path.as_os_str().as_bytes();
    // (the last byte stays a zero)
    if bytes.is_empty() || bytes.len() >= address.path.len() || bytes.contains(&0) {
        return Err(io::ErrorKind::InvalidInput.into());
    }
    address.path[..bytes.len()].copy_from_slice(bytes);
    let stream = UnixStream::from(new_socket()?);
    let descriptor = stream.as_raw_fd();
    // (the limit of writes is that of connecting, too, where the daemon's queue is full)
    stream.set_write_timeout(Some(limit))?;
    stream.set_read_timeout(Some(limit))?;
    loop {
        // SAFETY: the address is whole, and has the length that is said.
        if unsafe { connect(descriptor, &address, size_of::<SocketAddress>() as u32) } == 0 {
            return Ok(stream);
        }
        let error = io::Error::last_os_error();
        if error.kind() != io::ErrorKind::Interrupted {
            return Err(error);
        }
    }
}

/// Sends bytes as `write` does, and never raises SIGPIPE.
pub fn sent(stream: &UnixStream, bytes: &[u8]) -> io::Result<usize> {
    // SAFETY: the descriptor is open while the stream is borrowed, and the bytes are those of a slice.
    let count = unsafe { send(stream.as_raw_fd(), bytes.as_ptr().cast(), bytes.len(), MSG_NOSIGNAL) };
    usize::try_from(count).map_err(|_| io::Error::last_os_error())
}
