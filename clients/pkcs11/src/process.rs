//! Which links are this process's: one a slot.
//!
//! After a fork the child has nothing of its parent's (PKCS #11 v3.1, 5.4.1: it calls C_Initialize of its own). Its copies of the sockets
//! are closed at once, or a daemon would take the application to live as long as the child does. A lock that another thread held at
//! the fork is held in the child for good, since that thread isn't there: the child takes a link of its own then.

use crate::abi::codes::*;
use crate::abi::numbers::MAX_SLOTS;
use crate::edge::system::{self, Identity};
use crate::error::{Answer, refused};
use crate::handles;
use crate::link::Link;
use crate::settings::Settings;
use crate::trace;
use std::os::fd::RawFd;
use std::sync::atomic::{AtomicBool, AtomicI32, AtomicU32, AtomicU64, AtomicUsize, Ordering::SeqCst};
use std::sync::{Mutex, MutexGuard, OnceLock, PoisonError, TryLockError};

/// A link under its lock, and the one that takes its place in the child of a fork, if one has to.
struct Holder {
    link: Mutex<Link>,
    next: OnceLock<Box<Holder>>,
}

impl Holder {
    const fn new() -> Holder {
        Holder { link: Mutex::new(Link::new()), next: OnceLock::new() }
    }
}

/// What the child of a fork finds of a slot, whatever locks are held.
struct Slot {
    first: Holder,
    /// How many links were left behind.
    left: AtomicUsize,
    socket: Descriptor,
}

impl Slot {
    const fn new() -> Slot {
        Slot { first: Holder::new(), left: AtomicUsize::new(0), socket: Descriptor::new() }
    }

    fn current(&'static self) -> &'static Mutex<Link> {
        let mut holder = &self.first;
        for _ in 0..self.left.load(SeqCst) {
            holder = holder.next.get_or_init(|| Box::new(Holder::new()));
        }
        &holder.link
    }

    /// The link of this process, which just became its owner.
    fn own(&'static self) -> MutexGuard<'static, Link> {
        match self.current().try_lock() {
            Ok(link) => link,
            Err(TryLockError::Poisoned(it)) => it.into_inner(),
            Err(TryLockError::WouldBlock) => {
                self.left.fetch_add(1, SeqCst);
                self.current().lock().unwrap_or_else(PoisonError::into_inner)
            }
        }
    }
}

/// A socket's descriptor, or -1, and what it stood for when it was made.
struct Descriptor {
    number: AtomicI32,
    device: AtomicU64,
    inode: AtomicU64,
}

impl Descriptor {
    const fn new() -> Descriptor {
        Descriptor { number: AtomicI32::new(-1), device: AtomicU64::new(0), inode: AtomicU64::new(0) }
    }

    fn set(&self, number: RawFd, identity: Identity) {
        self.device.store(identity.device, SeqCst);
        self.inode.store(identity.inode, SeqCst);
        self.number.store(number, SeqCst);
    }

    /// Takes the descriptor out, and says whether it is a socket's still.
    fn take(&self) -> Option<RawFd> {
        let number = self.number.swap(-1, SeqCst);
        let identity = Identity { device: self.device.load(SeqCst), inode: self.inode.load(SeqCst) };
        (system::identity(number) == Some(identity)).then_some(number)
    }
}

static SLOTS: [Slot; MAX_SLOTS] = [const { Slot::new() }; MAX_SLOTS];

/// How many slots the settings of this process have.
static COUNT: AtomicUsize = AtomicUsize::new(0);

/// The process that called C_Initialize, or 0.
static OWNER: AtomicU32 = AtomicU32::new(0);

/// Whether what is done once in a process was done.
static IS_PREPARED: AtomicBool = AtomicBool::new(false);

/// Notes the descriptor of a slot's connection.
pub fn set_socket(slot: usize, descriptor: RawFd, identity: Identity) {
    SLOTS[slot].socket.set(descriptor, identity);
}

/// Forgets it.
pub fn forget_socket(slot: usize) {
    SLOTS[slot].socket.number.store(-1, SeqCst);
}

/// Closes the descriptor of a slot's connection, unless that was done in the child already, or it isn't the connection's any more.
pub fn close_socket(slot: usize) {
    if let Some(descriptor) = SLOTS[slot].socket.take() {
        system::close(descriptor);
    }
}

extern "C" fn in_child() {
    OWNER.store(0, SeqCst);
    COUNT.store(0, SeqCst);
    (0..MAX_SLOTS).for_each(close_socket);
}

/// What is done once in a process. Where the system refuses it, the next C_Initialize tries again.
fn prepare() -> Answer {
    if IS_PREPARED.load(SeqCst) {
        return Ok(());
    }
    if !system::on_fork_in_child(in_child) {
        return refused(CKR_HOST_MEMORY);
    }
    if system::is_library() {
        // (a panic is answered with a code, and says nothing on the application's streams; a program that has this crate in it has the
        // hook itself)
        std::panic::set_hook(Box::new(|_| ()));
    }
    IS_PREPARED.store(true, SeqCst);
    Ok(())
}

/// C_Initialize.
pub fn initialize() -> Answer {
    let (was, own) = (OWNER.load(SeqCst), std::process::id());
    if was == own {
        return refused(CKR_CRYPTOKI_ALREADY_INITIALIZED);
    }
    let settings = Settings::read()?;
    prepare()?;
    if OWNER.compare_exchange(was, own, SeqCst, SeqCst).is_err() {
        return refused(CKR_CRYPTOKI_ALREADY_INITIALIZED);
    }
    if let Some(file) = &settings.trace {
        trace::begin(file);
    }
    let count = settings.places.len();
    let mut places = settings.places.into_iter();
    for (number, slot) in SLOTS.iter().enumerate() {
        let mut link = slot.own();
        link.leave_to_parent(number);
        if let Some(place) = places.next() {
            link.begin(number, place, settings.patience);
        }
    }
    COUNT.store(count, SeqCst);
    Ok(())
}

/// C_Finalize.
pub fn finalize() -> Answer {
    for slot in 0..count()? {
        with_link(slot as u64, |link| {
            link.end();
            Ok(())
        })?;
    }
    COUNT.store(0, SeqCst);
    OWNER.store(0, SeqCst);
    Ok(())
}

/// Whether C_Initialize was called, as far as is known without asking the system: a child of a fork forgets it.
pub fn ready() -> Answer {
    if OWNER.load(SeqCst) != 0 { Ok(()) } else { refused(CKR_CRYPTOKI_NOT_INITIALIZED) }
}

/// How many slots there are, where C_Initialize was called in this process.
pub fn count() -> Answer<usize> {
    if OWNER.load(SeqCst) != std::process::id() {
        return refused(CKR_CRYPTOKI_NOT_INITIALIZED);
    }
    match COUNT.load(SeqCst) {
        0 => refused(CKR_CRYPTOKI_NOT_INITIALIZED),
        count => Ok(count),
    }
}

/// Does something with the link of a slot, alone.
pub fn with_link<T>(slot: u64, work: impl FnOnce(&mut Link) -> Answer<T>) -> Answer<T> {
    let count = count()?;
    match usize::try_from(slot) {
        Ok(slot) if slot < count => with_slot(slot, work),
        _ => refused(CKR_SLOT_ID_INVALID),
    }
}

/// Does something with the link that has a session.
pub fn with_session<T>(session: u64, work: impl FnOnce(&mut Link) -> Answer<T>) -> Answer<T> {
    let count = count()?;
    match usize::try_from(handles::slot_of(session)) {
        Ok(slot) if slot < count => with_slot(slot, work),
        _ => refused(CKR_SESSION_HANDLE_INVALID),
    }
}

fn with_slot<T>(slot: usize, work: impl FnOnce(&mut Link) -> Answer<T>) -> Answer<T> {
    let slot = &SLOTS[slot];
    let mut link = match slot.current().lock() {
        Ok(link) => link,
        Err(poisoned) => {
            // (a call ended in a panic, perhaps between a request and its reply)
            slot.current().clear_poison();
            let mut link = poisoned.into_inner();
            link.lose();
            link
        }
    };
    if link.is_begun() { work(&mut link) } else { refused(CKR_CRYPTOKI_NOT_INITIALIZED) }
}
