//! Handles as the application has them, and as the daemon has them.
//!
//! On each connection the daemon counts its handles from 1. The application's count on from the greatest that it was ever given, so
//! that no old handle comes to mean a new session or object, whatever connection came between. The slot stands in the highest byte, so
//! that a session says whose it is, and no token takes another's handle for its own.

use crate::abi::numbers::MAX_SLOTS;
use std::sync::atomic::{AtomicU64, Ordering::SeqCst};

/// How many bits of a handle are the count.
const COUNT_BITS: u32 = 56;

/// The greatest handle of a connection. The daemon counts from 1, and would take years to come here.
const MOST: u64 = 1 << 48;

/// How far the handles of one kind have come on a slot. They are changed only under the link's lock; they are atomic since the child of
/// a fork may have to leave that lock behind.
struct Counters {
    /// What the application's handles are greater by than the daemon's, on this connection.
    base: AtomicU64,
    /// The greatest that the application was given.
    greatest: AtomicU64,
}

impl Counters {
    const fn new() -> Counters {
        Counters { base: AtomicU64::new(0), greatest: AtomicU64::new(0) }
    }
}

static SESSIONS: [Counters; MAX_SLOTS] = [const { Counters::new() }; MAX_SLOTS];
static OBJECTS: [Counters; MAX_SLOTS] = [const { Counters::new() }; MAX_SLOTS];

/// The handles of one kind on a slot.
#[derive(Clone, Copy)]
pub struct Handles {
    slot: u64,
    counters: &'static Counters,
}

/// The handles of a slot.
#[derive(Clone, Copy)]
pub struct SlotHandles {
    pub sessions: Handles,
    pub objects: Handles,
}

/// The handles of a slot below `MAX_SLOTS`.
pub fn of_slot(slot: usize) -> SlotHandles {
    let of = |all: &'static [Counters]| Handles { slot: slot as u64, counters: &all[slot] };
    SlotHandles { sessions: of(&SESSIONS), objects: of(&OBJECTS) }
}

/// The slot that a handle names.
pub fn slot_of(outer: u64) -> u64 {
    outer >> COUNT_BITS
}

impl Handles {
    /// The application's handle for one of the daemon's, or none, if the daemon can't have counted so far: it would use up the
    /// application's handles.
    pub fn outer(self, inner: u64) -> Option<u64> {
        let base = self.counters.base.load(SeqCst);
        let count = base.checked_add(inner).filter(|it| (1..=MOST).contains(&inner) && it >> COUNT_BITS == 0)?;
        self.counters.greatest.fetch_max(count, SeqCst);
        Some(self.slot << COUNT_BITS | count)
    }

    /// The daemon's handle for one of the application's, or 0, which none has, where it is of an earlier connection or another slot.
    pub fn inner(self, outer: u64) -> u64 {
        let count = if slot_of(outer) == self.slot { outer & ((1 << COUNT_BITS) - 1) } else { 0 };
        count.saturating_sub(self.counters.base.load(SeqCst))
    }

    /// The connection ended: no handle that was given means anything from now on.
    pub fn forget(self) {
        self.counters.base.store(self.counters.greatest.load(SeqCst), SeqCst);
    }
}

#[cfg(test)]
mod tests {
    use super::{COUNT_BITS, Counters, Handles, MOST, slot_of};
    use std::sync::atomic::Ordering::SeqCst;

    fn handles(slot: u64) -> Handles {
        Handles { slot, counters: Box::leak(Box::new(Counters::new())) }
    }

    #[test]
    fn old_handles_mean_nothing_new() {
        let handles = handles(0);
        assert_eq!([handles.outer(1), handles.outer(2)], [Some(1), Some(2)]);
        assert_eq!(handles.inner(2), 2);
        handles.forget();
        assert_eq!([handles.inner(1), handles.inner(2)], [0, 0]);
        assert_eq!(handles.outer(1), Some(3));
        assert_eq!(handles.inner(3), 1);
        handles.forget();
        handles.forget();
        assert_eq!(handles.outer(1), Some(4));
        assert_eq!(handles.inner(3), 0);
    }

    #[test]
    fn handles_that_no_daemon_gives_are_none() {
        let handles = handles(0);
        assert_eq!([0, u64::MAX, MOST + 1].map(|it| handles.outer(it)), [None; 3]);
        handles.forget();
        assert_eq!(handles.outer(1), Some(1));
        let last = (1 << COUNT_BITS) - 1;
        handles.counters.base.store(last - 1, SeqCst);
        assert_eq!([handles.outer(1), handles.outer(2)], [Some(last), None]);
    }

    #[test]
    fn a_handle_says_whose_it_is() {
        let (one, two) = (handles(1), handles(2));
        let given = one.outer(5).unwrap();
        assert_eq!((slot_of(given), one.inner(given), two.inner(given)), (1, 5, 0));
        assert_ne!(two.outer(5), Some(given));
    }
}
