//! Children of a test's process, in which something is tried that would harm the test itself.

use std::ffi::{c_int, c_uint};
use std::panic::{AssertUnwindSafe, catch_unwind};
use std::sync::{Mutex, MutexGuard, PoisonError};

unsafe extern "C" {
    pub fn fork() -> c_int;
    pub fn waitpid(child: c_int, status: *mut c_int, options: c_int) -> c_int;
    pub fn _exit(status: c_int) -> !;
    fn alarm(seconds: c_uint) -> c_uint;
}

/// How long a child may take, in seconds, before it is killed.
const LIMIT: c_uint = 120;

/// One test at a time: a child has the locks as they were when its parent forked.
static ALONE: Mutex<()> = Mutex::new(());

pub fn alone() -> MutexGuard<'static, ()> {
    ALONE.lock().unwrap_or_else(PoisonError::into_inner)
}

/// Runs something in a child, which ends with the number of the first check that fails, from 1, with 99 where it panics, or with 0.
pub fn in_child(checks: impl Fn() -> Vec<bool>) -> c_int {
    // SAFETY: the child calls the module, which is what is tested, and ends without running what belongs to its parent.
    unsafe {
        let child = fork();
        if child == 0 {
            alarm(LIMIT);
            let checked = catch_unwind(AssertUnwindSafe(checks));
            let failed = checked.map(|it| it.iter().position(|it| !it).map_or(0, |it| it as c_int + 1));
            _exit(failed.unwrap_or(99));
        }
        assert!(child > 0);
        let mut status = 0;
        assert_eq!(waitpid(child, &mut status, 0), child);
        assert_eq!(status & 0x7f, 0, "the child was killed by a signal");
        status >> 8
    }
}
