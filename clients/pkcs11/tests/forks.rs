//! Forks: the child has nothing of its parent's until it calls C_Initialize, and the parent loses nothing by it.

mod common;

use common::children::{_exit, alone, fork, in_child, waitpid};
use common::daemon::Daemon;
use common::module::{Module, RW};
use common::{Folder, templates::*};
use std::ptr::null_mut;
use std::sync::atomic::{AtomicBool, Ordering::SeqCst};
use tokend_pkcs11::abi::codes::*;

fn begun(folder: &Folder) -> Module {
    let module = Module::load(folder, "module.so");
    assert_eq!(module.initialize(folder), CKR_OK);
    module
}

/// In a child: C_Initialize reads the environment as it is there.
fn again(module: &Module) -> bool {
    unsafe { (module.c.C_Initialize)(null_mut()) == CKR_OK }
}

#[test]
fn with_a_session() {
    let _alone = alone();
    let folder = Folder::new();
    let _daemon = Daemon::start(&folder);
    let module = begun(&folder);
    let session = module.open(RW).unwrap();
    let key = module.create(session, &aes_key(NO, b"the parent's")).unwrap();
    let failed = in_child(|| {
        let mut checks = vec![
            module.session_info(session).err() == Some(CKR_CRYPTOKI_NOT_INITIALIZED),
            module.finalize() == CKR_CRYPTOKI_NOT_INITIALIZED,
            again(&module),
            module.session_info(session).err() == Some(CKR_SESSION_HANDLE_INVALID),
        ];
        let own = module.open(RW);
        checks.push(own.is_ok_and(|it| it > session));
        let own = own.unwrap_or(0);
        checks.push(module.value(own, key, LABEL) == Err(CKR_OBJECT_HANDLE_INVALID));
        checks.push(module.create(own, &aes_key(NO, b"the child's")).is_ok_and(|it| it > key));
        checks.push(module.find(own, &[], 5).is_ok_and(|it| it.len() == 1));
        checks.push(module.finalize() == CKR_OK);
        checks
    });
    assert_eq!(failed, 0, "the check that failed in the child, from 1");
    assert_eq!(module.value(session, key, LABEL).unwrap(), b"the parent's");
    assert_eq!(module.finalize(), CKR_OK);
}

#[test]
fn without_a_session() {
    let _alone = alone();
    let folder = Folder::new();
    let _daemon = Daemon::start(&folder);
    let module = begun(&folder);
    let failed = in_child(|| vec![again(&module), module.open(RW).is_ok(), module.finalize() == CKR_OK]);
    assert_eq!(failed, 0, "the check that failed in the child, from 1");
    assert!(module.open(RW).is_ok());
    assert_eq!(module.finalize(), CKR_OK);
}

/// A child that does nothing with the module doesn't keep the parent's application alive: after C_Finalize no session is open, or
/// C_InitToken would be refused.
#[test]
fn a_child_that_goes_on_keeps_nothing_open() {
    let _alone = alone();
    let folder = Folder::new();
    let _daemon = Daemon::start(&folder);
    let module = begun(&folder);
    module.open(RW).unwrap();
    let child = unsafe { fork() };
    if child == 0 {
        std::thread::sleep(std::time::Duration::from_secs(2));
        unsafe { _exit(0) };
    }
    assert_eq!(module.finalize(), CKR_OK);
    assert_eq!(module.initialize(&folder), CKR_OK);
    assert_eq!(module.init_token("so pin", "a token"), CKR_OK);
    let mut status = 0;
    unsafe { assert_eq!(waitpid(child, &mut status, 0), child) };
}

/// While other threads are inside of calls, the lock is held at some of the forks.
#[test]
fn in_the_midst_of_calls() {
    let _alone = alone();
    let folder = Folder::new();
    let _daemon = Daemon::start(&folder);
    let module = begun(&folder);
    let session = module.open(RW).unwrap();
    let ends = AtomicBool::new(false);
    let mut failed = Vec::new();
    std::thread::scope(|scope| {
        for _ in 0..2 {
            scope.spawn(|| {
                while !ends.load(SeqCst) {
                    assert!(module.session_info(session).is_ok());
                }
            });
        }
        failed.extend((0..40).map(|_| in_child(|| vec![again(&module), module.open(RW).is_ok(), module.finalize() == CKR_OK])));
        ends.store(true, SeqCst);
    });
    assert_eq!(failed, [0; 40], "the check that failed in each child, from 1");
    assert_eq!(module.finalize(), CKR_OK);
}
