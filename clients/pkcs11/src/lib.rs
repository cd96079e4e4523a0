//! A PKCS #11 module over the socket of tokend: what an application loads, and the daemon answers.
//!
//! - `abi` has the types and numbers of the standard's C header.
//! - `edge` is the one place with `unsafe`: the application's memory, the functions that it calls, and a few calls of the system.
//! - `frame` writes requests and reads replies; `connection` sends and receives them.
//! - `link` is the connection of this process to a slot's daemon, with its sessions; `process` says which links are this process's, across
//!   forks. `handles` are the application's numbers for the daemon's.
//! - `calls` has the functions, a group of the standard a file. Its sections are those of PKCS #11 v3.1.
//! - `settings` reads where the sockets are, and `trace` writes which calls came and what they were answered.
//! - `error` is why a call has no value, and `absence` why no token is in a slot.
//!
//! Nothing of it is proved. What it can do wrong is an application's, not the token's.

#![warn(clippy::undocumented_unsafe_blocks)]

pub mod abi;
mod edge;

pub use edge::functions::{CK_FUNCTION_LIST, CK_FUNCTION_LIST_3_0, Functions, Functions3};

#[forbid(unsafe_code)]
mod absence;
#[forbid(unsafe_code)]
mod buffer;
#[forbid(unsafe_code)]
mod calls;
#[forbid(unsafe_code)]
mod connection;
#[forbid(unsafe_code)]
mod error;
#[forbid(unsafe_code)]
mod frame;
#[forbid(unsafe_code)]
mod handles;
#[forbid(unsafe_code)]
mod link;
#[forbid(unsafe_code)]
mod process;
#[forbid(unsafe_code)]
mod settings;
#[forbid(unsafe_code)]
mod trace;
