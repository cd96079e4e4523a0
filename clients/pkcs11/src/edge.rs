//! Where the module touches what it can't check: the application's memory, C's calling convention, the system.
//!
//! All `unsafe` of the module stands below this module. What the rest sees are values that are made here of the application's
//! pointers, whose methods are safe as long as the application keeps to PKCS #11.

pub mod functions;
pub mod memory;
pub mod system;
