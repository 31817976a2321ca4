//! The Distributor held against another implementation of the same registers.
//! The program links the Rattle Distributor; the tests take the Rust in its
//! place.

mod choose;
mod classify;
pub mod compare;
mod difference;
mod peer;
pub mod qemu;
pub mod report;
#[cfg(test)]
mod stand_in;
mod state;
pub mod wrong;

pub const PAGE: &str = concat!(env!("CARGO_MANIFEST_DIR"), "/../docs/DIFFERENCES.md");
