//! The original Rust, run as the judge of the port.
//!
//! The four files of arm_vgic are compiled as they are. What they lean on is in
//! `stand_ins`; `driver` runs calls on them, and `straight` times them; `reference`
//! is the C face over them. The rest chooses calls, prints the answers and counts
//! what was met.

extern crate alloc;
// distributor.rs takes the access width from this crate.
extern crate self as axvm_types;

pub mod board;
pub mod calls;
pub mod compare;
pub mod coverage;
pub mod damage;
pub mod driver;
pub mod face;
pub mod generate;
pub mod image;
pub mod lent;
pub mod list;
pub mod machine;
pub mod met;
#[cfg(feature = "rattle")]
pub mod rattle;
pub mod reach;
pub mod reference;
pub mod registers;
#[cfg(any(feature = "rattle", feature = "face"))]
mod slices;
mod stand_ins;
pub mod straight;
pub mod trial;
#[cfg(test)]
mod wrong;

mod controller {
    pub(crate) use crate::stand_ins::ControllerConfig;
}

include!(concat!(env!("OUT_DIR"), "/sources.rs"));

pub(crate) use distributor::DistributorState;
pub(crate) use interrupt::InterruptRecord;
pub use stand_ins::AccessWidth;
pub(crate) use stand_ins::{GicV3SpiOwnership, RegisterRegion, VgicError, VgicResult};
pub(crate) use types::*;
