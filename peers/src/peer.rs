//! What a peer is: a Distributor that is seen through its registers and its
//! lines alone.

use oracle::calls::{Call, Op};

/// A look is many reads, so reads and writes come in lists.
pub trait Peer {
    /// Puts the peer into the state it has when it is switched on.
    fn reset(&mut self);
    /// Does accesses and line changes in order, and gives what the reads read.
    fn run(&mut self, calls: &[Call]) -> Vec<u64>;
}

pub fn read(offset: u64, width: u64) -> Call {
    Call::new(Op::Read, &[offset, width])
}

/// Without a lent list, which a peer does not need.
pub fn write(offset: u64, width: u64, value: u64) -> Call {
    Call::new(Op::Write, &[offset, width, value, 0])
}
