//! Which combinations of a slot's flags calls can reach at all.
//!
//! The search is over every host call on the one SPI of a table. Guest writes
//! do to a record only what some host call does, so they add nothing.

use std::collections::{BTreeMap, VecDeque, btree_map::Entry};

use crate::{
    calls::{Call, Op},
    machine::{
        ACTIVE, CLAIMED, EDGE, ENABLED, FIXED, INFLIGHT, LINE, MASKED, Machine, PENDING,
        REDELIVERY, ROUTED,
    },
};

/// The flags of an interrupt's life.
pub const LIFE: u64 = ENABLED | PENDING | ACTIVE | INFLIGHT | REDELIVERY | LINE | EDGE;
/// These and the claim, the fixed mark, and whether route and mask are there.
pub const FLAGS: u64 = LIFE | CLAIMED | FIXED | ROUTED | MASKED;

const SPI: u64 = 32;

/// Every reachable combination of `FLAGS`, with a shortest way to it on SPI 32.
pub fn combinations(machine: &mut impl Machine) -> BTreeMap<u64, Vec<Call>> {
    let calls: Vec<Call> = Op::by_spi().flat_map(samples).collect();
    let create = Call::new(Op::Create, &[1, 1, 0x1_0000, 0]);
    let mut found = BTreeMap::new();
    let mut ways = VecDeque::from([vec![create]]);
    let mut slots = Vec::new();
    while let Some(way) = ways.pop_front() {
        for call in &way {
            machine.run(call);
        }
        machine.look(&mut slots);
        let flags = slots[0] & FLAGS;
        if let Entry::Vacant(unknown) = found.entry(flags) {
            ways.extend(calls.iter().map(|&call| [&way[..], &[call]].concat()));
            unknown.insert(way);
        }
    }
    found
}

/// A host call on the SPI with every value of its small arguments.
pub fn samples(op: Op) -> impl Iterator<Item = Call> {
    let second = op.arguments().get(1);
    let values = second.map_or(&[0][..], |arg| arg.samples());
    values.iter().map(move |&value| Call {
        op,
        args: [SPI, value, 0, 0],
    })
}
