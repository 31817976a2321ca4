//! What is compared: a machine runs a call, and a step is what can be seen of it,
//! the answer and the whole state after it.
//!
//! A slot is an SPI's record, claim and fixed mark in one 64-bit number. From the
//! lowest byte up: the flags below from bit 0; fixed, route present and mask
//! present; priority; target mask; affinity levels 0 to 3. Absent values are 0.

use crate::calls::{Answer, Call, Op};

pub const ENABLED: u64 = 1;
pub const PENDING: u64 = 1 << 1;
pub const ACTIVE: u64 = 1 << 2;
pub const INFLIGHT: u64 = 1 << 3;
pub const REDELIVERY: u64 = 1 << 4;
pub const LINE: u64 = 1 << 5;
pub const EDGE: u64 = 1 << 6;
pub const CLAIMED: u64 = 1 << 7;
pub const FIXED: u64 = 1 << 8;
pub const ROUTED: u64 = 1 << 9;
pub const MASKED: u64 = 1 << 10;

/// A slot as creation leaves it: the default priority and nothing else.
pub const FRESH: u64 = 0x80_0000;

/// An implementation of the calls.
pub trait Machine {
    fn run(&mut self, call: &Call) -> Answer;
    /// Whether the switch is on; off where there is no Distributor.
    fn switch(&self) -> bool;
    /// Puts every slot into `slots`, by place; none where there is no
    /// Distributor.
    fn look(&mut self, slots: &mut Vec<u64>);
}

impl<M: Machine> Machine for &mut M {
    fn run(&mut self, call: &Call) -> Answer {
        (**self).run(call)
    }

    fn switch(&self) -> bool {
        (**self).switch()
    }

    fn look(&mut self, slots: &mut Vec<u64>) {
        (**self).look(slots);
    }
}

/// A call and all that can be seen of it. `changes` are the slots that differ
/// from before the call, as place and slot, ascending. A creation starts from
/// fresh slots.
#[derive(Clone, Debug, Eq, PartialEq)]
pub struct Step {
    pub call: Call,
    pub answer: Answer,
    pub switch: bool,
    pub changes: Vec<(u32, u64)>,
}

/// Runs calls on a machine and looks at its whole state after each.
pub struct Recorder<M> {
    machine: M,
    before: Vec<u64>,
    now: Vec<u64>,
}

impl<M: Machine> Recorder<M> {
    pub fn new(machine: M) -> Self {
        Self {
            machine,
            before: Vec::new(),
            now: Vec::new(),
        }
    }

    pub fn step(&mut self, call: Call) -> Step {
        let answer = self.machine.run(&call);
        self.machine.look(&mut self.now);
        if call.op == Op::Create {
            self.before.clear();
            self.before.resize(self.now.len(), FRESH);
        }
        let pairs = self.before.iter().zip(&self.now);
        let changes = (0..)
            .zip(pairs)
            .filter(|(_, (before, now))| before != now)
            .map(|(place, (_, &now))| (place, now))
            .collect();
        std::mem::swap(&mut self.before, &mut self.now);
        Step {
            call,
            answer,
            switch: self.machine.switch(),
            changes,
        }
    }
}
