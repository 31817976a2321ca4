//! A machine as a peer, for the tests: a refusal reads 0, and no host hears of
//! it.

use oracle::{
    calls::{Call, Op},
    machine::Machine,
};

use crate::peer::Peer;

pub struct StandIn<M> {
    pub machine: M,
    count: u64,
}

impl<M: Machine> StandIn<M> {
    pub fn new(machine: M, count: u64) -> Self {
        Self { machine, count }
    }
}

impl<M: Machine> Peer for StandIn<M> {
    fn reset(&mut self) {
        let create = Call::new(Op::Create, &[self.count, 0, 0x1_0000, 0]);
        self.machine.run(&create);
    }

    fn run(&mut self, calls: &[Call]) -> Vec<u64> {
        let mut values = Vec::new();
        for call in calls {
            let mut call = *call;
            if call.op == Op::Write {
                call.args[3] = self.count;
            }
            let answer = self.machine.run(&call);
            if call.op == Op::Read {
                values.push(if answer.kind == 0 { answer.payload } else { 0 });
            }
        }
        values
    }
}
