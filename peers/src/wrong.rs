//! A machine with one wrong bit, to show that a wrong machine is found.

use oracle::{
    calls::{Answer, Call, Op},
    machine::Machine,
    registers::{BANKS, Bank},
};

/// Turns bit 1 of what one bank reads, or of what is written to it.
pub struct Wrong {
    machine: Box<dyn Machine>,
    op: Op,
    bank: &'static Bank,
}

impl Wrong {
    pub fn new(machine: Box<dyn Machine>, op: Op, bank: &'static Bank) -> Self {
        Self { machine, op, bank }
    }

    pub fn by_words(machine: Box<dyn Machine>, words: &[String]) -> Option<Self> {
        let [op, name] = words else { return None };
        let op = match op.as_str() {
            "read" => Op::Read,
            "write" => Op::Write,
            _ => return None,
        };
        let bank = BANKS.iter().find(|bank| bank.name == name)?;
        Some(Self::new(machine, op, bank))
    }
}

impl Machine for Wrong {
    fn run(&mut self, call: &Call) -> Answer {
        let wrong = call.op == self.op && self.bank.holds(call.args[0]);
        let mut call = *call;
        if wrong && self.op == Op::Write {
            call.args[2] ^= 1 << 1;
        }
        let mut answer = self.machine.run(&call);
        if wrong && self.op == Op::Read && answer.kind == 0 {
            answer.payload ^= 1 << 1;
        }
        answer
    }

    fn switch(&self) -> bool {
        self.machine.switch()
    }

    fn look(&mut self, slots: &mut Vec<u64>) {
        self.machine.look(slots);
    }
}
