//! The Rattle Distributor as a machine, over the static library `harness_batch`.
//!
//! The library runs a whole sequence in one call and hands back all that is seen
//! of it; no state is kept between two calls. So the machine is told which calls
//! will come (`announce`) and runs them at once. A call that was not announced
//! makes it run all calls since the last creation again.

use crate::{
    calls::{Answer, Call, Op},
    machine::Machine,
    slices::{Slice, lend, lend_mut},
};

// Safe, since a `Slice` comes from lent bytes alone.
unsafe extern "C" {
    safe fn batch_run(calls: Slice<*const u8>, seen: Slice<*mut u8>) -> usize;
    safe fn batch_bench(calls: Slice<*const u8>) -> u64;
}

/// Each call as 33 bytes: its number, and its arguments of 8 bytes each, the
/// lowest first.
pub fn encode(calls: &[Call]) -> Vec<u8> {
    let mut bytes = Vec::with_capacity(33 * calls.len());
    for call in calls {
        bytes.push(call.op as u8);
        bytes.extend(call.args.iter().flat_map(|arg| arg.to_le_bytes()));
    }
    bytes
}

/// Runs a creation and then reads and writes, and hands back a sum of their
/// answers.
pub fn bench(calls: &[u8]) -> u64 {
    batch_bench(lend(calls))
}

#[derive(Default)]
pub struct Rattle {
    /// The calls from the last creation on, those announced included.
    calls: Vec<Call>,
    /// What the library hands back of them.
    seen: Vec<u8>,
    /// How many of the calls were asked for, and how many bytes of `seen` they
    /// take.
    ran: usize,
    at: usize,
    switch: bool,
    slots: Vec<u64>,
}

impl Rattle {
    /// The calls that will come, from a creation on.
    pub fn announce(&mut self, calls: &[Call]) {
        self.calls = calls.to_vec();
        self.ran = 0;
        self.at = 0;
        self.play();
    }

    fn play(&mut self) {
        let calls = encode(&self.calls);
        loop {
            let bytes = batch_run(lend(&calls), lend_mut(&mut self.seen));
            if bytes <= self.seen.len() {
                return;
            }
            self.seen.resize(bytes, 0);
        }
    }

    /// The next bytes.
    fn take<const BYTES: usize>(&mut self) -> [u8; BYTES] {
        let rest = &self.seen[self.at..];
        self.at += BYTES;
        *rest.first_chunk().expect("a call is seen whole")
    }

    fn u8(&mut self) -> u8 {
        u8::from_le_bytes(self.take())
    }

    fn u32(&mut self) -> u32 {
        u32::from_le_bytes(self.take())
    }

    fn u64(&mut self) -> u64 {
        u64::from_le_bytes(self.take())
    }
}

impl Machine for Rattle {
    fn run(&mut self, call: &Call) -> Answer {
        if self.calls.get(self.ran) != Some(call) {
            self.calls.truncate(self.ran);
            if call.op == Op::Create {
                self.calls.clear();
                self.ran = 0;
                self.at = 0;
            }
            self.calls.push(*call);
            self.play();
        }
        self.ran += 1;
        let kind = self.u8();
        let payload = self.u64();
        let count = self.u32() as usize;
        self.switch = self.u8() != 0;
        let places = self.u32();
        let lent: Vec<u32> = (0..places).map(|_| self.u32()).collect();
        let slots = self.u32();
        self.slots = (0..slots).map(|_| self.u64()).collect();
        Answer {
            kind,
            payload,
            candidates: lent.iter().copied().take(count).collect(),
            lent,
        }
    }

    fn switch(&self) -> bool {
        self.switch
    }

    fn look(&mut self, slots: &mut Vec<u64>) {
        slots.clone_from(&self.slots);
    }
}

#[cfg(test)]
mod tests {
    use super::*;
    use crate::{board, driver::Oracle, generate::Sequence};

    #[test]
    fn the_boards_examples_come_out_as_the_paper_has_them() {
        for row in board::rows(Rattle::default) {
            assert!(row.agrees(), "{} {}: {}", row.case, row.call, row.said);
        }
    }

    #[test]
    fn a_call_and_what_is_seen_of_it_have_the_bytes_of_the_page() {
        let calls = encode(&[Call::new(Op::Create, &[2, 0, 0x1_0203, 0])]);
        assert_eq!(calls.len(), 33);
        assert_eq!(calls[..2], [0x10, 2]);
        assert_eq!(calls[17..21], [3, 2, 1, 0]);
        let mut seen = [0xff; 39];
        assert_eq!(batch_run(lend(&calls), lend_mut(&mut seen)), 38);
        let fresh = [0, 0, 0x80, 0, 0, 0, 0, 0];
        assert_eq!(seen[..18], [0; 18]);
        assert_eq!(seen[18..22], [2, 0, 0, 0]);
        assert_eq!(seen[22..], [&fresh[..], &fresh, &[0xff]].concat());
    }

    #[test]
    fn what_has_no_room_is_left_out() {
        let calls = encode(&[Call::new(Op::Create, &[2, 0, 0x1_0000, 0])]);
        let mut seen = [0xff; 38];
        assert_eq!(batch_run(lend(&calls), lend_mut(&mut seen[..20])), 38);
        assert_eq!(seen[18..], [&[2, 0][..], &[0xff; 18]].concat());
    }

    #[test]
    fn calls_that_were_not_announced_are_answered_too() {
        let (mut rattle, mut oracle) = (Rattle::default(), Oracle::default());
        let (mut seen, mut expected) = (Vec::new(), Vec::new());
        let sequences = [12, 13].map(|index| Sequence::new(9, index, 120));
        for call in sequences.into_iter().flatten() {
            assert_eq!(rattle.run(&call), oracle.run(&call));
            assert_eq!(rattle.switch(), oracle.switch());
            rattle.look(&mut seen);
            oracle.look(&mut expected);
            assert_eq!(seen, expected);
        }
    }
}
