//! Short sequences of guest accesses and line changes, from a seed.
//!
//! A few SPIs of a sequence get most of its calls, so that their flags, lines
//! and triggers meet.

use oracle::{
    calls::{Call, Op},
    registers::{BANKS, Bank, WIDTHS},
};

use crate::compare::FRAME;

pub const CALLS: usize = 20;
/// Registers of the specification that have no bank: STATUSR, the four that
/// send and clear an SPI, IGRPMODR, NSACR, SGIR, CPENDSGIR, SPENDSGIR.
const OTHERS: [u64; 10] = [
    0x10, 0x40, 0x48, 0x50, 0x58, 0xd04, 0xe08, 0xf00, 0xf10, 0xf20,
];

/// Splitmix64.
struct Random(u64);

impl Random {
    fn next(&mut self) -> u64 {
        self.0 = self.0.wrapping_add(0x9e37_79b9_7f4a_7c15);
        let mut z = self.0;
        z = (z ^ z >> 30).wrapping_mul(0xbf58_476d_1ce4_e5b9);
        z = (z ^ z >> 27).wrapping_mul(0x94d0_49bb_1331_11eb);
        z ^ z >> 31
    }

    fn below(&mut self, limit: u64) -> u64 {
        self.next() % limit
    }

    fn pick<T: Copy>(&mut self, from: &[T]) -> T {
        from[self.below(from.len() as u64) as usize]
    }
}

/// The calls of one sequence, for a table of `count` SPIs.
pub fn sequence(seed: u64, index: u64, count: u64) -> Vec<Call> {
    let mut random = Random(seed);
    random.0 = random.next() ^ index;
    let edges = [32, 63, 64, 31 + count, 32 + random.below(count)];
    let near = random.pick(&edges);
    let hot = [near, (near ^ 1).min(31 + count), 32 + random.below(count)];
    let mut choice = Choice { random, hot, count };
    (0..CALLS).map(|_| choice.call()).collect()
}

struct Choice {
    random: Random,
    hot: [u64; 3],
    count: u64,
}

impl Choice {
    fn call(&mut self) -> Call {
        match self.random.below(100) {
            0..22 => {
                let high = self.random.below(2);
                let intid = self.random.pick(&self.hot);
                Call::new(Op::SetLevel, &[intid, high])
            }
            22..76 => self.at_hot(),
            76..94 => self.at_edge(),
            94..97 => {
                let offset = self.random.pick(&OTHERS);
                self.any_width(offset)
            }
            _ => {
                let offset = self.random.below(FRAME);
                self.any_width(offset)
            }
        }
    }

    /// Where a hot SPI is; one in eight in a bank that is not by INTID.
    fn at_hot(&mut self) -> Call {
        let by_intid = self.random.below(8) != 0;
        let banks: Vec<&Bank> = BANKS
            .iter()
            .filter(|bank| by_intid == (bank.bits > 0))
            .collect();
        let bank = self.random.pick(&banks);
        let made_for = self.random.below(12) != 0;
        let width = self
            .random
            .pick(if made_for { bank.widths } else { &WIDTHS });
        let offset = match bank.bits {
            0 => bank.start + self.random.below(bank.end - bank.start),
            _ => bank.offset_of(self.random.pick(&self.hot)),
        };
        self.access(offset - offset % width, width)
    }

    /// Any width at and around the ends of a bank, of the table in it and, past
    /// the component bank, of the frame.
    fn at_edge(&mut self) -> Call {
        let at = self.random.below(BANKS.len() as u64);
        let bank = &BANKS[at as usize];
        let table = [bank.offset_of(32), bank.offset_of(32 + self.count)];
        let edge = self
            .random
            .pick(&[bank.start, bank.last(), bank.end, table[0], table[1]]);
        let near = self.random.pick(&[0, 0, 1, 2, 4, 8]);
        let offset = match self.random.below(2) {
            0 => edge + near,
            _ => edge.saturating_sub(near),
        };
        self.any_width(offset)
    }

    /// One in eight is misaligned where the offset allows it.
    fn any_width(&mut self, offset: u64) -> Call {
        let width = self.random.pick(&WIDTHS);
        let aligned = self.random.below(8) != 0;
        self.access(
            if aligned {
                offset - offset % width
            } else {
                offset
            },
            width,
        )
    }

    fn access(&mut self, offset: u64, width: u64) -> Call {
        if self.random.below(5) < 2 {
            return Call::new(Op::Read, &[offset, width]);
        }
        let value = self.value(offset);
        Call::new(Op::Write, &[offset, width, value, self.count])
    }

    /// Mostly the hot SPIs' bits; else any bits, few, all or none.
    fn value(&mut self, offset: u64) -> u64 {
        let any = self.random.next();
        let bank = BANKS.iter().find(|bank| bank.holds(offset));
        match (self.random.below(10), bank) {
            (0, _) => u64::MAX,
            (1, _) => 0,
            (2, _) => any & self.random.next() & self.random.next(),
            (3.., Some(bank @ Bank { bits: 1 | 2, .. })) => {
                let mut value = 0;
                for intid in self.hot {
                    if bank.offset_of(intid) & !3 == offset && self.random.below(3) > 0 {
                        value |= bank.bits << (intid * bank.bits % 32);
                    }
                }
                value
            }
            (3..7, Some(Bank { bits: 64, .. })) => any & 0xff_00ff_ffff,
            _ => any,
        }
    }
}
