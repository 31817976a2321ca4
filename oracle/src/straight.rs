//! Reads and writes on the Rust, called straight, for the benchmark. Nothing
//! stands between the loop and the Rust's own `read` and `write` but their
//! arguments.

use crate::{
    AccessWidth, DistributorState, VgicError,
    calls::{Call, Op},
    controller::ControllerConfig,
    driver,
};

/// A creation, and the accesses that follow it.
pub struct Accesses {
    config: ControllerConfig,
    accesses: Vec<Access>,
}

enum Access {
    Read {
        offset: u64,
        width: AccessWidth,
    },
    Write {
        offset: u64,
        width: AccessWidth,
        value: u64,
    },
}

impl Accesses {
    /// From a creation, and reads and writes.
    pub fn new(calls: &[Call]) -> Self {
        let access = |call: &Call| {
            let [offset, width, value, _] = call.args;
            let width = driver::width(width);
            match call.op {
                Op::Read => Access::Read { offset, width },
                Op::Write => Access::Write {
                    offset,
                    width,
                    value,
                },
                _ => panic!("{call:?} is no access"),
            }
        };
        Self {
            config: driver::config(&calls[0]),
            accesses: calls[1..].iter().map(access).collect(),
        }
    }

    /// Runs them on a new Distributor, and hands back the same sum of their
    /// answers as the library.
    pub fn sum(&self) -> u64 {
        let count = self.config.spi_count as usize;
        let mut state = DistributorState::new(count).expect("N is at most 988");
        let mut sum = Sum::default();
        for access in &self.accesses {
            match *access {
                Access::Read { offset, width } => match state.read(offset, width, &self.config) {
                    Ok(value) => sum.answer(0, value, 0),
                    Err(error) => sum.refusal(error),
                },
                Access::Write {
                    offset,
                    width,
                    value,
                } => match state.write(offset, width, value, &self.config) {
                    Ok(outcome) => {
                        let candidates = outcome.into_candidates();
                        sum.answer(0, 0, candidates.len() as u64);
                        for spi in candidates {
                            sum.more(spi.raw().into());
                        }
                    }
                    Err(error) => sum.refusal(error),
                },
            }
        }
        sum.total()
    }
}

/// A sum of answers, so that no optimiser can leave any of them out.
#[derive(Default)]
pub(crate) struct Sum(u64);

impl Sum {
    /// Turned by a bit, so that the order counts.
    pub(crate) fn more(&mut self, word: u64) {
        self.0 = self.0.rotate_left(1).wrapping_add(word);
    }

    pub(crate) fn answer(&mut self, kind: u64, payload: u64, count: u64) {
        self.more(kind);
        self.more(payload);
        self.more(count);
    }

    pub(crate) fn total(&self) -> u64 {
        self.0
    }

    #[cold]
    fn refusal(&mut self, error: VgicError) {
        let answer = driver::refusal(error);
        self.answer(answer.kind.into(), answer.payload, 0);
    }
}

#[cfg(test)]
mod tests {
    use super::*;
    use crate::{driver::Oracle, generate::Sequence, machine::Machine as _};

    /// The accesses of a sequence, refused ones included, summed up from the
    /// driver's answers.
    #[test]
    fn the_sum_is_that_of_the_drivers_answers() {
        let mut met = [false; 5];
        for index in 0..24 {
            let sequence = Sequence::new(3, index, 300);
            let mut calls: Vec<Call> = sequence
                .filter(|call| matches!(call.op, Op::Create | Op::Read | Op::Write))
                .collect();
            // The Rust has no refusal 5, and its answers need no lent list.
            for call in calls.iter_mut().filter(|call| call.op == Op::Write) {
                call.args[3] = 988;
            }
            let mut oracle = Oracle::default();
            if oracle.run(&calls[0]).kind != 0 {
                continue;
            }
            let mut sum = Sum::default();
            for call in &calls[1..] {
                let answer = oracle.run(call);
                met[usize::from(answer.kind)] = true;
                sum.answer(
                    answer.kind.into(),
                    answer.payload,
                    answer.candidates.len() as u64,
                );
                for intid in answer.candidates {
                    sum.more(intid.into());
                }
            }
            assert_eq!(Accesses::new(&calls).sum(), sum.total(), "sequence {index}");
        }
        assert_eq!(met, [true, true, false, true, true]);
    }
}
