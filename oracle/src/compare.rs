//! Holds machines against each other, and cuts a sequence that shows a difference
//! down to a short one.

use crate::{
    calls::Call,
    machine::{Machine, Recorder, Step},
};

/// The first step in which a machine differs from the first one.
pub struct Difference {
    /// How many calls came before.
    pub at: usize,
    /// What the first machine has.
    pub step: Step,
    pub other: Other,
}

/// What the other one has.
#[derive(Debug)]
pub enum Other {
    /// The second machine's step.
    Machine(Step),
    /// How the face departs.
    Face(String),
}

/// Runs a sequence, which begins with a creation, on both machines. `follow` gets
/// each step on which they agree; the face follows so.
pub fn compare(
    calls: &[Call],
    one: impl Machine,
    other: impl Machine,
    mut follow: impl FnMut(&Step) -> Result<(), String>,
) -> Option<Difference> {
    let (mut one, mut other) = (Recorder::new(one), Recorder::new(other));
    for (at, &call) in calls.iter().enumerate() {
        let [step, second] = [one.step(call), other.step(call)];
        let other = if step != second {
            Other::Machine(second)
        } else if let Err(words) = follow(&step) {
            Other::Face(words)
        } else {
            continue;
        };
        return Some(Difference { at, step, other });
    }
    None
}

/// Leaves out whatever can be left out of a sequence so that it still shows a
/// difference: runs of calls, from long to single ones. The creation stays.
pub fn shorten(calls: &[Call], mut differs: impl FnMut(&[Call]) -> bool) -> Vec<Call> {
    let mut kept = calls.to_vec();
    let mut run = kept.len();
    while run > 0 {
        let mut from = 1;
        while from < kept.len() {
            let mut fewer = kept.clone();
            fewer.drain(from..kept.len().min(from + run));
            if differs(&fewer) {
                kept = fewer;
            } else {
                from += run;
            }
        }
        run /= 2;
    }
    kept
}

#[cfg(test)]
mod tests {
    use super::*;
    use crate::{
        calls::{Answer, Op},
        driver::Oracle,
        generate::Sequence,
    };

    /// What is wrong with a machine that is otherwise the Rust.
    #[derive(Clone, Copy, Debug)]
    enum Fault {
        Value,
        Refusal,
        Candidate,
        Untouched,
        Switch,
        Slot,
    }

    struct Wrong(Oracle, Fault);

    impl Machine for Wrong {
        fn run(&mut self, call: &Call) -> Answer {
            let mut answer = self.0.run(call);
            let (listed, places) = (answer.candidates.len(), answer.lent.len());
            match self.1 {
                Fault::Value if call.op == Op::Priority && answer.kind == 0 => answer.payload ^= 1,
                Fault::Refusal if answer.kind == 3 => answer.kind = 4,
                Fault::Candidate if listed > 1 => answer.candidates.swap(0, 1),
                Fault::Untouched if listed < places => answer.lent[places - 1] = 0,
                _ => {}
            }
            answer
        }

        fn switch(&self) -> bool {
            self.0.switch() && !matches!(self.1, Fault::Switch)
        }

        fn look(&mut self, slots: &mut Vec<u64>) {
            self.0.look(slots);
            if let (Fault::Slot, Some(slot)) = (self.1, slots.get_mut(3)) {
                *slot &= !2;
            }
        }
    }

    #[test]
    fn a_machine_agrees_with_itself() {
        for index in 0..40 {
            let calls: Vec<Call> = Sequence::new(5, index, 300).collect();
            let [one, other] = [Oracle::default(), Oracle::default()];
            assert!(compare(&calls, one, other, |_| Ok(())).is_none());
        }
    }

    #[test]
    fn every_fault_is_found_and_cut_down() {
        for fault in [
            Fault::Value,
            Fault::Refusal,
            Fault::Candidate,
            Fault::Untouched,
            Fault::Switch,
            Fault::Slot,
        ] {
            let differs = |calls: &[Call]| {
                let wrong = Wrong(Oracle::default(), fault);
                compare(calls, Oracle::default(), wrong, |_| Ok(())).is_some()
            };
            let mut sequences = (0..80).map(|index| Sequence::new(5, index, 300).collect());
            let found = sequences.find(|calls: &Vec<Call>| differs(calls));
            let found = found.unwrap_or_else(|| panic!("{fault:?} was not found"));
            let short = shorten(&found, differs);
            assert!(differs(&short));
            assert!(short.len() <= 8, "{fault:?}: {short:?}");
        }
    }
}
