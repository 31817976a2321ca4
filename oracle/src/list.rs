//! Plays generated sequences on a machine and prints the steps as a list, in the
//! format of docs/ORACLE.md.

use std::io::{self, Write};

use crate::{
    generate::Sequence,
    machine::{Machine, Recorder, Step},
};

/// The steps of the sequences 0 to `sequences` - 1 of a seed.
pub fn steps(
    machine: impl Machine,
    seed: u64,
    sequences: u64,
    calls: usize,
) -> impl Iterator<Item = Step> {
    let mut recorder = Recorder::new(machine);
    (0..sequences)
        .flat_map(move |index| Sequence::new(seed, index, calls))
        .map(move |call| recorder.step(call))
}

/// Prints a step as one line of the list.
pub fn print(out: &mut impl Write, step: &Step) -> io::Result<()> {
    let answer = &step.answer;
    write!(out, "{:x}", step.call.op as u8)?;
    let listed = answer.candidates.len() as u64;
    let changed = step.changes.len() as u64;
    let head = [answer.kind.into(), answer.payload, listed];
    let candidates = answer.candidates.iter().map(|&intid| intid.into());
    let changes = step.changes.iter();
    let words = (step.call.args.into_iter().chain(head))
        .chain(candidates)
        .chain([step.switch.into(), changed])
        .chain(changes.flat_map(|&(place, slot)| [place.into(), slot]));
    for word in words {
        write!(out, " {word:x}")?;
    }
    writeln!(out)
}

#[cfg(test)]
mod tests {
    use super::*;
    use crate::{
        calls::{Answer, Call, Op},
        driver::Oracle,
    };

    fn list(machine: impl Machine, seed: u64) -> String {
        let mut out = Vec::new();
        for step in steps(machine, seed, 30, 100) {
            print(&mut out, &step).unwrap();
        }
        String::from_utf8(out).unwrap()
    }

    #[test]
    fn a_seed_gives_one_list() {
        let first = list(Oracle::default(), 7);
        assert_eq!(first, list(Oracle::default(), 7));
        assert_ne!(first, list(Oracle::default(), 8));
    }

    #[test]
    fn a_line_is_counted_words() {
        let list = list(Oracle::default(), 9);
        assert!(list.ends_with('\n'));
        for line in list.lines() {
            let words: Vec<u64> = line
                .split(' ')
                .map(|word| u64::from_str_radix(word, 16).unwrap())
                .collect();
            let again: Vec<String> = words.iter().map(|word| format!("{word:x}")).collect();
            assert_eq!(again.join(" "), line);
            let listed = words[7] as usize;
            let changed = words[9 + listed] as usize;
            assert_eq!(words.len(), 10 + listed + 2 * changed);
        }
    }

    /// The Rust, but for one wrong bit after a number of calls: in the answer to
    /// a read, or in a slot.
    struct Wrong {
        oracle: Oracle,
        left: usize,
        in_slot: bool,
    }

    impl Machine for Wrong {
        fn run(&mut self, call: &Call) -> Answer {
            self.left = self.left.saturating_sub(1);
            let mut answer = self.oracle.run(call);
            if self.left == 0 && !self.in_slot && call.op == Op::Read {
                answer.payload ^= 1;
            }
            answer
        }

        fn switch(&self) -> bool {
            self.oracle.switch()
        }

        fn look(&mut self, slots: &mut Vec<u64>) {
            self.oracle.look(slots);
            if let (0, true, Some(slot)) = (self.left, self.in_slot, slots.last_mut()) {
                *slot ^= 1 << 20;
            }
        }
    }

    #[test]
    fn a_wrong_bit_shows_in_the_list() {
        let right = list(Oracle::default(), 7);
        for in_slot in [false, true] {
            let wrong = Wrong {
                oracle: Oracle::default(),
                left: 1000,
                in_slot,
            };
            let wrong = list(wrong, 7);
            let same = right.lines().zip(wrong.lines()).take_while(|(a, b)| a == b);
            assert!((999..1200).contains(&same.count()));
        }
    }
}
