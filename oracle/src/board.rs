//! The board's examples, with what the paper says to each.
//!
//! K has N = 40, explicit claims and a whole frame; 33 and 64 are claimed by
//! software, 65 physically with affinity 0.0.0.1.

use crate::{
    calls::{Call, Op},
    machine::{Machine, Recorder, Step},
};

/// What is done first, then calls with what the paper says to each.
struct Case {
    name: &'static str,
    first: Vec<Call>,
    asked: Vec<(Call, &'static str)>,
}

/// A call that was asked, what the paper says to it and what the machine said.
pub struct Row {
    pub case: &'static str,
    pub call: String,
    pub paper: &'static str,
    pub said: String,
}

impl Row {
    pub fn agrees(&self) -> bool {
        self.paper == self.said
    }
}

/// Every example, run on a machine.
pub fn rows<M: Machine>(machine: fn() -> M) -> Vec<Row> {
    let mut rows = Vec::new();
    for case in cases() {
        let mut recorder = Recorder::new(machine());
        for call in case.first {
            recorder.step(call);
        }
        for (call, paper) in case.asked {
            rows.push(Row {
                case: case.name,
                call: words(&call),
                paper,
                said: said(&recorder.step(call)),
            });
        }
    }
    rows
}

fn cases() -> Vec<Case> {
    let case = |name, first: &[&[Call]], asked: &[(Call, &'static str)]| Case {
        name,
        first: first.concat(),
        asked: asked.to_vec(),
    };
    let k = &k()[..];
    let seven = 0x8877_6655_4433_2211;
    let enable = Call::new(Op::SetEnabled, &[33, 1]);
    let high = Call::new(Op::SetLevel, &[33, 1]);
    let pulse = Call::new(Op::Pulse, &[33]);
    let release = Call::new(Op::Release, &[33]);
    vec![
        case(
            "1",
            &[],
            &[
                (create(988, 1, 0), "done"),
                (create(989, 1, 0), "refusal 1 (1020)"),
            ],
        ),
        case(
            "2",
            &[k],
            &[(read(0xffe8, 4), "0x3b"), (read(0xffe8, 1), "refusal 4")],
        ),
        case(
            "3",
            &[k],
            &[(read(0xffe9, 1), "0x0"), (read(0x102, 4), "refusal 3")],
        ),
        case("4", &[k], &[(read(u64::MAX - 3, 4), "refusal 3")]),
        case("5", &[k], &[(read(0x4, 4), "0x780002")]),
        case(
            "6",
            &[k],
            &[
                (
                    write(0x108, 4, 0x1ff),
                    "refusal 1 (72), lists none, changes 64 65",
                ),
                (Call::new(Op::Enabled, &[64]), "0x1"),
                (Call::new(Op::Enabled, &[65]), "0x1"),
            ],
        ),
        case(
            "7",
            &[k],
            &[(
                write(0x17c, 4, 0xf000_0000),
                "done, lists none, changes none",
            )],
        ),
        case(
            "8",
            &[k, &[write(0x6108, 8, 0x1_8002_0304)]],
            &[(read(0x6108, 8), "0x100020304")],
        ),
        case(
            "9",
            &[k, &[write(0x6208, 8, 2)]],
            &[(read(0x6208, 8), "0x1")],
        ),
        case(
            "10",
            &[k, &[high, write(0x284, 4, 2)]],
            &[(Call::new(Op::Pending, &[33]), "0x0")],
        ),
        case(
            "11",
            &[k, &[enable, pulse, release]],
            &[(write(0x0, 4, 2), "done, lists 33, changes none")],
        ),
        case(
            "12",
            &[&[create(988, 0, 0), write(0x7f8, 8, seven)]],
            &[(read(0x7f8, 8), "0x44332211")],
        ),
        case("N=0", &[&[create(0, 1, 0)]], &[(read(0x4, 4), "0x780000")]),
        case(
            "N=988",
            &[&[create(988, 1, 0)]],
            &[(read(0x4, 4), "0x78001f")],
        ),
        case(
            "ITS, LPI limit 65535",
            &[&[create(40, 1 | ITS, 65535)]],
            &[(read(0x4, 4), "0x780002")],
        ),
        case(
            "ITS, LPI limit 65536",
            &[&[create(40, 1 | ITS, 65536)]],
            &[(read(0x4, 4), "0x800002")],
        ),
        case("IGROUPR", &[k], &[(read(0x84, 4), "0x2")]),
    ]
}

const ITS: u64 = 4;

fn k() -> [Call; 4] {
    [
        create(40, 1, 0),
        Call::new(Op::ClaimSoftware, &[33]),
        Call::new(Op::ClaimSoftware, &[64]),
        Call::new(Op::ClaimPhysical, &[65, 1]),
    ]
}

fn create(count: u64, settings: u64, lpi_limit: u64) -> Call {
    Call::new(Op::Create, &[count, settings, 0x1_0000, lpi_limit])
}

fn read(offset: u64, width: u64) -> Call {
    Call::new(Op::Read, &[offset, width])
}

/// A write with a list long enough for any table.
fn write(offset: u64, width: u64, value: u64) -> Call {
    Call::new(Op::Write, &[offset, width, value, 988])
}

fn words(call: &Call) -> String {
    let args = &call.args[..call.op.arguments().len()];
    let args = args.iter().map(|arg| format!(" {arg:#x}"));
    call.op.name().to_string() + &args.collect::<String>()
}

fn said(step: &Step) -> String {
    let answer = &step.answer;
    let outcome = match (answer.kind, step.call.op) {
        (0, Op::Create | Op::Write) => "done".into(),
        (0, _) => format!("{:#x}", answer.payload),
        (1, _) => format!("refusal 1 ({})", answer.payload),
        (kind, _) => format!("refusal {kind}"),
    };
    if step.call.op != Op::Write {
        return outcome;
    }
    let listed = intids(answer.candidates.iter().copied());
    let changed = intids(step.changes.iter().map(|(place, _)| 32 + place));
    format!("{outcome}, lists {listed}, changes {changed}")
}

fn intids(intids: impl Iterator<Item = u32>) -> String {
    let intids: Vec<String> = intids.map(|intid| intid.to_string()).collect();
    match intids.len() {
        0 => "none".into(),
        _ => intids.join(" "),
    }
}

#[cfg(test)]
mod tests {
    use super::*;
    use crate::{calls::Answer, driver::Oracle};

    #[test]
    fn the_rust_says_what_the_paper_says() {
        let rows = rows(Oracle::default);
        for row in &rows {
            assert_eq!(row.said, row.paper, "case {}, {}", row.case, row.call);
        }
        for number in 1..=12 {
            assert!(rows.iter().any(|row| row.case == number.to_string()));
        }
    }

    /// Keeps nothing and answers 0 to everything.
    struct Empty;

    impl Machine for Empty {
        fn run(&mut self, _: &Call) -> Answer {
            Answer::default()
        }

        fn switch(&self) -> bool {
            false
        }

        fn look(&mut self, slots: &mut Vec<u64>) {
            slots.clear();
        }
    }

    #[test]
    fn the_board_stops_a_machine_that_does_nothing() {
        let agreed: Vec<String> = rows(|| Empty)
            .into_iter()
            .filter(Row::agrees)
            .map(|row| row.case.to_string())
            .collect();
        assert_eq!(agreed, ["1", "3", "7", "10"]);
    }
}
