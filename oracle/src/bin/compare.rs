//! `compare [SEED] [COUNT]` runs fresh sequences on three machines, the Rust, the
//! Rattle Distributor and its C face, until COUNT calls are compared, a million if
//! none is given. Each seed from SEED on gives 64 sequences. At the first difference
//! it prints a short sequence that shows it and exits 1.

use std::{
    env,
    io::{self, Write},
    process::{self, ExitCode},
    time::Instant,
};

use oracle::{
    calls::Call,
    compare::{Difference, Other, compare, shorten},
    coverage::Coverage,
    driver::Oracle,
    face::{Follower, linked::Linked},
    generate::Sequence,
    list,
    machine::Step,
    rattle::Rattle,
};

/// The calls of a long sequence.
const CALLS: usize = 300;
/// The sequences of one seed. The first seed takes those with index 0 to 63, the
/// next those from 64 on, and so on to 511 and from 0 again: a seed's first
/// sequences have chosen sizes, and each short one a frame of its own.
const OF_A_SEED: u64 = 64;
const INDICES: u64 = 512;

fn main() -> ExitCode {
    let args: Vec<String> = env::args().skip(1).collect();
    let number = |at: usize, otherwise: u64| match args.get(at) {
        Some(arg) => arg.parse().unwrap_or_else(|_| usage()),
        None => otherwise,
    };
    let (first, count) = (number(0, 1), number(1, 1_000_000));
    if args.len() > 2 || count == 0 {
        usage();
    }
    let began = Instant::now();
    let mut coverage = Coverage::default();
    let mut machines = Machines {
        core: Rattle::default(),
        face: Follower::new(Linked),
    };
    let (mut compared, mut told) = (0, 0);
    for sequence in 0.. {
        let seed = first.wrapping_add(sequence / OF_A_SEED);
        let index = sequence % INDICES;
        let calls: Vec<Call> = Sequence::new(seed, index, CALLS).collect();
        let note = |step: &_| coverage.note(step);
        if let Some(difference) = machines.differ(&calls, note) {
            println!(
                "difference in sequence {index} of seed {seed}, call {}",
                difference.at
            );
            report(&mut machines, &calls);
            return ExitCode::from(1);
        }
        compared += calls.len() as u64;
        if compared >= count {
            eprintln!();
            println!("{coverage}");
            let seeds = sequence / OF_A_SEED + 1;
            println!(
                "{compared} calls compared in {} sequences of {seeds} seeds: no difference",
                sequence + 1
            );
            break;
        }
        if compared / 100_000 > told {
            told = compared / 100_000;
            let seconds = began.elapsed().as_secs();
            eprint!("\r{compared} of {count} calls compared, {seconds} s");
        }
    }
    ExitCode::SUCCESS
}

/// Those that are held to the Rust.
struct Machines {
    core: Rattle,
    face: Follower<Linked>,
}

impl Machines {
    fn differ(&mut self, calls: &[Call], mut note: impl FnMut(&Step)) -> Option<Difference> {
        let Self { core, face } = self;
        core.announce(calls);
        compare(calls, Oracle::default(), core, |step| {
            note(step);
            face.follow(step)
        })
    }
}

/// The shortest sequence that was found, as lines of a list, and what each
/// machine has in the last.
fn report(machines: &mut Machines, calls: &[Call]) {
    let short = shorten(calls, |calls| machines.differ(calls, |_| ()).is_some());
    let difference = machines.differ(&short, |_| ()).expect("it still differs");
    println!("{} calls show it:", difference.at + 1);
    for Call {
        op,
        args: [a, b, c, d],
    } in &short[..=difference.at]
    {
        println!(
            "    {:x} {a:x} {b:x} {c:x} {d:x}    {}",
            *op as u8,
            op.name()
        );
    }
    print("the Rust", &difference.step);
    match difference.other {
        Other::Machine(step) => {
            print("Rattle", &step);
            if step.answer.lent != difference.step.answer.lent {
                println!("         the lent list {:x?}", step.answer.lent);
            }
        }
        Other::Face(words) => println!("the face {words}"),
    }
}

fn print(name: &str, step: &Step) {
    let mut out = io::stdout().lock();
    write!(out, "{name:8} ").ok();
    list::print(&mut out, step).ok();
}

fn usage() -> ! {
    eprintln!("compare [SEED] [COUNT]");
    process::exit(2)
}
