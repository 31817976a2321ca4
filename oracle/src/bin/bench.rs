//! `bench [CALLS] [REPEATS]` times mixed reads and writes on the Rust, on the Rattle
//! Distributor by value (the core) and on its C face, and prints how many times as
//! long each of the two takes as the Rust. A sum of all answers has to be the same,
//! so that no optimiser can leave any of them out.

use std::{env, hint::black_box, process, time::Instant};

use oracle::{
    calls::{Call, Op},
    face::linked,
    generate::Random,
    rattle,
    registers::{BANKS, Bank},
    straight::Accesses,
};

const SEED: u64 = 1;

fn main() {
    let args: Vec<String> = env::args().skip(1).collect();
    let number = |at: usize, otherwise: usize| match args.get(at) {
        Some(arg) => arg.parse().unwrap_or_else(|_| usage()),
        None => otherwise,
    };
    let (count, repeats) = (number(0, 1_000_000), number(1, 9));
    if args.len() > 2 || count == 0 || repeats == 0 {
        usage();
    }
    println!("{count} reads and writes, all guest-owned, {repeats} repeats; ns a call");
    let heads = ["Rust", "core", "face", "core/Rust", "face/Rust"];
    let heads = heads.map(|head| format!("{head:>12}{:>9}", "median"));
    println!("{:>5}{}", "N", heads.concat());
    for spis in [988, 40] {
        let calls = mixed(spis, count);
        let (rust, face) = (Accesses::new(&calls), linked::Accesses::new(&calls));
        let core = rattle::encode(&calls);
        let mut times = [const { Vec::new() }; 3];
        for _ in 0..repeats {
            let sums = [
                timed(&mut times[0], || black_box(&rust).sum()),
                timed(&mut times[1], || rattle::bench(black_box(&core))),
                timed(&mut times[2], || black_box(&face).sum()),
            ];
            if sums != [sums[0]; 3] {
                println!("N = {spis}: the sums {sums:x?} of Rust, core and face differ");
                process::exit(1);
            }
        }
        // The shortest time and the median.
        let [rust, core, face] = times.map(|mut times| {
            times.sort_by(f64::total_cmp);
            [times[0], times[repeats / 2]].map(|time| time / count as f64 * 1e9)
        });
        let over_rust = |times: [f64; 2]| [times[0] / rust[0], times[1] / rust[1]];
        let rows = [rust, core, face, over_rust(core), over_rust(face)];
        let rows = rows.map(|[shortest, median]| format!("{shortest:>12.1}{median:>9.1}"));
        println!("{spis:>5}{}", rows.concat());
    }
}

fn timed(times: &mut Vec<f64>, run: impl FnOnce() -> u64) -> u64 {
    let began = Instant::now();
    let sum = run();
    times.push(began.elapsed().as_secs_f64());
    sum
}

/// A creation, and then reads and writes in turn by chance: one in 20 to CTLR,
/// TYPER, IIDR or the component bank, the others to any bank at any INTID of the
/// table. Each has a width that its register takes.
fn mixed(spis: u64, count: usize) -> Vec<Call> {
    let mut random = Random::new(SEED);
    let mut calls = vec![Call::new(Op::Create, &[spis, 0, 0x1_0000, 0])];
    while calls.len() <= count {
        let by_intid = random.below(20) > 0;
        let bank = loop {
            let bank = random.pick(&BANKS);
            if by_intid == (bank.bits > 0) {
                break bank;
            }
        };
        let width = *random.pick(bank.widths);
        let offset = match bank.bits {
            0 => bank.start + random.below(bank.end - bank.start),
            _ => bank.offset_of(32 + random.below(spis)),
        };
        let offset = offset - offset % width;
        calls.push(match random.below(2) {
            0 => Call::new(Op::Read, &[offset, width]),
            _ => Call::new(Op::Write, &[offset, width, value(bank, &mut random), spis]),
        });
    }
    calls
}

/// One bit in a flag bank, any number elsewhere.
fn value(bank: &Bank, random: &mut Random) -> u64 {
    match bank.bits {
        1 => 1 << random.below(32),
        _ => random.any(),
    }
}

fn usage() -> ! {
    eprintln!("bench [CALLS] [REPEATS]");
    process::exit(2)
}
