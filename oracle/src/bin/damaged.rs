//! `damaged [SEED] [COUNT]` runs COUNT calls of the C face on damaged images, a
//! million if none is given, and holds it to the reference. It prints what was met.
//! At the first difference it prints the call and the image that show it and exits
//! 1.

use std::{
    env,
    process::{self, ExitCode},
    time::Instant,
};

use oracle::{
    damage::Trials,
    face::linked::Linked,
    image::{self, HEADER},
    machine::FRESH,
    met::Met,
    trial::{Judge, Trial},
};

fn main() -> ExitCode {
    let args: Vec<String> = env::args().skip(1).collect();
    let number = |at: usize, otherwise: u64| match args.get(at) {
        Some(arg) => arg.parse().unwrap_or_else(|_| usage()),
        None => otherwise,
    };
    let (seed, count) = (number(0, 1), number(1, 1_000_000));
    if args.len() > 2 || count == 0 {
        usage();
    }
    let began = Instant::now();
    let mut trials = Trials::new(seed);
    let mut judge = Judge::new(Linked);
    let mut met = Met::default();
    for tried in 0..count {
        let trial = trials.next_trial();
        let verdict = match judge.judge(&trial) {
            Ok(verdict) => verdict,
            Err(_) => {
                println!("difference in call {tried} of seed {seed}");
                report(&mut judge, &trial);
                return ExitCode::from(1);
            }
        };
        let behind = judge.next_refusal(&trial, verdict.refusal);
        met.note(&trial, &verdict, behind);
        trials.take(&verdict.image);
        if tried % 100_000 == 0 {
            let seconds = began.elapsed().as_secs();
            eprint!("\r{tried} of {count} calls tried, {seconds} s");
        }
    }
    eprintln!();
    println!("{met}");
    println!("{count} calls on damaged images: no difference");
    ExitCode::SUCCESS
}

/// The call, what it was lent, and how the face departs.
fn report(judge: &mut Judge<Linked>, trial: &Trial) {
    let (Trial { call, image, list }, words) = judge.shorten(trial);
    println!("{call}");
    let header = &image[..HEADER.min(image.len())];
    println!("    image of {} bytes, header {header:02x?}", image.len());
    if image.len() >= HEADER {
        for (intid, slot) in (32..).zip(image::slots(&image)) {
            if slot != FRESH {
                println!("    SPI {intid} {:02x?}", slot.to_le_bytes());
            }
        }
    }
    println!("    list of {} bytes", list.len());
    println!("    {words}");
}

fn usage() -> ! {
    eprintln!("damaged [SEED] [COUNT]");
    process::exit(2)
}
