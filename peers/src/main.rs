//! `peers [SEED] [COUNT] [--wrong read|write BANK]` holds the Rattle Distributor
//! against QEMU's, in COUNT calls from a seed, and lists every difference by register
//! with the entry of docs/DIFFERENCES.md that explains it. Exits 1 if one has no
//! entry, 2 if it cannot run.

use std::{
    env, fs, io,
    process::{self, ExitCode},
};

use oracle::{machine::Machine, rattle::Rattle};
use peers::{PAGE, compare::Pair, qemu::Qemu, report::Report, wrong::Wrong};

/// The machine that is held against the peer.
fn ours() -> Box<dyn Machine> {
    Box::new(Rattle::default())
}

fn main() -> ExitCode {
    let args: Vec<String> = env::args().skip(1).collect();
    let (numbers, wrong) = match args.iter().position(|arg| arg == "--wrong") {
        Some(at) => (&args[..at], Some(&args[at + 1..])),
        None => (&args[..], None),
    };
    let number = |at: usize, default: u64| match numbers.get(at) {
        Some(text) => text.parse().unwrap_or_else(|_| usage()),
        None => default,
    };
    let (seed, calls) = (number(0, 1), number(1, 10_000));
    if numbers.len() > 2 || calls == 0 {
        usage();
    }
    let mut machine = match wrong {
        Some(words) => Box::new(Wrong::by_words(ours(), words).unwrap_or_else(|| usage())),
        None => ours(),
    };
    let started = Qemu::version().and_then(|version| Ok((version, Qemu::start()?)));
    let (version, mut qemu) = match started {
        Ok(both) => both,
        Err(error) => return no_qemu(&error),
    };
    let page = fs::read_to_string(PAGE).expect("docs/DIFFERENCES.md");
    let mut pair = Pair::new(&mut *machine, &mut qemu);
    println!(
        "QEMU {version}: N = {}, TYPER {:#x}",
        pair.count, pair.typer
    );
    let report = Report::new(&mut pair, seed, calls);
    print!("{}", report.text(&page));
    let unexplained = report.unexplained(&page);
    println!(
        "seed {seed}: {} accesses and {} line changes, {} of them alike",
        report.accesses, report.lines, report.alike
    );
    println!(
        "{} differences by register, {unexplained} unexplained",
        report.groups.len()
    );
    ExitCode::from(u8::from(unexplained > 0))
}

fn no_qemu(error: &io::Error) -> ExitCode {
    match error.kind() {
        io::ErrorKind::NotFound => {
            eprintln!("peers: no qemu-system-aarch64 here; on Debian: apt install qemu-system-arm");
        }
        _ => eprintln!("peers: {error}"),
    }
    ExitCode::from(2)
}

fn usage() -> ! {
    eprintln!("peers [SEED] [COUNT] [--wrong read|write BANK]");
    process::exit(2)
}
