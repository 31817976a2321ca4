//! `list SEED SEQUENCES CALLS [--coverage]` prints a list of the oracle's answers
//! on standard output, and what it met on standard error.

use std::{
    env,
    io::{self, BufWriter, Write},
    process,
};

use oracle::{coverage::Coverage, driver::Oracle, list};

fn main() -> io::Result<()> {
    let args: Vec<String> = env::args().skip(1).collect();
    let number = |at: usize| args.get(at)?.parse::<u64>().ok();
    let (Some(seed), Some(sequences), Some(calls)) = (number(0), number(1), number(2)) else {
        usage()
    };
    if sequences == 0 || calls == 0 {
        usage();
    }
    let count = match &args[3..] {
        [] => false,
        [flag] if flag == "--coverage" => true,
        _ => usage(),
    };
    let mut out = BufWriter::new(io::stdout().lock());
    let mut coverage = Coverage::default();
    for step in list::steps(Oracle::default(), seed, sequences, calls as usize) {
        list::print(&mut out, &step)?;
        coverage.note(&step);
    }
    if count {
        eprint!("{coverage}");
    }
    out.flush()
}

fn usage() -> ! {
    eprintln!("list SEED SEQUENCES CALLS [--coverage]");
    process::exit(2)
}
