//! Runs the board's examples on the Rust, a row each. Exits 1 if the Rust says
//! otherwise than the paper.

use std::process::ExitCode;

use oracle::{board, driver::Oracle};

fn main() -> ExitCode {
    let rows = board::rows(Oracle::default);
    println!(
        "{:22}{:46}{:44}{:44}",
        "case", "call", "the paper says", "the Rust says"
    );
    for row in &rows {
        let verdict = if row.agrees() { "agrees" } else { "differs" };
        let (case, call, paper, said) = (row.case, &row.call, row.paper, &row.said);
        println!("{case:22}{call:46}{paper:44}{said:44}{verdict}");
    }
    ExitCode::from(u8::from(!rows.iter().all(board::Row::agrees)))
}
