//! A dealer's question: what is left between two gate houses of a resort's file beside the booked traffic?
//!
//!     cargo run --example headroom -- resort.net 0 3 57
use pamzolit::{Node, Plan};
use std::error::Error;
use std::process::ExitCode;
use std::{env, fs};

fn run(words: &[String]) -> Result<(), Box<dyn Error>> {
    let [path, s, t, demand] = words else {
        return Err("usage: headroom FILE NODE NODE TENTHS".into());
    };
    let plan = Plan::open(&fs::read(path)?)?;
    println!("{}", plan.headroom(Node(s.parse()?), Node(t.parse()?), demand.parse()?)?);
    Ok(())
}

fn main() -> ExitCode {
    let words: Vec<String> = env::args().skip(1).collect();
    match run(&words) {
        Ok(()) => ExitCode::SUCCESS,
        Err(e) => {
            eprintln!("headroom: {e}");
            ExitCode::FAILURE
        }
    }
}
