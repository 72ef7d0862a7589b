//! The job of `bench/measured/transactions_main.txt` in plain Rust, with the standard library alone: it
//! reads one connection's frames from standard input to its end, and gives each transaction its
//! stamp among the topics A to H and those that its frames make. It ends with status 2 at a refusal.

mod cases;
mod gate;
mod session;
#[allow(dead_code)] // It writes no frames.
mod stomp;

use cases::classify;
use gate::{Gate, Verdict};
use session::{Send, Session, Topics};
use std::error::Error;
use std::io::{Read, Write};
use std::process::ExitCode;
use stomp::Frames;

/// The topics A to H.
const NAMES: [&[u8]; 8] = [b"A", b"B", b"C", b"D", b"E", b"F", b"G", b"H"];

/// Sends a transaction through the gate, with a ticket of each of its topics.
fn commit(gate: &mut Gate, txn: Vec<Send>, clocks: &mut [u64]) -> Result<Verdict, &'static str> {
    let mut flight = gate.begin(txn)?;
    for place in 0..flight.parts().len() {
        let topic = flight.parts()[place].topic;
        let clock = &mut clocks[topic];
        *clock = flight.floor().number.max(*clock) + 1;
        flight.put(topic, *clock)?;
    }
    gate.decide(flight)
}

/// The transaction's number, its stamp and its topics.
fn write_line(verdict: &Verdict, out: &mut impl Write) -> Result<(), Box<dyn Error>> {
    let stamp = verdict.stamp;
    write!(out, "{} {}.{}", verdict.number, stamp.number, stamp.topic)?;
    for (place, row) in verdict.rows.iter().enumerate() {
        write!(out, "{}{}", if place == 0 { ' ' } else { ',' }, row.topic)?;
    }
    Ok(out.write_all(b"\n")?)
}

fn run() -> Result<(), Box<dyn Error>> {
    let mut text = Vec::new();
    stomp::input()?.read_to_end(&mut text)?;
    let mut out = stomp::output()?;
    let mut topics = Topics::new(&NAMES);
    let mut session = Session::new();
    let mut gate = Gate::new();
    let mut clocks = [0; 1_024];
    for frame in Frames::new(&text) {
        let frame = frame.map_err(|fault| fault.message())?;
        classify(&frame)?;
        if let Some(txn) = session.step(frame, &mut topics)? {
            write_line(&commit(&mut gate, txn, &mut clocks)?, &mut out)?;
        }
    }
    Ok(out.flush()?)
}

fn main() -> ExitCode {
    match run() {
        Ok(()) => ExitCode::SUCCESS,
        Err(error) => {
            eprintln!("transactions_baseline: {error}");
            ExitCode::from(2)
        }
    }
}
