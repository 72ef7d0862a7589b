//! What each program of `stompd` writes of an input, in plain Rust: what `plain.rs` and `fuzz.rs` share.

use crate::relaying::relay;
use crate::whole_audit::audit;
use crate::whole_core::Lack;
use crate::whole_script::Script;

const INPUT_LIMIT: usize = 16_777_216;

/// The place of no event.
const NOWHERE: usize = usize::MAX;

#[derive(Clone, Copy, PartialEq, Eq, Debug)]
pub enum Job {
    Relay,
    Script,
    Trace,
    Audit,
}

/// The output and the status. The relay's topic is this one.
pub fn answer(job: Job, topic: &[u8], text: &[u8]) -> (Vec<u8>, u8) {
    if text.len() > INPUT_LIMIT {
        return (b"bad 112 TooLong\n".to_vec(), 2);
    }
    match job {
        Job::Relay => {
            let mut out = Vec::new();
            let is_whole = relay(topic, text, &mut out).expect("a vector takes all");
            (out, if is_whole { 0 } else { 2 })
        }
        Job::Audit => audit(text),
        Job::Script | Job::Trace => match Script::parse(text) {
            Ok(script) => (
                told(&script, job, NOWHERE, Lack::Nothing).expect("nothing is lacking"),
                0,
            ),
            Err(line) => (format!("bad 110 BadLine {line}\n").into_bytes(), 2),
        },
    }
}

fn told(script: &Script, job: Job, place: usize, lack: Lack) -> Option<Vec<u8>> {
    match job {
        Job::Trace => script.trace(place, lack),
        _ => script.outcomes(place, lack),
    }
}

/// The output of each run of a script in which one event lacks something that it may.
#[allow(dead_code)] // The fuzzer refuses nothing.
pub fn lacks(job: Job, text: &[u8]) -> Vec<Vec<u8>> {
    let Ok(script) = Script::parse(text) else {
        return Vec::new();
    };
    let places = 0..script.events.len();
    let kinds = [Lack::Effect, Lack::Frame, Lack::Reply];
    let runs = places.flat_map(|place| kinds.map(|lack| (place, lack)));
    runs.filter_map(|(place, lack)| told(&script, job, place, lack))
        .collect()
}
