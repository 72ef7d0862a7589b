//! A plain auditor of the rows that bench/audit makes: hash maps, standard sorts, and no proof. It shares no code with
//! the crates. It reads the rows from standard input and writes what it finds, as bench/measured/audit_main.txt does.

use std::collections::{BTreeMap, HashMap};
use std::io::{self, Read};

type Id = (u64, u64);
type Stamp = (u64, u32);

struct Row {
    topic: u32,
    id: Id,
    topics: Vec<u32>,
    stamp: Stamp,
}

#[derive(Default)]
struct Trace {
    logs: Vec<Row>,
    spans: BTreeMap<u64, (u32, Stamp)>,
    queues: HashMap<u64, Vec<(Id, Stamp)>>,
}

fn add(trace: &mut Trace, numbers: &[u64]) -> Option<()> {
    match *numbers {
        [0, topic, sender, seq, n, t, ref named @ ..] => {
            let topics: Vec<u32> = named.iter().map(|&name| name as u32).collect();
            let rises = topics.windows(2).all(|two| two[0] < two[1]);
            if !rises || !topics.contains(&(topic as u32)) {
                return None;
            }
            trace.logs.push(Row {
                topic: topic as u32,
                id: (sender, seq),
                topics,
                stamp: (n, t as u32),
            });
        }
        [1, sub, topic, n, t] => {
            if trace.spans.insert(sub, (topic as u32, (n, t as u32))).is_some() {
                return None;
            }
            trace.queues.insert(sub, Vec::new());
        }
        [2, sub, sender, seq, n, t] => {
            trace.queues.get_mut(&sub)?.push(((sender, seq), (n, t as u32)));
        }
        _ => return None,
    }
    Some(())
}

/// The rows by rising stamp, and whether each is in each of its topics' logs; or the fault's number.
fn audit(trace: &Trace) -> Result<(Vec<(Id, Vec<u32>, Stamp)>, bool), u32> {
    let mut first: HashMap<Id, &Row> = HashMap::new();
    for row in &trace.logs {
        let other = first.entry(row.id).or_insert(row);
        if other.stamp != row.stamp || other.topics != row.topics {
            return Err(93);
        }
    }
    let mut agreed: Vec<&Row> = first.into_values().collect();
    agreed.sort_unstable_by_key(|row| row.stamp);
    if agreed.windows(2).any(|two| two[0].stamp == two[1].stamp) {
        return Err(97);
    }
    let mut logs: HashMap<u32, Vec<(Stamp, Id)>> = HashMap::new();
    for row in &trace.logs {
        let log = logs.entry(row.topic).or_default();
        if log.last().is_some_and(|last| last.0 >= row.stamp) {
            return Err(92);
        }
        log.push((row.stamp, row.id));
    }
    let mut seqs: HashMap<u64, u64> = HashMap::new();
    for row in &agreed {
        if seqs.insert(row.id.0, row.id.1).is_some_and(|seq| seq >= row.id.1) {
            return Err(94);
        }
    }
    let mut complete = true;
    for row in &agreed {
        for topic in &row.topics {
            let log = logs.get(topic).map_or(&[][..], Vec::as_slice);
            if log.binary_search_by_key(&row.stamp, |own| own.0).is_err() {
                complete = false;
                if log.last().is_some_and(|last| last.0 >= row.stamp) {
                    return Err(95);
                }
            }
        }
    }
    for (sub, (topic, from)) in &trace.spans {
        let log = logs.get(topic).map_or(&[][..], Vec::as_slice);
        let due = &log[log.partition_point(|own| own.0 <= *from)..];
        let queue = &trace.queues[sub];
        if due.len() != queue.len() || !due.iter().zip(queue).all(|(a, b)| a.0 == b.1 && a.1 == b.0) {
            return Err(96);
        }
    }
    let rows = agreed.iter().map(|row| (row.id, row.topics.clone(), row.stamp));
    Ok((rows.collect(), complete))
}

fn main() {
    let mut text = Vec::new();
    io::stdin().read_to_end(&mut text).expect("input");
    let (mut trace, mut numbers, mut number) = (Trace::default(), Vec::new(), 0u64);
    for octet in text {
        match octet {
            b' ' => {
                numbers.push(number);
                number = 0;
            }
            b'\n' => {
                add(&mut trace, &numbers).expect("a row");
                numbers.clear();
            }
            _ => number = number * 10 + u64::from(octet - b'0'),
        }
    }
    match audit(&trace) {
        Ok((rows, complete)) => {
            println!("{} {}", if complete { "complete" } else { "agreed" }, rows.len());
        }
        Err(number) => println!("{number}"),
    }
}
