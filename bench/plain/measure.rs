//! Times a program and its baseline on each input of a benchmark and prints the table:
//! `measure frames|pieces|transactions|topic|group|core|locks|script|audit PROGRAM BASELINE FOLDER`, or `measure relay` with the floor
//! before the folder, or `measure held PROGRAM FOLDER`. It refuses outputs that differ, and judges no time. `measure once INPUT WORDS`
//! runs one command once.

use std::env;
use std::fs::{self, File};
use std::io::{self, BufRead, BufReader, Read};
use std::path::{Path, PathBuf};
use std::process::{Command, ExitCode};
use std::time::{Duration, Instant};

const RELAY_INPUTS: [&str; 5] = ["bodies-16", "bodies-1K", "bodies-64K", "bodies-1M", "headers"];
const FRAMES: Rate = Rate {
    inputs: &["receipts", "sessions"],
    unit: "frames",
    program: "stomp_frame",
    counts: |_| true,
};
const TRANSACTIONS: Rate = Rate {
    inputs: &["transactions"],
    unit: "transactions",
    program: "sender_gate",
    counts: is_transaction,
};
const TOPIC: Rate = Rate {
    inputs: &["topic-1", "topic-16", "topic-256", "topic-1000"],
    unit: "transactions",
    program: "mcast_group",
    counts: is_body,
};

const GROUP: Rate = Rate {
    inputs: &[
        "group-1", "group-16", "group-256", "group-1000", "group-65000", "drawn-16", "drawn-1000",
        "drawn-65000", "turn-16", "turn-1000", "turn-65000", "drain-16", "drain-1000", "drain-65000",
    ],
    unit: "transactions",
    program: "mcast_group",
    counts: is_body,
};

/// The octets of a piece; at 0 all of the input is one piece.
const PIECES: [&str; 5] = ["0", "1", "16", "4096", "65536"];
const CORE_INPUTS: [&str; 6] = [
    "core-one",
    "core-subscribers",
    "core-connections",
    "core-undecided",
    "core-uses",
    "core-claims",
];
const SCRIPT_INPUTS: [&str; 3] = ["script-transactions", "script-bodies", "script-connections"];
/// Whether threads have topics of their own, how many topics a transaction has, how many threads commit, and how many
/// transactions all of them commit. Each topic has two subscriptions.
const LOCKS_TOPICS: [&str; 2] = ["own", "same"];
const LOCKS_COUNTS: [(&str, f64); 3] = [("1", 1.0), ("2", 2.0), ("4", 4.0)];
const LOCKS_COMMITS: (&str, f64) = ("240000", 240_000.0);
const LOCKS_SUBSCRIPTIONS: f64 = 2.0;
/// How many subscriptions the topic of a held transaction has, and how many transactions are committed behind it, each with a
/// turn of its topic.
const LOCKS_HELD: [(&str, &str, f64); 4] = [
    ("0", "1000", 1_000.0),
    ("0", "10000", 10_000.0),
    ("0", "40000", 40_000.0),
    ("1", "10000", 10_000.0),
];
const AUDIT_INPUTS: [&str; 3] = ["one-topic", "subscriptions", "many-topics"];
const RUNS: usize = 5;

/// What one program took: the best time by the clock, the best processor time, and the largest peak of all its runs.
#[derive(Clone, Copy)]
struct Cost {
    time: Duration,
    processor: Duration,
    peak: u64,
}

impl Cost {
    const NONE: Cost = Cost {
        time: Duration::MAX,
        processor: Duration::MAX,
        peak: 0,
    };

    fn add(&mut self, other: Cost) {
        self.time = self.time.min(other.time);
        self.processor = self.processor.min(other.processor);
        self.peak = self.peak.max(other.peak);
    }

    fn milliseconds(self) -> f64 {
        self.time.as_secs_f64() * 1_000.0
    }

    fn processor_milliseconds(self) -> f64 {
        self.processor.as_secs_f64() * 1_000.0
    }

    fn mebibytes(self) -> f64 {
        self.peak as f64 / 1_048_576.0
    }
}

/// A child's use of the machine, as `wait4` of Linux on 64-bit processors tells it.
#[repr(C)]
#[derive(Default)]
struct Usage {
    user: [i64; 2],
    system: [i64; 2],
    peak_kibibytes: i64,
    others: [i64; 13],
}

impl Usage {
    /// The time of the program and of the system for it.
    fn processor(&self) -> Duration {
        let [seconds, micros] = [0, 1].map(|place| (self.user[place] + self.system[place]) as u64);
        Duration::from_secs(seconds) + Duration::from_micros(micros)
    }
}

unsafe extern "C" {
    fn wait4(child: i32, status: *mut i32, options: i32, usage: *mut Usage) -> i32;
}

/// Waits for the child to end; its raw status (0 where it ended with 0) and its use.
fn wait(child: u32) -> io::Result<(i32, Usage)> {
    let (mut status, mut usage) = (0, Usage::default());
    // Safe: both places are of this call alone, with the layout that Linux gives them.
    let ended = unsafe { wait4(child as i32, &mut status, 0, &mut usage) };
    if ended < 0 {
        Err(io::Error::last_os_error())
    } else {
        Ok((status, usage))
    }
}

/// Runs the program once, from one file to another.
fn run(words: &[&str], input: &Path, output: &Path) -> io::Result<Cost> {
    let mut command = Command::new(words[0]);
    command.args(&words[1..]);
    command
        .stdin(File::open(input)?)
        .stdout(File::create(output)?);
    let start = Instant::now();
    let child = command.spawn()?;
    let (status, usage) = wait(child.id())?;
    let time = start.elapsed();
    if status != 0 {
        let told = format!(
            "{} on {}: wait status {status}",
            words.join(" "),
            input.display()
        );
        return Err(io::Error::other(told));
    }
    Ok(Cost {
        time,
        processor: usage.processor(),
        peak: usage.peak_kibibytes as u64 * 1_024,
    })
}

/// Whether two files have the same octets. It keeps to small buffers, since a child's peak
/// counts what its parent held when it was started.
fn are_equal(left: &Path, right: &Path) -> io::Result<bool> {
    if fs::metadata(left)?.len() != fs::metadata(right)?.len() {
        return Ok(false);
    }
    let left = BufReader::new(File::open(left)?).bytes();
    let right = BufReader::new(File::open(right)?).bytes();
    for (one, other) in left.zip(right) {
        if one? != other? {
            return Ok(false);
        }
    }
    Ok(true)
}

/// Runs each program so many times by turns; what each took. The first two must write the same, and the third if
/// there are four.
fn measure<const N: usize>(
    programs: [&[&str]; N],
    folder: &Path,
    name: &str,
) -> io::Result<[Cost; N]> {
    let input = folder.join(name).with_extension("stomp");
    let outputs: [PathBuf; N] =
        std::array::from_fn(|place| folder.join(name).with_extension(format!("{place}.out")));
    let mut costs = [Cost::NONE; N];
    for _ in 0..RUNS {
        for place in 0..N {
            costs[place].add(run(programs[place], &input, &outputs[place])?);
        }
        for place in 1..(N - 1).max(2) {
            if !are_equal(&outputs[0], &outputs[place])? {
                return Err(io::Error::other(format!(
                    "{name}: the outputs of {} and {} differ",
                    programs[0][0], programs[place][0]
                )));
            }
        }
    }
    for output in &outputs {
        fs::remove_file(output)?;
    }
    Ok(costs)
}

/// The length of an input, in octets.
fn length(folder: &Path, name: &str) -> io::Result<f64> {
    Ok(fs::metadata(folder.join(name).with_extension("stomp"))?.len() as f64)
}

/// What one run took: its processor time in microseconds, and its peak in octets.
fn print_once(words: &[&str], input: &Path) -> io::Result<()> {
    let cost = run(words, input, Path::new("/dev/null"))?;
    println!("{} {}", cost.processor.as_micros(), cost.peak);
    Ok(())
}

fn print_relay(programs: [&str; 3], folder: &Path) -> io::Result<()> {
    let [stompd, baseline, floor] = programs;
    println!("best of {RUNS} runs, from file to file; ms is processor time, MiB is peak memory");
    println!(
        "            input |     stompd      |    baseline     |      floor      |  stompd over, and by the clock"
    );
    println!(
        "              MiB |    ms       MiB |    ms       MiB |    ms       MiB | floor     baseline      input"
    );
    for name in RELAY_INPUTS {
        let size = length(folder, name)?;
        let programs: [&[&str]; 4] = [
            &[stompd, "relay", "A"],
            &[baseline, "A"],
            &[floor],
            &["cat"],
        ];
        let costs = measure(programs, folder, name)?;
        print!("{name:<11} {:5.1} |", size / 1_048_576.0);
        for cost in &costs[..3] {
            let (time, peak) = (cost.processor_milliseconds(), cost.mebibytes());
            print!(" {time:7.1} {peak:7.1} |");
        }
        for other in [costs[2], costs[1]] {
            let processor = costs[0].processor_milliseconds() / other.processor_milliseconds();
            print!(
                " {processor:4.2} {:4.2}",
                costs[0].milliseconds() / other.milliseconds()
            );
        }
        println!("  {:4.2}", costs[0].peak as f64 / size);
    }
    Ok(())
}

fn print_pieces(program: &str, baseline: &str, folder: &Path) -> io::Result<()> {
    println!("best of {RUNS} runs, from file to file; ms is processor time, MiB is peak memory");
    println!("            input |   stomp_frame   |    baseline     | stomp_frame over baseline,");
    println!("      pieces of   |    ms       MiB |    ms       MiB |  and over one whole piece");
    for name in RELAY_INPUTS {
        let mut whole = 0.0;
        for size in PIECES {
            let programs: [&[&str]; 2] = [&[program, size], &[baseline, size]];
            let [one, other] = measure(programs, folder, name)?;
            if size == PIECES[0] {
                whole = one.processor_milliseconds();
            }
            print!("{name:<11} {size:>5} |");
            for cost in [one, other] {
                let (time, peak) = (cost.processor_milliseconds(), cost.mebibytes());
                print!(" {time:7.1} {peak:7.1} |");
            }
            let time = one.processor_milliseconds();
            println!(
                " {:7.2} {:7.2}",
                time / other.processor_milliseconds(),
                time / whole
            );
        }
    }
    Ok(())
}

fn print_audit(program: &str, baseline: &str, folder: &Path) -> io::Result<()> {
    println!("best of {RUNS} runs, from file to file; ms is time, MiB is peak memory");
    println!("              input |   trace_audit   |    baseline     | trace_audit over");
    println!("                MiB |    ms       MiB |    ms       MiB |  baseline  input");
    for name in AUDIT_INPUTS {
        let size = length(folder, name)?;
        let costs = measure([&[program], &[baseline]], folder, name)?;
        print!("{name:<13} {:5.1} |", size / 1_048_576.0);
        for cost in costs {
            print!(" {:7.1} {:7.1} |", cost.milliseconds(), cost.mebibytes());
        }
        let time = costs[0].milliseconds() / costs[1].milliseconds();
        println!(" {time:9.2} {:6.2}", costs[0].peak as f64 / size);
    }
    Ok(())
}

/// How many events an input of the core has: an octet 1 stands behind each, and behind the number of topics.
fn count_events(folder: &Path, name: &str) -> io::Result<usize> {
    let input = BufReader::new(File::open(folder.join(name).with_extension("stomp"))?);
    Ok(input.split(1).count() - 1)
}

fn print_core(program: &str, baseline: &str, folder: &Path) -> io::Result<()> {
    println!("best of {RUNS} runs, from file to file; /s is events in a second, MiB is peak memory");
    println!("                  input       |         delivery          |         baseline          | delivery over baseline");
    println!("                 MiB   events |     ms         /s     MiB |     ms         /s     MiB | clock processor memory");
    for name in CORE_INPUTS {
        let size = length(folder, name)?;
        let number = count_events(folder, name)?;
        let costs = measure([&[program], &[baseline]], folder, name)?;
        print!("{name:<16} {:4.1} {number:8} |", size / 1_048_576.0);
        for cost in costs {
            let speed = number as f64 / cost.time.as_secs_f64();
            print!(" {:6.1} {speed:10.0} {:7.1} |", cost.milliseconds(), cost.mebibytes());
        }
        let [one, other] = costs;
        println!(
            " {:5.2} {:9.2} {:6.2}",
            one.milliseconds() / other.milliseconds(),
            one.processor_milliseconds() / other.processor_milliseconds(),
            one.peak as f64 / other.peak as f64
        );
    }
    Ok(())
}

/// Commits and items in a second, by how many threads, and what that is of the plain program's and of one thread's.
fn print_locks(program: &str, baseline: &str, folder: &Path) -> io::Result<()> {
    println!("best of {RUNS} runs, by the clock; /s is commits and items in a second");
    println!("              |     broker_locks      |       baseline        | rate over | over one thread's");
    println!("topics threads| commits/s     items/s | commits/s     items/s |  baseline | broker_locks baseline");
    let (commits, number) = LOCKS_COMMITS;
    for kind in LOCKS_TOPICS {
        for (topics, many) in LOCKS_COUNTS {
            let mut alone = [0.0; 2];
            for (threads, _) in LOCKS_COUNTS {
                let words = [kind, topics, threads, commits];
                let [one, other] = [program, baseline].map(|name| [&[name], &words[..]].concat());
                let costs = measure([&one, &other], folder, "locks")?;
                let rates = costs.map(|cost| number / cost.time.as_secs_f64());
                if threads == LOCKS_COUNTS[0].0 {
                    alone = rates;
                }
                print!("{kind:<4} {topics} {threads:>7}|");
                for rate in rates {
                    print!(" {rate:9.0} {:11.0} |", rate * many * LOCKS_SUBSCRIPTIONS);
                }
                println!(
                    " {:9.2} | {:12.2} {:8.2}",
                    rates[0] / rates[1],
                    rates[0] / alone[0],
                    rates[1] / alone[1]
                );
            }
        }
    }
    Ok(())
}

/// What a commit and its turn take behind a transaction that is held at their topic, and what they take without.
fn print_held(program: &str, folder: &Path) -> io::Result<()> {
    println!("best of {RUNS} runs, by the clock; \u{b5}s is of one commit with a turn of its topic");
    println!("subscriptions   commits | held, \u{b5}s  free, \u{b5}s | held over free");
    for (subscriptions, commits, number) in LOCKS_HELD {
        let [held, free] = ["held", "free"].map(|kind| [program, kind, subscriptions, commits]);
        let costs = measure([&held[..], &free[..]], folder, "locks")?;
        let [one, other] = costs.map(|cost| cost.time.as_secs_f64() * 1e6 / number);
        println!("{subscriptions:>13} {commits:>9} | {one:8.2} {other:9.2} | {:14.2}", one / other);
    }
    Ok(())
}

/// The times of `stompd script`, over the plain program, with peak memory.
fn print_script(program: &str, baseline: &str, folder: &Path) -> io::Result<()> {
    println!("best of {RUNS} runs, from file to file; ms is time, MiB is peak memory");
    println!("                    input |     stompd      |    baseline     | stompd over baseline");
    println!("                      MiB |    ms       MiB |    ms       MiB | clock processor memory");
    for name in SCRIPT_INPUTS {
        let size = length(folder, name)?;
        let costs = measure([&[program, "script"], &[baseline]], folder, name)?;
        print!("{name:<19} {:5.1} |", size / 1_048_576.0);
        for cost in costs {
            print!(" {:7.1} {:7.1} |", cost.milliseconds(), cost.mebibytes());
        }
        let [one, other] = costs;
        println!(
            " {:5.2} {:9.2} {:6.2}",
            one.milliseconds() / other.milliseconds(),
            one.processor_milliseconds() / other.processor_milliseconds(),
            one.peak as f64 / other.peak as f64
        );
    }
    Ok(())
}

/// A benchmark that tells how many things a program does in a second.
struct Rate {
    inputs: &'static [&'static str],
    unit: &'static str,
    program: &'static str,
    /// Whether a frame of an input counts for one.
    counts: fn(&[u8]) -> bool,
}

/// Whether the frame ends a transaction: a COMMIT, or a SEND outside one.
fn is_transaction(frame: &[u8]) -> bool {
    let in_another = || frame.windows(13).any(|text| text == b"\ntransaction:");
    frame.starts_with(b"COMMIT\n") || (frame.starts_with(b"SEND\n") && !in_another())
}

/// Whether it is a transaction's body, and not the number of subscriptions.
fn is_body(text: &[u8]) -> bool {
    text.len() == 65
}

/// How many frames of an input count: each ends by a NULL, and no body has one.
fn count(folder: &Path, name: &str, counts: fn(&[u8]) -> bool) -> io::Result<usize> {
    let mut input = BufReader::new(File::open(folder.join(name).with_extension("stomp"))?);
    let (mut frame, mut count) = (Vec::new(), 0);
    while input.read_until(0, &mut frame)? > 0 {
        count += usize::from(counts(&frame));
        frame.clear();
    }
    Ok(count)
}

fn print_rate(rate: Rate, program: &str, baseline: &str, folder: &Path) -> io::Result<()> {
    let Rate {
        unit, program: of, ..
    } = rate;
    println!("best of {RUNS} runs, from file to file; /s is {unit} in a second");
    println!("               input         |{of:^21}|      baseline       | time, one");
    println!(
        "              MiB {unit:>11} |     ms           /s |     ms           /s | over other"
    );
    for name in rate.inputs {
        let size = length(folder, name)?;
        let number = count(folder, name, rate.counts)?;
        let costs = measure([&[program], &[baseline]], folder, name)?;
        print!("{name:<12} {:4.1} {number:12} |", size / 1_048_576.0);
        for cost in costs {
            let speed = number as f64 / cost.time.as_secs_f64();
            print!(" {:6.1} {speed:12.0} |", cost.milliseconds());
        }
        println!(" {:8.2}", costs[0].milliseconds() / costs[1].milliseconds());
    }
    Ok(())
}

fn main() -> ExitCode {
    let words: Vec<String> = env::args().skip(1).collect();
    let words: Vec<&str> = words.iter().map(String::as_str).collect();
    let (bench, result) = match words[..] {
        ["relay", stompd, baseline, floor, folder] => (
            "relay",
            print_relay([stompd, baseline, floor], Path::new(folder)),
        ),
        ["frames", program, baseline, folder] => (
            "frames",
            print_rate(FRAMES, program, baseline, Path::new(folder)),
        ),
        ["transactions", program, baseline, folder] => (
            "transactions",
            print_rate(TRANSACTIONS, program, baseline, Path::new(folder)),
        ),
        ["topic", program, baseline, folder] => (
            "topic",
            print_rate(TOPIC, program, baseline, Path::new(folder)),
        ),
        ["group", program, baseline, folder] => (
            "group",
            print_rate(GROUP, program, baseline, Path::new(folder)),
        ),
        ["core", program, baseline, folder] => ("core", print_core(program, baseline, Path::new(folder))),
        ["locks", program, baseline, folder] => ("locks", print_locks(program, baseline, Path::new(folder))),
        ["held", program, folder] => ("locks", print_held(program, Path::new(folder))),
        ["once", input, ..] => ("growth", print_once(&words[2..], Path::new(input))),
        ["script", program, baseline, folder] => {
            ("script", print_script(program, baseline, Path::new(folder)))
        }
        ["pieces", program, baseline, folder] => {
            ("pieces", print_pieces(program, baseline, Path::new(folder)))
        }
        ["audit", program, baseline, folder] => {
            ("audit", print_audit(program, baseline, Path::new(folder)))
        }
        _ => {
            eprintln!("usage: measure relay|frames|pieces|transactions|topic|group|core|locks|script|audit PROGRAM BASELINE [FLOOR] FOLDER");
            return ExitCode::FAILURE;
        }
    };
    match result {
        Ok(()) => ExitCode::SUCCESS,
        Err(error) => {
            eprintln!("bench/{bench}: {error}");
            ExitCode::FAILURE
        }
    }
}
