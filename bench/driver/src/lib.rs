//! What both programs share: how a run is measured and printed. Each line that they print has fields with tabs between them.

pub mod heap;
pub mod library;
pub mod streambench;

use std::env;
use std::hint::black_box;
use std::process::ExitCode;
use std::time::{Duration, Instant};

use heap::Counter;
use quinn_streams::SAME_PAYLOADS;
use workloads::{Content, Outcome};

/// One run of a workload or of a part.
pub struct Job {
    pub name: String,
    pub size: u64,
    pub content: Content,
}

/// Does the work of a job on one implementation.
pub type Measured = fn(&Job) -> Outcome;

fn job(name: &str, size: &str) -> Option<Job> {
    Some(Job {
        name: name.to_owned(),
        size: size.parse().ok()?,
        content: Content::default(),
    })
}

/// A check number that is the sum of both.
pub fn of_check(data: u64) -> Outcome {
    Outcome { data, wire: 0 }
}

/// Prints one line of a list: kind, name, size, unit, whether it is there in Rattle, what it is.
pub fn print_line(kind: &str, name: &str, size: u64, unit: &str, about: &str) {
    let rattle = streambench::has(name);
    println!("{kind}\t{name}\t{size}\t{unit}\t{rattle}\t{about}");
}

/// Prints the check numbers of a run: of the data, of the payloads if all implementations have the same, and the sum of both.
fn run(job: &Job, measured: Measured) {
    let Outcome { data, wire } = measured(black_box(job));
    let whole = if SAME_PAYLOADS { wire } else { 0 };
    println!(
        "{data:016x}\t{whole:016x}\t{:016x}",
        data.wrapping_add(wire)
    );
}

/// Runs the implementations in turn, at least five times each; prints the least time and the median of each in nanoseconds.
fn time(job: &Job, least: Duration, list: &[Measured]) {
    let mut times = vec![Vec::new(); list.len()];
    let start = Instant::now();
    while times[0].len() < 5 || (start.elapsed() < least && times[0].len() < 300) {
        for (measured, times) in list.iter().zip(&mut times) {
            let start = Instant::now();
            black_box(measured(black_box(job)));
            times.push(start.elapsed());
        }
    }
    for times in &mut times {
        times.sort_unstable();
        let (least, median) = (times[0], times[times.len() / 2]);
        println!("{}\t{}", least.as_nanos(), median.as_nanos());
    }
}

/// Prints the most bytes on the heap in a run, and how many pieces of memory it took.
fn heap(job: &Job, measured: Measured, counter: Counter) {
    let (now, taken) = ((counter.now)(), (counter.taken)());
    (counter.peak)();
    black_box(measured(black_box(job)));
    let (peak, taken) = ((counter.peak)() - now, (counter.taken)() - taken);
    println!("{peak}\t{taken}");
}

/// Runs, times, or counts the heap of a job, as words of the command line ask. Returns nothing if they ask for something else.
pub fn measure(words: &[&str], implementation: fn(&str) -> Option<Measured>) -> Option<()> {
    match words {
        ["run", name, size, with] => run(&job(name, size)?, implementation(with)?),
        ["time", name, size, least, list @ ..] if !list.is_empty() => {
            let list: Option<Vec<_>> = list.iter().map(|with| implementation(with)).collect();
            let least = Duration::from_millis(least.parse().ok()?);
            time(&job(name, size)?, least, &list?);
        }
        ["heap", name, size, with] => {
            let counter = Counter::find()?;
            heap(&job(name, size)?, implementation(with)?, counter);
        }
        _ => return None,
    }
    Some(())
}

/// Passes the words of the command line to a program, and ends with its status.
pub fn answer(usage: &str, program: fn(&[&str]) -> Option<()>) -> ExitCode {
    let words: Vec<String> = env::args().skip(1).collect();
    let words: Vec<&str> = words.iter().map(String::as_str).collect();
    if program(&words).is_some() {
        return ExitCode::SUCCESS;
    }
    eprintln!("{usage}");
    ExitCode::from(2)
}
