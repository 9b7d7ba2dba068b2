//! Runs whole workloads on two endpoints. The parts of a stream have a program of their own: in one program with them,
//! functions of quinn-proto that it otherwise calls at one place would be called at two, and not be put in place of their calls.

use std::process::ExitCode;

use bench::heap::Counter;
use bench::library::{Copying, Lending, Library};
use bench::{answer, measure, print_line, Job, Measured};
use quinn_streams::Quinn;
use workloads::{Endpoint, Outcome, Scale, Steps, SCALES, WORKLOADS};

const USAGE: &str = "usage: bench list
       bench run NAME SIZE quinn|lending|copying|rattle
       bench time NAME SIZE MILLISECONDS IMPLEMENTATION..
       bench heap NAME SIZE IMPLEMENTATION
       bench scale NAME SIZE IMPLEMENTATION
       bench memory IMPLEMENTATION";

fn on<E: Endpoint>(job: &Job) -> Outcome {
    let workload = workloads::find(&job.name).expect("a workload of this name");
    workload.run::<E>(&job.content, job.size)
}

// Each implementation has a function of its own: callgrind counts what is done in it.

#[no_mangle]
#[inline(never)]
fn measured_quinn(job: &Job) -> Outcome {
    on::<Quinn>(job)
}

#[no_mangle]
#[inline(never)]
fn measured_lending(job: &Job) -> Outcome {
    on::<Library<Lending>>(job)
}

#[no_mangle]
#[inline(never)]
fn measured_copying(job: &Job) -> Outcome {
    on::<Library<Copying>>(job)
}

#[cfg(streambench)]
#[no_mangle]
#[inline(never)]
fn measured_rattle(job: &Job) -> Outcome {
    bench::streambench::run(job)
}

fn implementation(name: &str) -> Option<Measured> {
    match name {
        "quinn" => Some(measured_quinn),
        "lending" => Some(measured_lending),
        "copying" => Some(measured_copying),
        #[cfg(streambench)]
        "rattle" => Some(measured_rattle),
        _ => None,
    }
}

fn list() {
    for it in WORKLOADS {
        print_line("workload", it.name, it.size, it.unit, it.about);
    }
    for it in SCALES {
        for size in it.sizes {
            print_line("scale", it.name, *size as u64, "", it.about);
        }
    }
}

/// Prints the steps of a test: name, calls, mean and longest time in nanoseconds, bytes on the heap after it.
fn scale<E: Endpoint>(test: &Scale, size: usize) {
    let counter = Counter::find();
    let now = || counter.map_or(0, |counter| (counter.now)());
    let mut steps = Steps::new(&now);
    test.run::<E>(size, &mut steps);
    for step in &steps.list {
        let (mean, longest) = (step.mean.as_nanos(), step.longest.as_nanos());
        println!(
            "{}\t{}\t{mean}\t{longest}\t{}",
            step.name, step.calls, step.heap
        );
    }
}

fn memory<E: Endpoint>(counter: Counter) {
    for row in workloads::rows::<E>(&|| (counter.now)()) {
        println!("{}\t{:.1}", row.name, row.bytes);
    }
}

/// A test of scale on one implementation.
fn scale_of(name: &str, size: &str, implementation: &str) -> Option<()> {
    let test = SCALES.iter().find(|test| test.name == name)?;
    let size = size.parse().ok()?;
    match implementation {
        "quinn" => scale::<Quinn>(test, size),
        "lending" => scale::<Library<Lending>>(test, size),
        "copying" => scale::<Library<Copying>>(test, size),
        _ => return None,
    }
    Some(())
}

fn memory_of(implementation: &str, counter: Counter) -> Option<()> {
    match implementation {
        "quinn" => memory::<Quinn>(counter),
        "lending" => memory::<Library<Lending>>(counter),
        "copying" => memory::<Library<Copying>>(counter),
        _ => return None,
    }
    Some(())
}

fn program(words: &[&str]) -> Option<()> {
    match words {
        ["list"] => list(),
        ["scale", name, size, with] => scale_of(name, size, with)?,
        ["memory", with] => memory_of(with, Counter::find()?)?,
        _ => return measure(words, implementation),
    }
    Some(())
}

fn main() -> ExitCode {
    answer(USAGE, program)
}
