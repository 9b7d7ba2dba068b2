//! Runs the parts of a stream: its reassembly and its send buffer.

use std::process::ExitCode;

use bench::{answer, measure, of_check, print_line, Job, Measured};
use quinn_streams::PARTS;
use workloads::Outcome;

const USAGE: &str = "usage: parts list
       parts run NAME SIZE quinn|rattle
       parts time NAME SIZE MILLISECONDS IMPLEMENTATION..
       parts heap NAME SIZE IMPLEMENTATION";

#[no_mangle]
#[inline(never)]
fn measured_quinn(job: &Job) -> Outcome {
    let part = PARTS.iter().find(|part| part.name == job.name);
    let part = part.expect("a part of this name");
    of_check((part.run)(&job.content, job.size))
}

#[cfg(streambench)]
#[no_mangle]
#[inline(never)]
fn measured_rattle(job: &Job) -> Outcome {
    bench::streambench::run(job)
}

fn implementation(name: &str) -> Option<Measured> {
    match name {
        "quinn" => Some(measured_quinn),
        #[cfg(streambench)]
        "rattle" => Some(measured_rattle),
        _ => None,
    }
}

fn list() {
    for it in PARTS {
        print_line("part", it.name, it.size, it.unit, it.about);
    }
}

fn program(words: &[&str]) -> Option<()> {
    if words == ["list"] {
        list();
        return Some(());
    }
    measure(words, implementation)
}

fn main() -> ExitCode {
    answer(USAGE, program)
}
