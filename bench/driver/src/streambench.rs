//! The same work in Rattle, if `libstreambench.a` is linked: the parts of a stream, and the bulk transfers.

#[cfg(streambench)]
use workloads::Outcome;

#[cfg(streambench)]
use crate::{of_check, Job};

/// A function of `libstreambench.a`.
#[cfg(streambench)]
type Case = unsafe extern "C" fn(usize, *const u8, usize, *const u32, usize) -> u64;

#[cfg(streambench)]
macro_rules! cases {
    ($($name:literal $symbol:ident)*) => {
        extern "C" {
            $(fn $symbol(
                size: usize,
                content: *const u8,
                content_length: usize,
                order: *const u32,
                order_length: usize,
            ) -> u64;)*
        }

        fn find(name: &str) -> Option<Case> {
            match name {
                $($name => Some($symbol),)*
                _ => None,
            }
        }
    };
}

#[cfg(streambench)]
cases! {
    "copy_and_free" streambench_case_z
    "reassemble_in_order" streambench_case_a
    "reassemble_shuffled" streambench_case_b
    "reassemble_gaps_1" streambench_case_c
    "reassemble_gaps_1200" streambench_case_c2
    "reassemble_unordered" streambench_case_d
    "send_in_rounds" streambench_case_e
    "send_all_first" streambench_case_e2
    "send_with_losses" streambench_case_f
    "bulk_one_stream" streambench_case_g
    "bulk_many_streams" streambench_case_h
    "bulk_one_stream_lossy" streambench_case_i
    "send_acknowledged_backwards" streambench_case_j
    "reassemble_short_reads" streambench_case_k
    "reassemble_small_pieces" streambench_case_l
    "reassemble_gaps_2" streambench_case_m
}

/// Whether there is a function for this workload.
pub fn has(name: &str) -> bool {
    #[cfg(streambench)]
    return find(name).is_some();
    #[cfg(not(streambench))]
    return name.is_empty();
}

/// Runs the function of a workload, whose check number is the sum of both.
#[cfg(streambench)]
pub fn run(job: &Job) -> Outcome {
    let case = find(&job.name).expect("a function for this workload");
    let (bytes, order) = (&job.content.bytes, &job.content.order);
    // SAFETY: pointers and lengths of two lists
    of_check(unsafe {
        case(
            job.size as usize,
            bytes.as_ptr(),
            bytes.len(),
            order.as_ptr(),
            order.len(),
        )
    })
}
