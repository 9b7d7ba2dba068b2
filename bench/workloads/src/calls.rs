//! The time of single calls, and the heap after each step of a test of scale.

use std::time::{Duration, Instant};

/// Calls of one kind.
#[derive(Default)]
pub struct Calls {
    count: u64,
    total: Duration,
    longest: Duration,
}

impl Calls {
    pub fn time<T>(&mut self, call: impl FnOnce() -> T) -> T {
        let start = Instant::now();
        let result = call();
        let taken = start.elapsed();
        self.count += 1;
        self.total += taken;
        self.longest = self.longest.max(taken);
        result
    }

    /// Times calls until one returns nothing, and passes each result to `each`.
    pub fn time_all<T>(&mut self, mut call: impl FnMut() -> Option<T>, mut each: impl FnMut(T)) {
        while let Some(result) = self.time(&mut call) {
            each(result);
        }
    }
}

/// One step of a test: many calls of one kind.
pub struct Step {
    pub name: &'static str,
    pub calls: u64,
    pub mean: Duration,
    pub longest: Duration,
    /// Bytes on the heap at the end of the step.
    pub heap: i64,
}

/// The steps of a test in turn.
pub struct Steps<'a> {
    heap: &'a dyn Fn() -> i64,
    pub list: Vec<Step>,
}

impl<'a> Steps<'a> {
    pub fn new(heap: &'a dyn Fn() -> i64) -> Self {
        Steps {
            heap,
            list: Vec::with_capacity(32),
        }
    }

    pub fn add(&mut self, name: &'static str, calls: Calls) {
        let count = u32::try_from(calls.count).unwrap_or(u32::MAX).max(1);
        self.list.push(Step {
            name,
            calls: calls.count,
            mean: calls.total / count,
            longest: calls.longest,
            heap: (self.heap)(),
        });
    }

    /// A step of calls that are all timed alike.
    pub fn each<T>(
        &mut self,
        name: &'static str,
        list: impl IntoIterator<Item = T>,
        mut call: impl FnMut(T),
    ) {
        let mut calls = Calls::default();
        for item in list {
            calls.time(|| call(item));
        }
        self.add(name, calls);
    }
}
