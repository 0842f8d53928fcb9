//! That a drive has as many threads as it says, and keeps them from stage to stage. Alone in its file, as it counts its process's threads.
#![cfg(target_os = "linux")]

mod common;

use std::collections::BTreeSet;
use std::ops::ControlFlow;

use common::{quick, ring::Ring};
use threshcinch::Run;

/// The threads of this process, by the system's numbers.
fn live() -> BTreeSet<String> {
    std::fs::read_dir("/proc/self/task").unwrap().map(|task| task.unwrap().file_name().into_string().unwrap()).collect()
}

#[test]
fn as_many_as_asked_or_as_there_are_chunks() {
    let ring = Ring::new(13_000, 50, 14);
    // Four chunks.
    for (asked, expected) in [(0, 1), (1, 1), (2, 2), (3, 3), (4, 4), (8, 4), (usize::MAX, 4)] {
        let before = live();
        let mut helpers = BTreeSet::new();
        let mut run = Run::open(&ring.graph(), 1, quick()).unwrap();
        run.drive(asked, |_| {
            helpers.extend(live().difference(&before).cloned());
            ControlFlow::Continue(())
        })
        .unwrap();
        assert_eq!(1 + helpers.len(), expected, "{asked} threads asked for");
    }
}
