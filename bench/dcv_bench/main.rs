//! Measures the operations on diagrams: `dcv_bench CASE SLOTS TIMES` does what a case says so many times, and reports how
//! large its result is. With a fourth word, `timed`, it also reports the nanoseconds of processor time that each time took.
//! `dcv_bench EXPLORATION SIZE TIMES` does the same with explorations of that size, and reports how many states there are, and
//! `dcv_bench TASK TABLE TIMES` with automata. `dcv_bench read SUFFIXES TIMES` reads the text of an automaton with so many suffixes, and reports how
//! many bytes it has.
//!
//! It is no crate of the gate: `bench/unproved.py OUTPUT dcv_bench` builds it without proofs beside the crates that it measures. The scripts of
//! `bench/` run each case: `diagrams.sh`, `explorations.sh`, `automata.sh` and `reading.sh`.

mod automata;
mod cases;
mod explorations;
mod functions;
mod reading;
mod rings;

use crate::automata::{Table, Task};
use crate::cases::Case;
use crate::explorations::Exploration;
use anyhow::{Result, bail};
use std::alloc::Global;
use std::env;
use std::time::{CpuClock, Duration};

fn main(rt: HostRuntime) -> Result<()> {
    let alloc = rt.alloc();
    let mut words = Vec::new(alloc);
    for word in env::args(&rt)?.skip(1) {
        words.push(word)?;
    }
    if words.len() < 3 {
        bail!("usage: dcv_bench CASE SLOTS TIMES [timed]");
    }
    let times: u32 = words[2].as_str().parse()?;
    let (size, time) = measure(&rt, alloc, words[0].as_str(), words[1].as_str(), times)?;
    if words.len() > 3 {
        let each = time.as_nanos() / u128::from(times.max(1));
        println!(rt; "{size} {each}")?;
    } else {
        println!(rt; "{size}")?;
    }
    Ok(())
}

// Does what the name says so many times, and reports how large the result is, and the processor time of all times.
fn measure<R: CpuClock>(
    rt: &R,
    alloc: Global,
    name: &str,
    size: &str,
    times: u32,
) -> Result<(usize, Duration)> {
    if let Some(exploration) = Exploration::named(name) {
        return explorations::measure(rt, alloc, exploration, size.parse()?, times);
    }
    if name == "read" {
        return reading::measure(rt, alloc, size.parse()?, times);
    }
    if let Some(task) = Task::named(name) {
        let Some(table) = Table::named(size) else {
            bail!("no such table");
        };
        return task.measure(rt, alloc, table, times);
    }
    let Some(case) = Case::named(name) else {
        bail!("no such case");
    };
    cases::measure(rt, alloc, case, size.parse()?, times)
}
