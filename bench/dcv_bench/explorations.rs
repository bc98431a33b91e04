// Explorations that are measured: a counter, products, a chop and a quantifier over rings of states, a case for each word.

use crate::functions::Function;
use crate::rings::Ring;
use anyhow::{Result, bail};
use dcv_chop::Chop;
use dcv_dfa::Raw;
use dcv_explore::{Limits, Machine, explore};
use dcv_product::And;
use dcv_project::Exists;
use std::alloc::Global;
use std::time::{CpuClock, Duration};

const LIMITS: Limits = Limits {
    states: 4_000_000,
    nodes: 40_000_000,
};

// What is explored again and again.
#[derive(Clone, Copy)]
pub(crate) enum Exploration {
    // A ring that goes on where the one variable is true.
    Counter,
    // The product of two such rings, one of which goes on where the variable is false.
    Grid,
    // The product of two rings, each of which goes on by the parity of four of eight variables.
    Wide,
    // The same of rings that go from a state to its double.
    Shared,
    // The chop of two rings, the second of which is smaller by one.
    Chop,
    // The quantifier over a ring that does not depend on the variable.
    Exists,
    // The quantifier over the product of two rings, one of which goes on by the variable.
    Sets,
}

impl Exploration {
    // The exploration that a word names.
    pub(crate) fn named(word: &str) -> Option<Exploration> {
        match word {
            "counter" => Some(Exploration::Counter),
            "grid" => Some(Exploration::Grid),
            "wide" => Some(Exploration::Wide),
            "shared" => Some(Exploration::Shared),
            "chop" => Some(Exploration::Chop),
            "exists" => Some(Exploration::Exists),
            "sets" => Some(Exploration::Sets),
            _ => None,
        }
    }

    // The two rings of this size that are worked with. Where there is one alone, it is the first.
    fn rings(self, alloc: Global, size: u32) -> Result<(Ring, Ring)> {
        let (slots, first, second) = match self {
            Exploration::Counter | Exploration::Chop => (1, odd(0b1), odd(0b1)),
            Exploration::Grid => (1, Function::Even { mask: 0b1 }, odd(0b1)),
            Exploration::Wide | Exploration::Shared => (8, odd(0b1111_0000), odd(0b1111)),
            Exploration::Exists | Exploration::Sets => (2, odd(0b10), odd(0b01)),
        };
        let smaller = if matches!(self, Exploration::Chop) {
            size.saturating_sub(1)
        } else {
            size
        };
        let doubles = matches!(self, Exploration::Shared);
        Ok((
            Ring::new(alloc, slots, first, size, doubles)?,
            Ring::new(alloc, slots, second, smaller, doubles)?,
        ))
    }
}

// Whether an odd number of these variables is true.
fn odd(mask: u32) -> Function {
    Function::Odd { mask }
}

// Explores so many times, and tells how many states there are, and the processor time of all times.
pub(crate) fn measure<R: CpuClock>(
    rt: &R,
    alloc: Global,
    exploration: Exploration,
    size: u32,
    times: u32,
) -> Result<(usize, Duration)> {
    let (one, other) = exploration.rings(alloc, size)?;
    if matches!(exploration, Exploration::Counter) {
        return timed(rt, alloc, &one, times);
    }
    let first = explore(alloc, &one, LIMITS)?;
    let second = explore(alloc, &other, LIMITS)?;
    of_two(rt, alloc, exploration, &first, &second, times)
}

// The same with the two rings explored.
fn of_two<R: CpuClock>(
    rt: &R,
    alloc: Global,
    exploration: Exploration,
    first: &Raw,
    second: &Raw,
    times: u32,
) -> Result<(usize, Duration)> {
    if first.slots() != second.slots() || first.slots() == 0 {
        bail!("the rings have other variables");
    }
    match exploration {
        Exploration::Counter | Exploration::Exists => {
            timed(rt, alloc, &Exists::new(first), times)
        }
        Exploration::Grid | Exploration::Wide | Exploration::Shared => {
            timed(rt, alloc, &And::new(first, second), times)
        }
        Exploration::Chop => timed(rt, alloc, &Chop::new(first, second), times),
        Exploration::Sets => {
            let both = explore(alloc, &And::new(first, second), LIMITS)?;
            if both.slots() == 0 {
                bail!("the product has no variables");
            }
            timed(rt, alloc, &Exists::new(&both), times)
        }
    }
}

// Explores one machine so many times.
fn timed<R: CpuClock, M: Machine>(
    rt: &R,
    alloc: Global,
    machine: &M,
    times: u32,
) -> Result<(usize, Duration)> {
    let before = rt.process_cpu_time()?;
    let mut states = 0;
    for _ in 0..times {
        states = explore(alloc, machine, LIMITS)?.states();
    }
    let after = rt.process_cpu_time()?;
    Ok((states as usize, after.saturating_sub(before)))
}
