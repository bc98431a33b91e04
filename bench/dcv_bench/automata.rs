// What is measured of automata: a table is minimised, its least accepted word is found, or suffixes that show that it is minimal.

use anyhow::Result;
use dcv_arena::{Arena, Ref};
use dcv_certificate::separate;
use dcv_dfa::Raw;
use dcv_minimise::minimise;
use dcv_reach::shortest;
use dcv_tables::{function, parity};
use dcv_word::Word;
use std::alloc::Global;
use std::time::{CpuClock, Duration};

// What is done again and again.
#[derive(Clone, Copy)]
pub(crate) enum Task {
    Minimise,
    Shortest,
    Separate,
}

// A table of states.
#[derive(Clone, Copy)]
pub(crate) enum Table {
    // The words of one length: each state leads on, over no variable.
    Chain,
    // The words with enough letters in which the one variable is true.
    Count,
    // One variable leads down, the other to the right, up to the last row and column; the last state but a row and a column accepts.
    Grid,
    // States that seem to be random, over three variables.
    Drawn,
    // Each letter in which an odd number of 16 variables are true leads on.
    Parity,
}

impl Task {
    // The task that a word names.
    pub(crate) fn named(word: &str) -> Option<Task> {
        match word {
            "minimise" => Some(Task::Minimise),
            "shortest" => Some(Task::Shortest),
            "separate" => Some(Task::Separate),
            _ => None,
        }
    }

    // Does it so many times, and tells how large the result is, and the processor time of all times.
    pub(crate) fn measure<R: CpuClock>(
        self,
        rt: &R,
        alloc: Global,
        table: Table,
        times: u32,
    ) -> Result<(usize, Duration)> {
        let mut size = 0;
        let mut time = Duration::ZERO;
        for _ in 0..times {
            let (found, taken) = self.perform(rt, alloc, table)?;
            size = found;
            time = time.saturating_add(taken);
        }
        Ok((size, time))
    }

    // Does it once: how many states the canonical automaton has, how long the word is, or how many suffixes there are.
    fn perform<R: CpuClock>(
        self,
        rt: &R,
        alloc: Global,
        table: Table,
    ) -> Result<(usize, Duration)> {
        let raw = table.raw(alloc)?;
        let start = rt.process_cpu_time()?;
        let auto = minimise(alloc, raw)?;
        let minimised = rt.process_cpu_time()?;
        let (size, before) = match self {
            Task::Minimise => (auto.states() as usize, start),
            Task::Shortest => (letters(shortest(alloc, &auto, true)?), minimised),
            Task::Separate => (separate(alloc, &auto)?.suffixes().len(), minimised),
        };
        let after = match self {
            Task::Minimise => minimised,
            _ => rt.process_cpu_time()?,
        };
        Ok((size, after.saturating_sub(before)))
    }
}

impl Table {
    // The table that a word names.
    pub(crate) fn named(word: &str) -> Option<Table> {
        match word {
            "chain" => Some(Table::Chain),
            "count" => Some(Table::Count),
            "grid" => Some(Table::Grid),
            "drawn" => Some(Table::Drawn),
            "parity" => Some(Table::Parity),
            _ => None,
        }
    }

    // How many variables its letters have.
    fn slots(self) -> u8 {
        match self {
            Table::Chain => 0,
            Table::Count => 1,
            Table::Grid => 2,
            Table::Drawn => 3,
            Table::Parity => 16,
        }
    }

    // How many states it has.
    fn states(self) -> u32 {
        match self {
            Table::Chain | Table::Count => 10_002,
            Table::Grid => SIDE * SIDE,
            Table::Drawn => 30_000,
            Table::Parity => 5_000,
        }
    }

    // Whether a state accepts.
    fn accepts(self, state: u32) -> bool {
        match self {
            Table::Chain => state == 10_000,
            Table::Count => state >= 10_000,
            Table::Grid => state == (SIDE - 2) * SIDE + SIDE - 2,
            Table::Drawn => drawn(state, 8).is_multiple_of(2),
            Table::Parity => state == 4_998,
        }
    }

    // The state to which a letter leads.
    fn next(self, state: u32, letter: u32) -> u32 {
        match self {
            Table::Chain => state.saturating_add(1),
            Table::Count | Table::Parity => state.saturating_add(letter),
            Table::Grid => right(down(state, letter >> 1), letter & 1),
            Table::Drawn => drawn(state, letter) % 30_000,
        }
    }

    // The automaton of the table.
    fn raw(self, alloc: Global) -> Result<Raw> {
        let bound = self.states();
        let mut arena = Arena::new(alloc, self.slots(), u32::MAX);
        let mut rows = Vec::new(alloc);
        let mut accepting = Vec::new(alloc);
        for state in 0..bound {
            let row = self.row(&mut arena, state, bound)?;
            rows.push(row)?;
            accepting.push(self.accepts(state))?;
        }
        Ok(Raw::new(arena, rows, accepting, 0))
    }

    // The row of a state.
    fn row(self, arena: &mut Arena, state: u32, bound: u32) -> Result<Ref> {
        let last = bound - 1;
        if matches!(self, Table::Parity) {
            let (even, odd) = (state.min(last), state.saturating_add(1).min(last));
            return Ok(parity(arena, 1, even, odd, bound)?);
        }
        let all = [0, 1, 2, 3, 4, 5, 6, 7].map(|letter| self.next(state, letter).min(last));
        let letters = all.len().min(1 << self.slots());
        Ok(function(arena, &all[..letters], bound)?)
    }
}

// How many letters a word has, and 0 where there is none.
fn letters(word: Option<Word>) -> usize {
    match word {
        Some(word) => word.letters().len(),
        None => 0,
    }
}

// The states in a row of the grid.
const SIDE: u32 = 170;

// The state below, if it is asked for and there is one.
fn down(state: u32, asked: u32) -> u32 {
    if asked == 1 && state / SIDE < SIDE - 1 {
        state.saturating_add(SIDE)
    } else {
        state
    }
}

// The state to the right, if it is asked for and there is one.
fn right(state: u32, asked: u32) -> u32 {
    if asked == 1 && state % SIDE < SIDE - 1 {
        state.saturating_add(1)
    } else {
        state
    }
}

// A number of a state and a letter that seems to be random: G. L. Steele, D. Lea and C. H. Flood, "Fast Splittable Pseudorandom
// Number Generators", 2014.
fn drawn(state: u32, letter: u32) -> u32 {
    let seed = (u64::from(state) << 4 | u64::from(letter)).wrapping_mul(0x9E37_79B9_7F4A_7C15);
    let first = (seed ^ (seed >> 30)).wrapping_mul(0xBF58_476D_1CE4_E5B9);
    let second = (first ^ (first >> 27)).wrapping_mul(0x94D0_49BB_1331_11EB);
    ((second ^ (second >> 31)) >> 33) as u32
}
