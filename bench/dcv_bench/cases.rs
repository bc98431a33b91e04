// What is measured, a case for each word.

use crate::functions::{Function, parity};
use dcv_apply::{ApplyFault, Memo, Merge, MergeFault, USUAL_CAPACITY, apply};
use dcv_arena::{Arena, ArenaFault, Ref};
use dcv_letters::least_letters;
use dcv_renumber::remap;
use std::alloc::Global;
use std::time::{CpuClock, Duration};

// The most nodes of an arena.
const LIMIT: u32 = 4_000_000;

// What is done again and again.
#[derive(Clone, Copy)]
pub(crate) enum Case {
    // A random function is built from its numbers.
    Build,
    // Two random functions are merged.
    Random,
    // The middle bit of a product is merged with the bit below it.
    Multiplier,
    // The parity of all slots is merged with that of each other slot.
    Parity,
    // The middle bit of a product gets other numbers.
    Remap,
    // The first letters of the middle bit of a product are found.
    Letters,
}

impl Case {
    // The case that a word names.
    pub(crate) fn named(word: &str) -> Option<Case> {
        match word {
            "build" => Some(Case::Build),
            "random" => Some(Case::Random),
            "multiplier" => Some(Case::Multiplier),
            "parity" => Some(Case::Parity),
            "remap" => Some(Case::Remap),
            "letters" => Some(Case::Letters),
            _ => None,
        }
    }
}

impl Case {
    // The two functions that are worked with.
    fn functions(self, arena: &mut Arena) -> Result<(Ref, Ref), ArenaFault> {
        match self {
            Case::Parity => parities(arena),
            Case::Build | Case::Random => built(
                arena,
                Function::Random { seed: 1 << 40 },
                Function::Random { seed: 2 << 40 },
            ),
            Case::Multiplier | Case::Remap | Case::Letters => {
                let middle = u32::from(arena.slots()) / 2;
                built(
                    arena,
                    Function::Product { bit: middle },
                    Function::Product {
                        bit: middle.saturating_sub(1),
                    },
                )
            }
        }
    }

    // Does once what the case says, and tells how large the result is.
    fn perform(
        self,
        alloc: Global,
        arena: &Arena,
        one: Ref,
        other: Ref,
    ) -> Result<usize, ApplyFault> {
        match self {
            Case::Build => rebuilt(alloc, arena.slots()),
            Case::Random | Case::Multiplier | Case::Parity => merged(alloc, arena, one, other),
            Case::Remap => renumbered(alloc, arena, one),
            Case::Letters => Ok(least_letters(alloc, arena, one)?.len()),
        }
    }
}

// Does what the case says so many times, and tells how large the result is, and the processor time of all times.
pub(crate) fn measure<R: CpuClock>(
    rt: &R,
    alloc: Global,
    case: Case,
    slots: u8,
    times: u32,
) -> anyhow::Result<(usize, Duration)> {
    let mut arena = Arena::new(alloc, slots.min(32), LIMIT);
    let (one, other) = case.functions(&mut arena)?;
    let before = rt.process_cpu_time()?;
    let mut size = 0;
    for _ in 0..times {
        size = case.perform(alloc, &arena, one, other)?;
    }
    let after = rt.process_cpu_time()?;
    Ok((size, after.saturating_sub(before)))
}

// The parity of all slots, and that of each other slot.
fn parities(arena: &mut Arena) -> Result<(Ref, Ref), ArenaFault> {
    let one = parity(arena, 1)?;
    let other = parity(arena, 2)?;
    Ok((one, other))
}

// Two functions that are built from their numbers, where their letters are no more than can be gone through.
fn built(arena: &mut Arena, first: Function, second: Function) -> Result<(Ref, Ref), ArenaFault> {
    let one = first.build(arena, 0, 0)?;
    let other = second.build(arena, 0, 0)?;
    Ok((one, other))
}

// The nodes of a random function.
fn rebuilt(alloc: Global, slots: u8) -> Result<usize, ApplyFault> {
    let mut arena = Arena::new(alloc, slots, LIMIT);
    Function::Random { seed: 3 << 40 }.build(&mut arena, 0, 0)?;
    Ok(arena.len() as usize)
}

// The nodes of what two functions are merged into.
fn merged(alloc: Global, arena: &Arena, one: Ref, other: Ref) -> Result<usize, ApplyFault> {
    let mut results = Arena::new(alloc, arena.slots(), LIMIT);
    let mut memo = Memo::new(alloc, USUAL_CAPACITY)?;
    let operands = [(0, one), (0, other)];
    apply(
        alloc,
        &mut results,
        arena,
        arena,
        &operands,
        &mut Differ,
        &mut memo,
        0,
    )?;
    Ok(results.len() as usize)
}

// The nodes of a function that gets other numbers.
fn renumbered(alloc: Global, arena: &Arena, root: Ref) -> Result<usize, ApplyFault> {
    let mut results = Arena::new(alloc, arena.slots(), LIMIT);
    remap(alloc, &mut results, arena, root, &[7, 5])?;
    Ok(results.len() as usize)
}

// Whether two numbers differ, as 0 or 1.
#[derive(Drop)]
struct Differ;

impl Merge for Differ {
    ghost use Rattle.std.specs.Prelude.{◌≡◌, ◌++◌, ◌∷◌, [], fold, eqb, if◌then◌else◌};
    ghost use Rattle.std.proofs.Common.{sym, ◌∙◌};

    ghost may = { λ merge numbers. Unit {0} };

    ghost gives = { λ merge numbers number. number ≡ fold (λ a b. if eqb a b then 0 else 1) 0 numbers };

    ghost full = { λ merge limit. ⊥ };

    ghost becomes = { λ old new. Unit {0} };

    fn leaf(&mut self, leaves: &[u32]) -> Result<u32, MergeFault> {
        Ok(
            leaves
                .iter()
                .fold(0, |odd, leaf| if odd == *leaf { 0 } else { 1 }),
        )
    }

    ghost one_number = { λ merge numbers first second one other. one ∙ sym other };

    ghost stays = { λ merge. tt };

    ghost goes_on = { λ first second third one other. tt };
}
