// A machine whose states stand in a ring, of any size: what the measured explorations are made of.

use crate::functions::Function;
use anyhow::bail;
use dcv_arena::{Arena, Ref};
use dcv_explore::{Machine, Operands};
use std::alloc::{AllocError, Global};

// At each letter the state, or twice the state, goes on by the number that the function of a node has there, round and round.
// State 0 accepts.
#[derive(Drop)]
pub(crate) struct Ring {
    arena: Arena,
    place: u32,
    size: u32,
    doubles: bool,
}

impl Ring {
    // The ring of so many states, which go on by a function of letters of so many slots.
    pub(crate) fn new(
        alloc: Global,
        slots: u8,
        function: Function,
        size: u32,
        doubles: bool,
    ) -> anyhow::Result<Ring> {
        let mut arena = Arena::new(alloc, slots, 1000);
        let Ref::Place(place) = function.build(&mut arena, 0, 0)? else {
            bail!("the function is one number");
        };
        if size == 0 {
            bail!("there is no state");
        }
        Ok(Ring {
            arena,
            place,
            size,
            doubles,
        })
    }
}

// Where so many steps lead in a ring of this size.
fn around(steps: u64, size: u32) -> u32 {
    (steps % u64::from(size)) as u32
}

impl Machine for Ring {
    ghost use Rattle.std.specs.Prelude.{◌≡◌, ◌+◌, ◌*◌, ◌%◌, ◌==◌, ℕ, false, length, if◌then◌else◌, slice_index_or};
    ghost use Rattle.std.specs.Cmp.{unsigned_Decides};
    ghost use Rattle.dcv_arena.specs.Arena.{value_of};
    ghost use Rattle.dcv_arena.specs.declared.nodes.Ref.TheVariants.{Place};

    type Macro = u32;

    ghost both_last = { false };

    ghost State = { ℕ };

    ghost state = { λ state. state };

    ghost machine = { λ ring. record {
      slots = ring.arena.slots;
      automaton = record {
        start = 0;
        next = λ state letter. ((if ring.doubles then state * 2 else state) + value_of ring.arena (Place ring.place) letter) % ring.size;
        accepting = λ state. state == 0;
      };
    } };

    ghost operand = { λ ring place. ring.arena };

    ghost may = { λ ring numbers. length numbers ≡ 2 };

    ghost merged = { λ ring numbers. ((if ring.doubles then slice_index_or numbers 0 0 * 2 else slice_index_or numbers 0 0)
        + slice_index_or numbers 1 0) % ring.size };

    ghost extended = { λ ring state numbers. state };

    fn both_last(&self) -> bool {
        false
    }

    fn slots(&self) -> u8 {
        self.arena.slots()
    }

    fn start(&self, _alloc: Global) -> Result<u32, AllocError> {
        Ok(0)
    }

    fn arena(&self, _place: u32) -> &Arena {
        &self.arena
    }

    fn operands(&self, from: &u32, to: &mut Operands) -> Result<(), AllocError> {
        to.push(0, Ref::Leaf(*from))?;
        to.push(0, Ref::Place(self.place))
    }

    fn merge(&self, _alloc: Global, leaves: &[u32]) -> Result<u32, AllocError> {
        let from = u64::from(leaves[0]);
        let before = if self.doubles { from * 2 } else { from };
        Ok(around(before + u64::from(leaves[1]), self.size))
    }

    fn copy(&self, _alloc: Global, of: &u32) -> Result<u32, AllocError> {
        Ok(*of)
    }

    fn extend(&self, _alloc: Global, of: &u32, _numbers: &[u32]) -> Result<u32, AllocError> {
        Ok(*of)
    }

    fn accepts(&self, of: &u32) -> bool {
        *of == 0
    }

    ghost sameness = { unsigned_Decides };
}
