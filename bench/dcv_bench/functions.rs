// The functions that are measured, or that measured machines go on by: random ones, bits of a product, and parities.

use dcv_arena::{Arena, ArenaFault, Ref};

// A function of letters by its number at each, 0 or 1. A letter is a number, with slot 0 as its highest bit.
#[derive(Clone, Copy)]
pub(crate) enum Function {
    // A number that seems to be random, one for each seed.
    Random { seed: u64 },
    // A bit of the product of the letter's two halves.
    Product { bit: u32 },
    // Whether an odd number of these bits are set.
    Odd { mask: u32 },
    // Whether an even number of them are.
    Even { mask: u32 },
}

impl Function {
    // The number at a letter.
    fn number(self, slots: u8, letter: u32) -> u32 {
        let bits = match self {
            Function::Random { seed } => mixed(seed ^ u64::from(letter)) >> 63,
            Function::Product { bit } => {
                let half = u32::from(slots) / 2;
                let (high, low) = (letter.wrapping_shr(half), letter & mask(half));
                u64::from(high.wrapping_mul(low).wrapping_shr(bit))
            }
            Function::Odd { mask } => u64::from((letter & mask).count_ones()),
            Function::Even { mask } => u64::from((letter & mask).count_ones()) ^ 1,
        };
        if bits & 1 == 1 { 1 } else { 0 }
    }

    // The diagram of the function after the slots before `slot`, where the letter begins with these values.
    pub(crate) fn build(self, arena: &mut Arena, slot: u8, front: u32) -> Result<Ref, ArenaFault> {
        if slot == arena.slots() {
            return Ok(arena.leaf(self.number(slot, front)));
        }
        let lo = self.build(arena, slot + 1, front.wrapping_mul(2))?;
        let hi = self.build(arena, slot + 1, front.wrapping_mul(2) | 1)?;
        let node = arena.node(slot, lo, hi)?;
        Ok(node)
    }
}

// The number of so many bits, all of them 1.
fn mask(bits: u32) -> u32 {
    1u32.wrapping_shl(bits).wrapping_sub(1)
}

// A number whose highest bits seem to be random: G. L. Steele, D. Lea and C. H. Flood, "Fast Splittable Pseudorandom
// Number Generators", 2014.
fn mixed(seed: u64) -> u64 {
    let first = seed.wrapping_mul(0x9E37_79B9_7F4A_7C15);
    let second = (first ^ (first >> 30)).wrapping_mul(0xBF58_476D_1CE4_E5B9);
    let third = (second ^ (second >> 27)).wrapping_mul(0x94D0_49BB_1331_11EB);
    third ^ (third >> 31)
}

// Whether an odd number of the slots are true, of every slot or of each so many.
pub(crate) fn parity(arena: &mut Arena, each: u8) -> Result<Ref, ArenaFault> {
    dcv_tables::parity(arena, each, 0, 1, 2)
}
