//! Loads and stores, fills and copies at addresses that a linear congruence gives.

ghost use Rattle.std.specs.Prelude.{◌≡◌, ◌⊎◌};

use page_memory::Pages;
use std::alloc::{AllocError, Global};

/// The next number of the congruence.
fn next(state: u64) -> u64 {
    state
        .wrapping_mul(6_364_136_223_846_793_005)
        .wrapping_add(1_442_695_040_888_963_407)
}

/// The sum, after so many stores and loads of a width at addresses below 2^20.
fn exercise(memory: &mut Pages, rounds: u64, width: u32) -> u64
    requires { (width ≡ 1) ⊎ (width ≡ 2) ⊎ (width ≡ 4) ⊎ (width ≡ 8) }
{
    let mut state = u64::from(width);
    let mut sum = 0u64;
    for _ in 0..rounds {
        state = next(state);
        memory.store(state >> 44, width, state);
        state = next(state);
        sum = sum.wrapping_add(memory.load(state >> 44, width).unwrap_or(1));
    }
    sum
}

/// The sum of what is loaded, in so many rounds of each width.
pub fn sum_of(alloc: Global, rounds: u64) -> Result<u64, AllocError> {
    let mut memory = Pages::new(alloc, 16, None)?;
    let bytes = exercise(&mut memory, rounds, 1);
    let halves = exercise(&mut memory, rounds, 2);
    let words = exercise(&mut memory, rounds, 4);
    let doubles = exercise(&mut memory, rounds, 8);
    Ok(
        bytes
            .wrapping_add(halves)
            .wrapping_add(words)
            .wrapping_add(doubles),
    )
}

/// The sum of what is loaded, in so many rounds of a fill and a copy of less than 65,536 bytes at addresses below 2^19.
pub fn sum_of_copies(alloc: Global, rounds: u64) -> Result<u64, AllocError> {
    let mut memory = Pages::new(alloc, 16, None)?;
    let mut state = 1;
    let mut sum = 0u64;
    for _ in 0..rounds {
        state = next(state);
        memory.fill(state >> 45, (state >> 56) as u8, state >> 48);
        state = next(state);
        let from = state >> 45;
        state = next(state);
        memory.copy(state >> 45, from, state >> 48);
        sum = sum.wrapping_add(memory.load(state >> 45, 8).unwrap_or(1));
    }
    Ok(sum)
}
