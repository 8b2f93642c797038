//! The loops `memory` and `copies` of `bench/loops` over a plain slice, for `memory.sh`.

/// The number at an address, or None past the end.
fn load(bytes: &[u8], addr: u64, width: u32) -> Option<u64> {
    let rest = bytes.get(addr as usize..)?;
    match width {
        1 => Some(u64::from(*rest.first()?)),
        2 => Some(u64::from(u16::from_le_bytes(*rest.first_chunk()?))),
        4 => Some(u64::from(u32::from_le_bytes(*rest.first_chunk()?))),
        _ => Some(u64::from_le_bytes(*rest.first_chunk()?)),
    }
}

/// Writes a piece at an address; None past the end.
fn write<const N: usize>(bytes: &mut [u8], addr: u64, piece: [u8; N]) -> Option<()> {
    *bytes.get_mut(addr as usize..)?.first_chunk_mut()? = piece;
    Some(())
}

/// Stores the low bytes of a number at an address; false past the end.
fn store(bytes: &mut [u8], addr: u64, width: u32, value: u64) -> bool {
    match width {
        1 => write(bytes, addr, (value as u8).to_le_bytes()),
        2 => write(bytes, addr, (value as u16).to_le_bytes()),
        4 => write(bytes, addr, (value as u32).to_le_bytes()),
        _ => write(bytes, addr, value.to_le_bytes()),
    }
    .is_some()
}

fn next(state: u64) -> u64 {
    state
        .wrapping_mul(6_364_136_223_846_793_005)
        .wrapping_add(1_442_695_040_888_963_407)
}

fn exercise(memory: &mut [u8], rounds: u64, width: u32) -> u64 {
    let mut state = u64::from(width);
    let mut sum = 0u64;
    for _ in 0..rounds {
        state = next(state);
        store(memory, state >> 44, width, state);
        state = next(state);
        sum = sum.wrapping_add(load(memory, state >> 44, width).unwrap_or(1));
    }
    sum
}

fn copies(memory: &mut [u8], rounds: u64) -> u64 {
    let mut state = 1;
    let mut sum = 0u64;
    for _ in 0..rounds {
        state = next(state);
        let (at, len) = ((state >> 45) as usize, (state >> 48) as usize);
        memory[at..at + len].fill((state >> 56) as u8);
        state = next(state);
        let from = (state >> 45) as usize;
        state = next(state);
        let (at, len) = ((state >> 45) as usize, (state >> 48) as usize);
        memory.copy_within(from..from + len, at);
        sum = sum.wrapping_add(load(memory, state >> 45, 8).unwrap_or(1));
    }
    sum
}

fn main() {
    if let Some(rounds) = std::env::args().nth(2).and_then(|word| word.parse::<u64>().ok()) {
        println!("{}", copies(&mut vec![0u8; 16 * 65_536], rounds));
        return;
    }
    let rounds = std::env::args()
        .nth(1)
        .and_then(|word| word.parse::<u64>().ok())
        .unwrap_or(1_000);
    let mut memory = vec![0u8; 16 * 65_536];
    let sum = [1, 2, 4, 8]
        .into_iter()
        .map(|width| exercise(&mut memory, rounds / 4, width))
        .fold(0, u64::wrapping_add);
    println!("{sum}");
}
