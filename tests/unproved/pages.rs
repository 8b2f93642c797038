//! Memories up to and past their end (standard, sections 4.4.4 and 4.2.8).

use page_memory::Pages;
use std::alloc::{AllocError, Global};
use std::test::Fail;

/// One page whose last eight bytes are FE DC BA 98 76 54 32 10.
fn filled(alloc: Global) -> Result<Pages, AllocError> {
    let mut memory = Pages::new(alloc, 1, None)?;
    memory.write(65_528, &[0xFE, 0xDC, 0xBA, 0x98, 0x76, 0x54, 0x32, 0x10]);
    Ok(memory)
}

#[test]
fn loads_are_little_endian_up_to_the_end(rt: HostRuntime) -> Result<(), Fail> {
    let memory = filled(rt.alloc())?;
    assert_eq!(rt; memory.load(65_535, 1), Some(0x10));
    assert_eq!(rt; memory.load(65_534, 2), Some(0x1032));
    assert_eq!(rt; memory.load(65_532, 4), Some(0x1032_5476));
    assert_eq!(rt; memory.load(65_528, 8), Some(0x1032_5476_98BA_DCFE));
    assert_eq!(rt; memory.load(65_526, 4), Some(0xDCFE_0000));
    Ok(())
}

#[test]
fn loads_one_past_the_end_are_none(rt: HostRuntime) -> Result<(), Fail> {
    let memory = filled(rt.alloc())?;
    assert_eq!(rt; memory.load(65_536, 1), None);
    assert_eq!(rt; memory.load(65_535, 2), None);
    assert_eq!(rt; memory.load(65_533, 4), None);
    assert_eq!(rt; memory.load(65_529, 8), None);
    assert_eq!(rt; memory.load(1 << 33, 1), None);
    assert_eq!(rt; memory.load(u64::MAX, 8), None);
    Ok(())
}

#[test]
fn stores_keep_the_low_bytes(rt: HostRuntime) -> Result<(), Fail> {
    let mut memory = filled(rt.alloc())?;
    let value = 0x8877_6655_4433_2211;
    assert!(rt; memory.store(65_535, 1, value));
    assert_eq!(rt; memory.load(65_528, 8), Some(0x1132_5476_98BA_DCFE));
    assert!(rt; memory.store(65_532, 2, value));
    assert_eq!(rt; memory.load(65_528, 8), Some(0x1132_2211_98BA_DCFE));
    assert!(rt; memory.store(65_529, 4, value));
    assert_eq!(rt; memory.load(65_528, 8), Some(0x1132_2244_3322_11FE));
    assert!(rt; memory.store(65_528, 8, value));
    assert_eq!(rt; memory.load(65_528, 8), Some(0x8877_6655_4433_2211));
    Ok(())
}

#[test]
fn writes_past_the_end_change_nothing(rt: HostRuntime) -> Result<(), Fail> {
    let mut memory = filled(rt.alloc())?;
    assert!(rt; !memory.store(65_536, 1, 1));
    assert!(rt; !memory.store(65_535, 2, 1));
    assert!(rt; !memory.store(65_533, 4, 1));
    assert!(rt; !memory.store(65_529, 8, 1));
    assert!(rt; !memory.store(u64::MAX, 8, 1));
    assert!(rt; !memory.write(65_534, &[1, 2, 3]));
    assert!(rt; !memory.write(65_537, &[]));
    assert!(rt; memory.write(65_536, &[]));
    assert_eq!(rt; memory.load(65_528, 8), Some(0x1032_5476_98BA_DCFE));
    Ok(())
}

#[test]
fn copies_what_stood_there_before(rt: HostRuntime) -> Result<(), Fail> {
    let mut memory = filled(rt.alloc())?;
    assert!(rt; memory.copy(65_530, 65_528, 6));
    assert_eq!(rt; memory.load(65_528, 8), Some(0x5476_98BA_DCFE_DCFE));
    let mut memory = filled(rt.alloc())?;
    assert!(rt; memory.copy(65_528, 65_530, 6));
    assert_eq!(rt; memory.load(65_528, 8), Some(0x1032_1032_5476_98BA));
    assert!(rt; memory.copy(0, 65_528, 8));
    assert_eq!(rt; memory.load(0, 8), Some(0x1032_1032_5476_98BA));
    assert_eq!(rt; memory.load(8, 1), Some(0));
    assert!(rt; memory.copy(65_528, 65_528, 8));
    assert_eq!(rt; memory.load(65_528, 8), Some(0x1032_1032_5476_98BA));
    Ok(())
}

#[test]
fn copies_past_the_end_change_nothing(rt: HostRuntime) -> Result<(), Fail> {
    let mut memory = filled(rt.alloc())?;
    assert!(rt; !memory.copy(65_529, 65_520, 8));
    assert!(rt; !memory.copy(65_520, 65_529, 8));
    assert!(rt; !memory.copy(65_537, 0, 0));
    assert!(rt; !memory.copy(0, 65_537, 0));
    assert!(rt; !memory.copy(u64::MAX, 0, 1));
    assert!(rt; !memory.copy(0, 1, u64::MAX));
    assert!(rt; memory.copy(65_536, 0, 0));
    assert!(rt; memory.copy(0, 65_536, 0));
    assert_eq!(rt; memory.load(0, 8), Some(0));
    assert_eq!(rt; memory.load(65_528, 8), Some(0x1032_5476_98BA_DCFE));
    Ok(())
}

#[test]
fn fills_up_to_the_end_and_not_past_it(rt: HostRuntime) -> Result<(), Fail> {
    let mut memory = filled(rt.alloc())?;
    assert!(rt; !memory.fill(65_533, 7, 4));
    assert!(rt; !memory.fill(65_537, 7, 0));
    assert!(rt; !memory.fill(u64::MAX, 7, 1));
    assert!(rt; !memory.fill(1, 7, u64::MAX));
    assert!(rt; memory.fill(65_536, 7, 0));
    assert_eq!(rt; memory.load(65_528, 8), Some(0x1032_5476_98BA_DCFE));
    assert!(rt; memory.fill(65_530, 0xAB, 3));
    assert_eq!(rt; memory.load(65_528, 8), Some(0x1032_54AB_ABAB_DCFE));
    assert!(rt; memory.fill(0, 0xFF, 65_536));
    assert_eq!(rt; memory.load(65_528, 8), Some(u64::MAX));
    Ok(())
}

#[test]
fn grows_up_to_the_declared_maximum(rt: HostRuntime) -> Result<(), Fail> {
    let mut memory = Pages::new(rt.alloc(), 1, Some(3))?;
    memory.store(65_535, 1, 7);
    assert_eq!(rt; memory.grow(3)?, None);
    assert_eq!(rt; memory.grow(u32::MAX)?, None);
    assert_eq!(rt; memory.bytes().len(), 65_536);
    assert_eq!(rt; memory.grow(2)?, Some(1));
    assert_eq!(rt; memory.size(), 3);
    assert_eq!(rt; memory.load(65_535, 4), Some(7));
    assert_eq!(rt; memory.load(196_604, 4), Some(0));
    assert_eq!(rt; memory.grow(1)?, None);
    assert_eq!(rt; memory.grow(0)?, Some(3));
    Ok(())
}

#[test]
fn grows_up_to_1024_pages(rt: HostRuntime) -> Result<(), Fail> {
    let mut memory = Pages::new(rt.alloc(), 1, Some(65_536))?;
    assert_eq!(rt; memory.grow(1_024)?, None);
    assert_eq!(rt; memory.size(), 1);
    assert_eq!(rt; memory.grow(1)?, Some(1));
    assert_eq!(rt; memory.grow(1_023)?, None);
    assert_eq!(rt; memory.bytes().len(), 131_072);
    Ok(())
}
