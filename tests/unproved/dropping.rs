//! Trees that are dropped and copied without recursion. The tests have so little stack that a tree of 9,000 levels doesn't fit when it is dropped level in level.

use crate::limits::{nested, put_blocks};
use crate::modules::FUNC;
use wa_types::{Bounds, Instr, Module, copy_body, drop_body};
use std::alloc::{AllocError, Global};
use std::test::Fail;
use wasm_build::{BuildFault, Builder};
use wasm_reader::{ReadFault, Reader};

/// So many constructs inside one another, each kind in turn, with an instruction before and behind each.
fn deep(alloc: Global, levels: u32) -> Result<Vec<Instr>, AllocError> {
    let mut body = Vec::new(alloc);
    for level in 0..levels {
        let other = vec![in alloc; Instr::Nop]?;
        let around = match level % 4 {
            0 => Instr::Block { result: None, body },
            1 => Instr::Loop { result: None, body },
            2 => Instr::If {
                result: None,
                then_arm: body,
                else_arm: other,
            },
            _ => Instr::If {
                result: None,
                then_arm: other,
                else_arm: body,
            },
        };
        body = vec![in alloc; Instr::Nop, around, Instr::Drop]?;
    }
    Ok(body)
}

#[test]
fn a_hundred_thousand_levels_are_dropped(rt: HostRuntime) -> Result<(), Fail> {
    drop_body(deep(rt.alloc(), 100_000)?);
    Ok(())
}

#[test]
fn a_hundred_thousand_levels_are_copied(rt: HostRuntime) -> Result<(), Fail> {
    let alloc = rt.alloc();
    let body = deep(alloc, 100_000)?;
    let copy = copy_body(alloc, &body)?;
    assert_eq!(rt; copy.len(), 3);
    drop_body(body);
    drop_body(copy);
    Ok(())
}

/// The module of this file, which comes in pieces.
fn in_pieces(alloc: Global, file: &[u8]) -> Result<Module, ReadFault> {
    let mut reader = Reader::new(alloc, Bounds::prepared());
    for piece in file.chunks(1_000) {
        reader.feed(piece)?;
    }
    reader.finish()
}

#[test]
fn the_deepest_prepared_module_is_read_in_pieces_and_dropped(rt: HostRuntime) -> Result<(), Fail> {
    let alloc = rt.alloc();
    let file = nested(alloc, b"\x0A\xC5\x46\x01\xC2\x46\0", 3_008)?;
    let Ok(module) = in_pieces(alloc, &file) else {
        assert!(rt; false);
        return Ok(());
    };
    assert_eq!(rt; module.funcs.len(), 1);
    drop(module);
    Ok(())
}

/// A file whose float, which no module has, stands in the second arm of an if, behind blocks that nest: before the if, in its first arm, and before
/// the float.
fn float_behind_blocks(alloc: Global) -> Result<Vec<u8>, AllocError> {
    let mut file = Vec::from_slice(alloc, FUNC)?;
    file.extend_from_slice(b"\x0A\xB2\xF7\x36\x01\xAE\xF7\x36\0")?;
    put_blocks(&mut file, 100_000)?;
    file.extend_from_slice(b"\x41\0\x04\x40")?;
    put_blocks(&mut file, 100_000)?;
    file.push(0x05)?;
    put_blocks(&mut file, 100_000)?;
    file.extend_from_slice(b"\x43\0\0\0\0\x1A\x0B\x0B")?;
    Ok(file)
}

#[test]
fn a_hundred_thousand_levels_half_built_are_dropped(rt: HostRuntime) -> Result<(), Fail> {
    let alloc = rt.alloc();
    let file = float_behind_blocks(alloc)?;
    let built = Builder::new(alloc).take(alloc, &file, 0);
    assert_eq!(rt; built, Err(BuildFault::NotSpelled));
    Ok(())
}
