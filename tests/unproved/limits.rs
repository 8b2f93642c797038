//! The bound on nesting of prepared modules, beside that of source modules.

use crate::modules::FUNC;
use std::alloc::{AllocError, Global};
use std::test::Fail;
use wa_types::Bounds;
use wasm_reader::{ReadFault, read};

/// A file of one function that nests so many blocks; `head` is what stands before its code.
pub fn nested(alloc: Global, head: &[u8], blocks: u32) -> Result<Vec<u8>, AllocError> {
    let mut bytes = Vec::from_slice(alloc, FUNC)?;
    bytes.extend_from_slice(head)?;
    put_blocks(&mut bytes, blocks)?;
    bytes.push(0x0B)?;
    Ok(bytes)
}

/// Puts so many blocks inside one another behind these bytes.
pub fn put_blocks(bytes: &mut Vec<u8>, blocks: u32) -> Result<(), AllocError> {
    for _index in 0..blocks {
        bytes.extend_from_slice(b"\x02\x40")?;
    }
    for _index in 0..blocks {
        bytes.push(0x0B)?;
    }
    Ok(())
}

/// Why a file isn't read within these bounds.
fn refused(alloc: Global, bytes: &[u8], bounds: &Bounds) -> Option<ReadFault> {
    read(alloc, bytes, bounds).err()
}

#[test]
fn levels_go_up_to_each_bound(rt: HostRuntime) -> Result<(), Fail> {
    let alloc = rt.alloc();
    let source = nested(alloc, b"\x0A\xBD\x17\x01\xBA\x17\0", 1_000)?;
    assert_eq!(rt; refused(alloc, &source, &Bounds::source()), None);
    let past = nested(alloc, b"\x0A\xC0\x17\x01\xBD\x17\0", 1_001)?;
    let deep = Some(ReadFault::Deep { at: 2_025 });
    assert_eq!(rt; refused(alloc, &past, &Bounds::source()), deep);
    assert_eq!(rt; refused(alloc, &past, &Bounds::prepared()), None);
    Ok(())
}

#[test]
fn prepared_modules_nest_3008_levels_at_most(rt: HostRuntime) -> Result<(), Fail> {
    let alloc = rt.alloc();
    let deepest = nested(alloc, b"\x0A\xC5\x46\x01\xC2\x46\0", 3_008)?;
    assert_eq!(rt; refused(alloc, &deepest, &Bounds::prepared()), None);
    let past = nested(alloc, b"\x0A\xC8\x46\x01\xC5\x46\0", 3_009)?;
    let deep = Some(ReadFault::Deep {
        at: 18 + 1 + 2 + 1 + 2 + 1 + 2 * 3_008,
    });
    assert_eq!(rt; refused(alloc, &past, &Bounds::prepared()), deep);
    Ok(())
}
