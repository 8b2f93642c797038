//! Flat functions: which locals they have and, whole, the statements of small bodies, written out by hand.

use crate::limits::nested;
use crate::modules::{FUNC, LoadFault, valid};
use crate::showing::shown;
use flatten::{FlatFault, flatten};
use std::alloc::{AllocError, Global};
use std::test::Fail;
use thiserror::Error;
use wa_model::{FlatModule, Stmt};
use wa_types::ValType;

/// Why bytes have no flat functions.
#[derive(Debug, Drop, Error)]
pub enum FlattenFault {
    #[error("the module isn't there")]
    Load(LoadFault),
    #[error("the module isn't flattened")]
    Flatten(FlatFault),
}

/// What these bytes' functions that `which` tells are, flattened.
pub fn flattened(alloc: Global, bytes: &[u8], which: &[bool]) -> Result<FlatModule, FlattenFault> {
    match valid(alloc, bytes) {
        Ok(module) => flatten(alloc, &module, which).map_err(FlattenFault::Flatten),
        Err(fault) => Err(FlattenFault::Load(fault)),
    }
}

/// `run`, function 1 of type `[i32] -> [i32]` with a local i32: `loop; local.get 1; i32.const 0; if (i32)
/// i32.const 100; else local.get 0; call 0; end; i32.add; local.set 1; local.get 0; i32.const 1; i32.sub;
/// local.tee 0; br_if 0; end; local.get 1`.
pub const COUNTDOWN: &[u8] = b"\
    \x00asm\x01\x00\x00\x00\x01\x06\x01\x60\x01\x7f\x01\x7f\x02\x0d\x01\x03env\x05pause\x00\x00\x03\x02\
    \x01\x00\x07\x07\x01\x03run\x00\x01\x0a\x26\x01\x24\x01\x01\x7f\x03\x40\x20\x01\x41\x00\x04\x7f\x41\
    \xe4\x00\x05\x20\x00\x10\x00\x0b\x6a\x21\x01\x20\x00\x41\x01\x6b\x22\x00\x0d\x00\x0b\x20\x01\x0b";

/// Its flat function. Local 1 is the declared one, 2 and 3 are the slots of heights 0 and 1, 4 and 5 the result locals
/// of depths 0 and 2: the loop has no result.
const COUNTDOWN_FLAT: &str = "\
    FlatFunc { func: 1, sort: 0, locals: [I32, I32, I32, I32, I32, I32], result: Some(4), body: [\
    Loop([\
    Move { to: 2, from: Local(1) }, \
    Plain { op: Const(I32(0)), args: [], to: Some(3) }, \
    If { cond: Local(3), then_arm: [\
    Plain { op: Const(I32(100)), args: [], to: Some(3) }, \
    Move { to: 5, from: Local(3) }], else_arm: [\
    Move { to: 3, from: Local(0) }, \
    Call { op: Call(0), stack: [2, 3], args: 1, to: Some(3) }, \
    Move { to: 5, from: Local(3) }] }, \
    Move { to: 3, from: Local(5) }, \
    Plain { op: Num(I32Add), args: [Local(2), Local(3)], to: Some(2) }, \
    Move { to: 1, from: Local(2) }, \
    Move { to: 2, from: Local(0) }, \
    Plain { op: Const(I32(1)), args: [], to: Some(3) }, \
    Plain { op: Num(I32Sub), args: [Local(2), Local(3)], to: Some(2) }, \
    Move { to: 0, from: Local(2) }, \
    BrIf { cond: Local(2), label: 0 }]), \
    Move { to: 2, from: Local(1) }, \
    Move { to: 4, from: Local(2) }] }";

/// `run`, function 1 of type `[i32] -> [i32]`: `block (i32) i32.const 5; block (i32) i32.const 9; local.get 0;
/// br_table [0] 1; end; i32.add; end; call 0`.
pub const SELECTOR: &[u8] = b"\
    \x00asm\x01\x00\x00\x00\x01\x06\x01\x60\x01\x7f\x01\x7f\x02\x0d\x01\x03env\x05pause\x00\x00\x03\x02\
    \x01\x00\x07\x07\x01\x03run\x00\x01\x0a\x17\x01\x15\x00\x02\x7f\x41\x05\x02\x7f\x41\x09\x20\x00\x0e\
    \x01\x00\x01\x0b\x6a\x0b\x10\x00\x0b";

/// Its flat function. Locals 1 to 3 are the slots of heights 0 to 2, 4 to 6 the result locals of depths 0 to 2.
const SELECTOR_FLAT: &str = "\
    FlatFunc { func: 1, sort: 0, locals: [I32, I32, I32, I32, I32, I32, I32], result: Some(4), body: [\
    Block([\
    Plain { op: Const(I32(5)), args: [], to: Some(1) }, \
    Block([\
    Plain { op: Const(I32(9)), args: [], to: Some(2) }, \
    Move { to: 3, from: Local(0) }, \
    Move { to: 6, from: Local(2) }, \
    Move { to: 5, from: Local(2) }, \
    BrTable { index: Local(3), labels: [0], last: 1 }]), \
    Move { to: 2, from: Local(6) }, \
    Plain { op: Num(I32Add), args: [Local(1), Local(2)], to: Some(1) }, \
    Move { to: 5, from: Local(1) }]), \
    Move { to: 1, from: Local(5) }, \
    Call { op: Call(0), stack: [1], args: 1, to: Some(1) }, \
    Move { to: 4, from: Local(1) }] }";

/// `run`, function 1 of type `[] -> [i64]` with a local i64: `i32.const 1; memory.grow; drop; i64.const 5000000000;
/// local.set 0; local.get 0; i32.const 2; call 0; i64.extend_i32_u; i64.div_u`.
const DIVISION: &[u8] = b"\
    \x00asm\x01\x00\x00\x00\x01\x0a\x02\x60\x01\x7f\x01\x7f\x60\x00\x01\x7e\x02\x0d\x01\x03env\x05pause\
    \x00\x00\x03\x02\x01\x01\x05\x03\x01\x00\x01\x07\x07\x01\x03run\x00\x01\x0a\x1b\x01\x19\x01\x01\x7e\
    \x41\x01\x40\x00\x1a\x42\x80\xe4\x97\xd0\x12\x21\x00\x20\x00\x41\x02\x10\x00\xad\x80\x0b";

/// Its flat function. Local 0 is the declared one, 1 to 4 are the slots of heights 0 and 1, i32 before i64, and 5 is
/// the result local of depth 0.
const DIVISION_FLAT: &str = "\
    FlatFunc { func: 1, sort: 1, locals: [I64, I32, I64, I32, I64, I64], result: Some(5), body: [\
    Plain { op: Const(I32(1)), args: [], to: Some(1) }, \
    Plain { op: MemoryGrow, args: [Local(1)], to: Some(1) }, \
    Plain { op: Drop, args: [Local(1)], to: None }, \
    Plain { op: Const(I64(5000000000)), args: [], to: Some(2) }, \
    Move { to: 0, from: Local(2) }, \
    Move { to: 2, from: Local(0) }, \
    Plain { op: Const(I32(2)), args: [], to: Some(3) }, \
    Call { op: Call(0), stack: [2, 3], args: 1, to: Some(3) }, \
    Plain { op: Num(I64ExtendI32U), args: [Local(3)], to: Some(4) }, \
    Plain { op: Num(I64DivU), args: [Local(2), Local(4)], to: Some(2) }, \
    Move { to: 5, from: Local(2) }] }";

/// Function 0 of type `[i32] -> [i64]`: `i64.const 7; block (i64) i64.const 8; block (i64) i64.const 9; local.get 0;
/// br_table [0, 1] 2; end; i64.add; end; i64.add`.
const THREE_HEIGHTS: &[u8] = b"\
    \x00asm\x01\x00\x00\x00\x01\x06\x01\x60\x01\x7f\x01\x7e\x03\x02\x01\x00\x0a\x19\x01\x17\x00\x42\x07\
    \x02\x7e\x42\x08\x02\x7e\x42\x09\x20\x00\x0e\x02\x00\x01\x02\x0b\x7c\x0b\x7c\x0b";

/// Its flat function. Locals 1 to 3 are the i64 slots of heights 0 to 2, 4 is the i32 slot of height 3, and 5 to 7 are
/// the result locals of depths 0 to 2.
const THREE_HEIGHTS_FLAT: &str = "\
    FlatFunc { func: 0, sort: 0, locals: [I32, I64, I64, I64, I32, I64, I64, I64], result: Some(5), body: [\
    Plain { op: Const(I64(7)), args: [], to: Some(1) }, \
    Block([\
    Plain { op: Const(I64(8)), args: [], to: Some(2) }, \
    Block([\
    Plain { op: Const(I64(9)), args: [], to: Some(3) }, \
    Move { to: 4, from: Local(0) }, \
    Move { to: 7, from: Local(3) }, \
    Move { to: 6, from: Local(3) }, \
    Move { to: 5, from: Local(3) }, \
    BrTable { index: Local(4), labels: [0, 1], last: 2 }]), \
    Move { to: 3, from: Local(7) }, \
    Plain { op: Num(I64Add), args: [Local(2), Local(3)], to: Some(2) }, \
    Move { to: 6, from: Local(2) }]), \
    Move { to: 2, from: Local(6) }, \
    Plain { op: Num(I64Add), args: [Local(1), Local(2)], to: Some(1) }, \
    Move { to: 5, from: Local(1) }] }";

/// Function 0 of type `[i32] -> [i64]`: `local.get 0; if (i32) i32.const 1; else i32.const 2; end; if (i64)
/// i64.const 3; else i64.const 4; return; i64.clz; end`.
const IF_IN_CONDITION: &[u8] = b"\
    \x00asm\x01\x00\x00\x00\x01\x06\x01\x60\x01\x7f\x01\x7e\x03\x02\x01\x00\x0a\x18\x01\x16\x00\x20\x00\
    \x04\x7f\x41\x01\x05\x41\x02\x0b\x04\x7e\x42\x03\x05\x42\x04\x0f\x79\x0b\x0b";

/// Its flat function. Locals 1 and 2 are the slots of height 0, 3 is the result local of depth 0, and 4 and 5 are those
/// of depth 1. The `return` leaves the function's own block, and what stands behind it isn't there.
const IF_IN_CONDITION_FLAT: &str = "\
    FlatFunc { func: 0, sort: 0, locals: [I32, I32, I64, I64, I32, I64], result: Some(3), body: [\
    Move { to: 1, from: Local(0) }, \
    If { cond: Local(1), then_arm: [\
    Plain { op: Const(I32(1)), args: [], to: Some(1) }, \
    Move { to: 4, from: Local(1) }], else_arm: [\
    Plain { op: Const(I32(2)), args: [], to: Some(1) }, \
    Move { to: 4, from: Local(1) }] }, \
    Move { to: 1, from: Local(4) }, \
    If { cond: Local(1), then_arm: [\
    Plain { op: Const(I64(3)), args: [], to: Some(2) }, \
    Move { to: 5, from: Local(2) }], else_arm: [\
    Plain { op: Const(I64(4)), args: [], to: Some(2) }, \
    Move { to: 3, from: Local(2) }, \
    Br(1)] }, \
    Move { to: 2, from: Local(5) }, \
    Move { to: 3, from: Local(2) }] }";

/// Function 0 of type `[] -> [i64]` with a table: `i32.const 1; i32.const 2; i32.const 3; call_indirect 1; drop;
/// loop (i32) i32.const 4; end; drop; drop; unreachable`, where type 1 is `[i32] -> [i32]`.
const NO_RESULT: &[u8] = b"\
    \x00asm\x01\x00\x00\x00\x01\x0a\x02\x60\x00\x01\x7e\x60\x01\x7f\x01\x7f\x03\x02\x01\x00\x04\x04\x01\
    \x70\x00\x01\x0a\x16\x01\x14\x00\x41\x01\x41\x02\x41\x03\x11\x01\x00\x1a\x03\x7f\x41\x04\x0b\x1a\x1a\
    \x00\x0b";

/// Its flat function. Locals 0 to 2 are the slots of heights 0 to 2, and 3 is the result local of depth 0: no i64
/// stands anywhere, and a loop's result stays in its slot.
const NO_RESULT_FLAT: &str = "\
    FlatFunc { func: 0, sort: 0, locals: [I32, I32, I32, I64], result: Some(3), body: [\
    Plain { op: Const(I32(1)), args: [], to: Some(0) }, \
    Plain { op: Const(I32(2)), args: [], to: Some(1) }, \
    Plain { op: Const(I32(3)), args: [], to: Some(2) }, \
    Call { op: CallIndirect(1), stack: [0, 1, 2], args: 2, to: Some(1) }, \
    Plain { op: Drop, args: [Local(1)], to: None }, \
    Loop([Plain { op: Const(I32(4)), args: [], to: Some(1) }]), \
    Plain { op: Drop, args: [Local(1)], to: None }, \
    Plain { op: Drop, args: [Local(0)], to: None }, \
    Unreachable] }";

#[test]
fn each_operand_gets_its_slot(rt: HostRuntime) -> Result<(), Fail> {
    let alloc = rt.alloc();
    let rows = [
        (COUNTDOWN, [false, true].as_slice(), COUNTDOWN_FLAT),
        (SELECTOR, [false, true].as_slice(), SELECTOR_FLAT),
        (DIVISION, [false, true].as_slice(), DIVISION_FLAT),
        (THREE_HEIGHTS, [true].as_slice(), THREE_HEIGHTS_FLAT),
        (IF_IN_CONDITION, [true].as_slice(), IF_IN_CONDITION_FLAT),
        (NO_RESULT, [true].as_slice(), NO_RESULT_FLAT),
    ];
    for (bytes, which, wanted) in rows {
        let flat = flattened(alloc, bytes, which)?;
        let func = &flat.funcs[0];
        assert_eq!(rt; flat.funcs.len(), 1);
        assert_eq!(rt; shown(alloc, func)?.as_str(), wanted);
    }
    Ok(())
}

/// Imports `env.sleep` and `env.log`; functions 2 and 3 give their argument to an import.
const TWO: &[u8] = b"\
    \x00\x61\x73\x6d\x01\x00\x00\x00\x01\x06\x01\x60\x01\x7f\x01\x7f\x02\x17\x02\x03\x65\x6e\x76\x05\x73\
    \x6c\x65\x65\x70\x00\x00\x03\x65\x6e\x76\x03\x6c\x6f\x67\x00\x00\x03\x03\x02\x00\x00\x07\x07\x01\x03\
    \x72\x75\x6e\x00\x03\x0a\x0f\x02\x06\x00\x20\x00\x10\x01\x0b\x06\x00\x20\x00\x10\x00\x0b";

#[test]
fn told_functions_alone_are_flattened(rt: HostRuntime) -> Result<(), Fail> {
    let alloc = rt.alloc();
    let rows = [
        ([false, false], [].as_slice()),
        ([true, false], [2].as_slice()),
        ([false, true], [3].as_slice()),
        ([true, true], [2, 3].as_slice()),
    ];
    for (told, wanted) in rows {
        let flat = flattened(alloc, TWO, &[false, false, told[0], told[1]])?;
        let mut funcs = Vec::new(alloc);
        for func in &flat.funcs {
            funcs.push(func.func)?;
        }
        assert_eq!(rt; funcs.as_slice(), wanted);
    }
    Ok(())
}

/// The functions 1 and 2 of type `[] -> []`, each with so many locals and a body that has one slot.
fn with_locals(alloc: Global, first: &[u8], second: &[u8]) -> Result<Vec<u8>, AllocError> {
    let head = b"\
        \x00asm\x01\x00\x00\x00\x01\x09\x02\x60\x01\x7f\x01\x7f\x60\x00\x00\x02\x0d\x01\x03env\x05pause\
        \x00\x00\x03\x03\x02\x01\x01\x0a\x19\x02";
    let mut bytes = Vec::from_slice(alloc, head)?;
    for count in [first, second] {
        bytes.extend_from_slice(b"\x0b\x01")?;
        bytes.extend_from_slice(count)?;
        bytes.extend_from_slice(b"\x7f\x41\x00\x10\x00\x1a\x0b")?;
    }
    Ok(bytes)
}

/// What flattening refuses.
fn refused(alloc: Global, bytes: &[u8], which: &[bool]) -> Option<FlatFault> {
    match flattened(alloc, bytes, which) {
        Err(FlattenFault::Flatten(fault)) => Some(fault),
        _ => None,
    }
}

#[test]
fn a_function_has_50000_locals_at_most(rt: HostRuntime) -> Result<(), Fail> {
    let alloc = rt.alloc();
    // beside the declared locals stand the slot, the call index and the two scratch locals
    let (most, more, past) = (b"\xcc\x86\x03", b"\xcd\x86\x03", b"\xce\x86\x03");
    let flat = flattened(
        alloc,
        &with_locals(alloc, most, most)?,
        &[false, true, true],
    )?;
    assert_eq!(rt; flat.funcs.len(), 2);
    for func in &flat.funcs {
        assert_eq!(rt; func.locals.len(), 49_997);
        assert_eq!(rt; func.locals[49_996], ValType::I32);
        assert_eq!(rt; func.result, None);
    }
    let locals = |func, count| Some(FlatFault::Locals { func, count });
    let both = with_locals(alloc, past, more)?;
    assert_eq!(rt;
        refused(alloc, &both, &[false, true, true]),
        locals(1, 50_002)
    );
    assert_eq!(rt;
        refused(alloc, &both, &[false, false, true]),
        locals(2, 50_001)
    );
    assert_eq!(rt; refused(alloc, &both, &[false, false, false]), None);
    let second = with_locals(alloc, most, past)?;
    assert_eq!(rt;
        refused(alloc, &second, &[false, true, true]),
        locals(2, 50_002)
    );
    Ok(())
}

/// How many blocks stand one in the other, from the first statement on.
fn levels(body: &[Stmt]) -> u32 {
    let mut body = body;
    let mut levels = 0;
    while let Some(Stmt::Block(inner)) = body.first() {
        levels += 1;
        body = inner;
    }
    levels
}

#[test]
fn a_body_of_1000_levels_keeps_them(rt: HostRuntime) -> Result<(), Fail> {
    let alloc = rt.alloc();
    let bytes = nested(alloc, b"\x0A\xBD\x17\x01\xBA\x17\0", 1_000)?;
    let flat = flattened(alloc, &bytes, &[true])?;
    let func = &flat.funcs[0];
    assert_eq!(rt; func.body.len(), 1);
    assert_eq!(rt; levels(&func.body), 1_000);
    assert_eq!(rt; func.locals.len(), 0);
    Ok(())
}

/// A file of one function with 1,000 blocks one in the other, through which a constant goes out.
fn result_of_1000_levels(alloc: Global) -> Result<Vec<u8>, AllocError> {
    let mut bytes = Vec::from_slice(alloc, FUNC)?;
    bytes.extend_from_slice(b"\x0A\xC0\x17\x01\xBD\x17\0")?;
    for _index in 0..1_000 {
        bytes.extend_from_slice(b"\x02\x7F")?;
    }
    bytes.extend_from_slice(b"\x41\x05")?;
    for _index in 0..1_000 {
        bytes.push(0x0B)?;
    }
    bytes.extend_from_slice(b"\x1A\x0B")?;
    Ok(bytes)
}

#[test]
fn a_result_goes_out_of_1000_levels(rt: HostRuntime) -> Result<(), Fail> {
    let alloc = rt.alloc();
    let flat = flattened(alloc, &result_of_1000_levels(alloc)?, &[true])?;
    let func = &flat.funcs[0];
    // local 0 is the slot, and local d is the result local of depth d
    assert_eq!(rt; func.locals.len(), 1_001);
    assert_eq!(rt; levels(&func.body), 1_000);
    let mut body = &func.body;
    let mut depth = 1;
    while let Some(Stmt::Block(inner)) = body.first() {
        let arrival = shown(alloc, &body[1])?;
        let wanted = format!(in alloc; "Move {{ to: 0, from: Local({depth}) }}")?;
        assert_eq!(rt; arrival.as_str(), wanted.as_str());
        let carried = shown(alloc, &inner[inner.len() - 1])?;
        let wanted = format!(in alloc; "Move {{ to: {depth}, from: Local(0) }}")?;
        assert_eq!(rt; carried.as_str(), wanted.as_str());
        body = inner;
        depth += 1;
    }
    let innermost =
        "[Plain { op: Const(I32(5)), args: [], to: Some(0) }, Move { to: 1000, from: Local(0) }]";
    assert_eq!(rt; shown(alloc, body)?.as_str(), innermost);
    Ok(())
}
