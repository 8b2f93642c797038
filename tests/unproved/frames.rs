//! What stands around a guarded body, against instructions written out by hand.

use crate::showing::shown;
use local_spill::{Place, RuntimeIds, epilogue, layout, prologue};
use std::alloc::Global;
use std::test::Fail;
use wa_types::ValType;

/// A frame of an i32 and an i64, of 16 bytes with the call index, is taken from below the location. The state is global 3,
/// the address global 4, the call index local 2, the frame's address local 3.
const RESTORED: &str = "[\
    GlobalGet(3), If { result: None, then_arm: [\
    GlobalGet(4), GlobalGet(4), Load { op: 40, align: 2, offset: 0 }, Const(I32(16)), Num(I32Sub), LocalTee(3), \
    Store { op: 54, align: 2, offset: 0 }, \
    LocalGet(3), Load { op: 40, align: 2, offset: 0 }, LocalSet(0), \
    LocalGet(3), Load { op: 41, align: 3, offset: 4 }, LocalSet(1), \
    LocalGet(3), Load { op: 40, align: 2, offset: 12 }, LocalSet(2)], else_arm: [] }]";

/// It is put there, where the area has room for it.
const SAVED: &str = "[\
    GlobalGet(3), If { result: None, then_arm: [\
    GlobalGet(4), Load { op: 40, align: 2, offset: 4 }, GlobalGet(4), Load { op: 40, align: 2, offset: 0 }, LocalTee(3), \
    Num(I32Sub), Const(I32(16)), Num(I32LtU), If { result: None, then_arm: [Unreachable], else_arm: [] }, \
    LocalGet(3), LocalGet(0), Store { op: 54, align: 2, offset: 0 }, \
    LocalGet(3), LocalGet(1), Store { op: 55, align: 3, offset: 4 }, \
    LocalGet(3), LocalGet(2), Store { op: 54, align: 2, offset: 12 }, \
    GlobalGet(4), LocalGet(3), Const(I32(16)), Num(I32Add), Store { op: 54, align: 2, offset: 0 }], else_arm: [] }]";

/// A saved local, whose offset isn't read.
fn saved(local: u32, ty: ValType) -> Place {
    Place {
        local,
        ty,
        offset: 0,
    }
}

#[test]
fn frames_are_restored_and_saved_under_a_test(rt: HostRuntime) -> Result<(), Fail> {
    let alloc: Global = rt.alloc();
    let ids = RuntimeIds {
        state: 3,
        address: 4,
        first: 9,
    };
    let places = [saved(0, ValType::I32), saved(1, ValType::I64)];
    let frames = vec![in alloc; layout(alloc, 0, &places)?]?;
    assert_eq!(rt; shown(alloc, &prologue(alloc, &frames, 2, &ids)?)?.as_str(), RESTORED);
    assert_eq!(rt; shown(alloc, &epilogue(alloc, &frames, 2, &ids)?)?.as_str(), SAVED);
    assert_eq!(rt; shown(alloc, &prologue(alloc, &[], 2, &ids)?)?.as_str(), "[]");
    assert_eq!(rt; shown(alloc, &epilogue(alloc, &[], 2, &ids)?)?.as_str(), "[]");
    Ok(())
}
