//! Guarded functions, whole, against instructions written out by hand: each form of a piece and of a unit.

use crate::flattening::{COUNTDOWN, SELECTOR, flattened};
use crate::showing::shown;
use slim_rewrite::{Slots, guard, guard_slim};
use std::alloc::{AllocError, Global};
use std::test::Fail;
use wa_model::{FlatFunc, Operand, Stmt};
use wa_types::{Instr, ValType, Value};

/// The countdown: a loop that holds an `if` whose other arm alone holds the call. The state is global 0, the call index
/// local 6. The piece in front of the `if` stands under the test of its condition, and the arm without a call as it is; so
/// do the pieces behind, to which no run comes in another state. In front of the loop stands a test for a frame to be
/// restored, of which there is nothing here, and all is in the function's own block, behind which it returns.
const COUNTDOWN_GUARDED: &str = "\
    GuardedFunc { func: 1, sort: 0, locals: [I32, I32, I32, I32, I32, I32, I32, I32, I64], result: Some(4), body: [\
    Block { result: None, body: [\
    GlobalGet(0), If { result: None, then_arm: [], else_arm: [] }, \
    Loop { result: None, body: [\
    GlobalGet(0), If { result: Some(I32), then_arm: [Const(I32(0))], else_arm: [\
    LocalGet(1), LocalSet(2), Const(I32(0)), LocalSet(3), LocalGet(3)] }, \
    If { result: None, then_arm: [\
    Const(I32(100)), LocalSet(3), LocalGet(3), LocalSet(5)], else_arm: [\
    GlobalGet(0), If { result: None, then_arm: [], else_arm: [\
    LocalGet(0), LocalSet(3)] }, \
    LocalGet(3), Call(0), Const(I32(0)), LocalSet(6), GlobalGet(0), BrIf(3), LocalSet(3), \
    LocalGet(3), LocalSet(5)] }, \
    LocalGet(5), LocalSet(3), \
    LocalGet(2), LocalGet(3), Num(I32Add), LocalSet(2), \
    LocalGet(2), LocalSet(1), \
    LocalGet(0), LocalSet(2), \
    Const(I32(1)), LocalSet(3), \
    LocalGet(2), LocalGet(3), Num(I32Sub), LocalSet(2), \
    LocalGet(2), LocalSet(0), \
    LocalGet(2), BrIf(0)] }, \
    LocalGet(1), LocalSet(2), LocalGet(2), LocalSet(4)] }, \
    LocalGet(4), Return] }";

/// The selector: the blocks are one piece with the move behind them, and its branches stay within it. The state is
/// global 0, the call index local 7. Nothing seeks the last call.
const SELECTOR_GUARDED: &str = "\
    GuardedFunc { func: 1, sort: 0, locals: [I32, I32, I32, I32, I32, I32, I32, I32, I32, I64], result: Some(4), \
    body: [\
    Block { result: None, body: [\
    GlobalGet(0), If { result: None, then_arm: [], else_arm: [\
    Block { result: None, body: [\
    Const(I32(5)), LocalSet(1), \
    Block { result: None, body: [\
    Const(I32(9)), LocalSet(2), \
    LocalGet(0), LocalSet(3), \
    LocalGet(2), LocalSet(6), \
    LocalGet(2), LocalSet(5), \
    LocalGet(3), BrTable { labels: [0], last: 1 }] }, \
    LocalGet(6), LocalSet(2), \
    LocalGet(1), LocalGet(2), Num(I32Add), LocalSet(1), \
    LocalGet(1), LocalSet(5)] }, \
    LocalGet(5), LocalSet(1)] }, \
    LocalGet(1), Call(0), Const(I32(0)), LocalSet(7), GlobalGet(0), BrIf(1), LocalSet(1), \
    LocalGet(1), LocalSet(4)] }, \
    LocalGet(4), Return] }";

#[test]
fn flat_functions_are_guarded(rt: HostRuntime) -> Result<(), Fail> {
    let alloc = rt.alloc();
    for (bytes, wanted) in [(COUNTDOWN, COUNTDOWN_GUARDED), (SELECTOR, SELECTOR_GUARDED)] {
        let flat = flattened(alloc, bytes, &[false, true])?;
        let guarded = guard(alloc, &flat.funcs[0], &[0], 0)?;
        assert_eq!(rt; shown(alloc, &guarded)?.as_str(), wanted);
    }
    Ok(())
}

/// A call of a function without parameters and results.
fn bare_call(alloc: Global, func: u32) -> Stmt {
    Stmt::Call {
        op: Instr::Call(func),
        stack: Vec::new(alloc),
        args: 0,
        to: None,
    }
}

/// An `if` on local 0 with a branch to the function's end in one arm, and in the other a table of the `if`, the block
/// round it and the function.
fn jumps(alloc: Global) -> Result<Stmt, AllocError> {
    let table = Stmt::BrTable {
        index: Operand::Local(0),
        labels: vec![in alloc; 0, 1]?,
        last: 2,
    };
    Ok(Stmt::If {
        cond: Operand::Local(0),
        then_arm: vec![in alloc; Stmt::Br(2)]?,
        else_arm: vec![in alloc; table]?,
    })
}

/// An `if` on 1 with a call through the table, above an operand, in one arm, and a load in front of a call in the
/// other.
fn choice(alloc: Global) -> Result<Stmt, AllocError> {
    let indirect = Stmt::Call {
        op: Instr::CallIndirect(1),
        stack: vec![in alloc; 1, 2, 3]?,
        args: 2,
        to: Some(2),
    };
    let load = Stmt::Plain {
        op: Instr::Load {
            op: 0x28,
            align: 2,
            offset: 8,
        },
        args: vec![in alloc; Operand::Local(2)]?,
        to: Some(3),
    };
    Ok(Stmt::If {
        cond: Operand::Const(Value::I32(1)),
        then_arm: vec![in alloc; indirect]?,
        else_arm: vec![in alloc; load, bare_call(alloc, 0)]?,
    })
}

/// A function of a block with four calls, of which the second isn't numbered, and a branch behind the block. Local 0 is
/// its parameter, 1 to 3 are slots.
fn four_calls(alloc: Global) -> Result<FlatFunc, AllocError> {
    let other = Stmt::Call {
        op: Instr::Call(1),
        stack: vec![in alloc; 2, 3]?,
        args: 1,
        to: Some(3),
    };
    let leave = Stmt::BrIf {
        cond: Operand::Local(3),
        label: 1,
    };
    let mut inner = Vec::new(alloc);
    inner.push(jumps(alloc)?)?;
    inner.push(bare_call(alloc, 0))?;
    inner.push(other)?;
    inner.push(leave)?;
    inner.push(choice(alloc)?)?;
    let body = vec![in alloc; Stmt::Block(inner), Stmt::Br(0)]?;
    Ok(FlatFunc {
        func: 9,
        sort: 4,
        locals: vec![in alloc; ValType::I32, ValType::I64, ValType::I32, ValType::I32]?,
        result: None,
        body,
    })
}

/// It with guards. The state is global 7, the call index local 4; the calls numbered 1 and 2 stand in the arms of an
/// `if` that goes by the index. A label that leaves its piece is higher by 2 in front of a call with a block of its own, else
/// by 1. The first call has a block of its own, as others follow; nothing seeks the last call of a sequence.
const FOUR_CALLS_GUARDED: &str = "\
    GuardedFunc { func: 9, sort: 4, locals: [I32, I64, I32, I32, I32, I32, I64], result: None, body: [\
    Block { result: None, body: [\
    Block { result: None, body: [\
    Block { result: None, body: [\
    GlobalGet(7), If { result: None, then_arm: [LocalGet(4), Const(I32(0)), Num(I32Ne), BrIf(1)], else_arm: [\
    LocalGet(0), If { result: None, then_arm: [Br(4)], else_arm: [\
    LocalGet(0), BrTable { labels: [0, 3], last: 4 }] }] }, \
    Call(0), Const(I32(0)), LocalSet(4), GlobalGet(7), BrIf(3), \
    LocalGet(3), Call(1), LocalSet(3), \
    LocalGet(3), BrIf(2)] }, \
    GlobalGet(7), If { result: Some(I32), then_arm: [LocalGet(4), Const(I32(2)), Num(I32LtU)], else_arm: [\
    Const(I32(1))] }, \
    If { result: None, then_arm: [\
    LocalGet(2), LocalGet(3), CallIndirect(1), Const(I32(1)), LocalSet(4), GlobalGet(7), BrIf(3), LocalSet(2)], \
    else_arm: [\
    GlobalGet(7), If { result: None, then_arm: [], else_arm: [\
    LocalGet(2), Load { op: 40, align: 2, offset: 8 }, LocalSet(3)] }, \
    Call(0), Const(I32(2)), LocalSet(4), GlobalGet(7), BrIf(3)] }] }, \
    Br(0)] }, \
    Return] }";

#[test]
fn an_if_goes_by_the_index_of_its_calls(rt: HostRuntime) -> Result<(), Fail> {
    let alloc = rt.alloc();
    let guarded = guard(alloc, &four_calls(alloc)?, &[0, 2, 3], 7)?;
    assert_eq!(rt;
        shown(alloc, &guarded)?.as_str(),
        FOUR_CALLS_GUARDED
    );
    Ok(())
}

/// The same where only the call in the first arm is numbered: all in front of the `if` is one piece, which stands under
/// the test of its condition, and the other arm stands as it is.
const ONE_CALL_GUARDED: &str = "\
    GuardedFunc { func: 9, sort: 4, locals: [I32, I64, I32, I32, I32, I32, I64], result: None, body: [\
    Block { result: None, body: [\
    Block { result: None, body: [\
    GlobalGet(7), If { result: Some(I32), then_arm: [Const(I32(1))], else_arm: [\
    LocalGet(0), If { result: None, then_arm: [Br(3)], else_arm: [\
    LocalGet(0), BrTable { labels: [0, 2], last: 3 }] }, \
    Call(0), \
    LocalGet(3), Call(1), LocalSet(3), \
    LocalGet(3), BrIf(2), \
    Const(I32(1))] }, \
    If { result: None, then_arm: [\
    LocalGet(2), LocalGet(3), CallIndirect(1), Const(I32(0)), LocalSet(4), GlobalGet(7), BrIf(3), LocalSet(2)], \
    else_arm: [\
    LocalGet(2), Load { op: 40, align: 2, offset: 8 }, LocalSet(3), \
    Call(0)] }] }, \
    Br(0)] }, \
    Return] }";

#[test]
fn calls_without_a_number_stand_in_pieces(rt: HostRuntime) -> Result<(), Fail> {
    let alloc = rt.alloc();
    let guarded = guard(alloc, &four_calls(alloc)?, &[2], 7)?;
    assert_eq!(rt;
        shown(alloc, &guarded)?.as_str(),
        ONE_CALL_GUARDED
    );
    Ok(())
}

/// What stands for the code that restores a frame.
fn restoring(alloc: Global) -> Result<Vec<Instr>, AllocError> {
    let code = vec![in alloc; Instr::GlobalGet(8), Instr::LocalSet(5)]?;
    Ok(code)
}

/// The function of four calls as `guard_slim` writes it where no local is told as a slot, so that each operand stands in its
/// local: the first test of the state restores the frame, inside the blocks around it and in front of what seeks the call. Call 0
/// isn't noted.
const FOUR_CALLS_RESTORED: &str = "[\
    Block { result: None, body: [\
    Block { result: None, body: [\
    Block { result: None, body: [\
    GlobalGet(7), If { result: None, then_arm: [\
    GlobalGet(8), LocalSet(5), LocalGet(4), Const(I32(0)), Num(I32Ne), BrIf(1)], else_arm: [\
    LocalGet(0), If { result: None, then_arm: [Br(4)], else_arm: [\
    LocalGet(0), BrTable { labels: [0, 3], last: 4 }] }] }, \
    Call(0), GlobalGet(7), BrIf(3), \
    LocalGet(3), Call(1), LocalSet(3), \
    LocalGet(3), BrIf(2)] }, \
    GlobalGet(7), If { result: Some(I32), then_arm: [LocalGet(4), Const(I32(2)), Num(I32LtU)], else_arm: [\
    Const(I32(1))] }, \
    If { result: None, then_arm: [\
    LocalGet(2), LocalGet(3), CallIndirect(1), Const(I32(1)), LocalSet(4), GlobalGet(7), BrIf(3), LocalSet(2)], \
    else_arm: [\
    GlobalGet(7), If { result: None, then_arm: [], else_arm: [\
    LocalGet(2), Load { op: 40, align: 2, offset: 8 }, LocalSet(3)] }, \
    Call(0), Const(I32(2)), LocalSet(4), GlobalGet(7), BrIf(3)] }] }, \
    Br(0)] }, \
    Return]";

/// So is it where only the call in the first arm is numbered, which isn't noted then: the frame is restored in front of the
/// choice of the arm.
const ONE_CALL_RESTORED: &str = "[\
    Block { result: None, body: [\
    Block { result: None, body: [\
    GlobalGet(7), If { result: Some(I32), then_arm: [GlobalGet(8), LocalSet(5), Const(I32(1))], else_arm: [\
    LocalGet(0), If { result: None, then_arm: [Br(3)], else_arm: [\
    LocalGet(0), BrTable { labels: [0, 2], last: 3 }] }, \
    Call(0), \
    LocalGet(3), Call(1), LocalSet(3), \
    LocalGet(3), BrIf(2), \
    Const(I32(1))] }, \
    If { result: None, then_arm: [\
    LocalGet(2), LocalGet(3), CallIndirect(1), GlobalGet(7), BrIf(3), LocalSet(2)], else_arm: [\
    LocalGet(2), Load { op: 40, align: 2, offset: 8 }, LocalSet(3), \
    Call(0)] }] }, \
    Br(0)] }, \
    Return]";

/// The countdown so: in front of the loop the frame is restored by a test for that alone.
const COUNTDOWN_RESTORED: &str = "[\
    Block { result: None, body: [\
    GlobalGet(0), If { result: None, then_arm: [GlobalGet(8), LocalSet(5)], else_arm: [] }, \
    Loop { result: None, body: [\
    GlobalGet(0), If { result: Some(I32), then_arm: [Const(I32(0))], else_arm: [\
    LocalGet(1), LocalSet(2), Const(I32(0)), LocalSet(3), LocalGet(3)] }, \
    If { result: None, then_arm: [\
    Const(I32(100)), LocalSet(3), LocalGet(3), LocalSet(5)], else_arm: [\
    GlobalGet(0), If { result: None, then_arm: [], else_arm: [\
    LocalGet(0), LocalSet(3)] }, \
    LocalGet(3), Call(0), GlobalGet(0), BrIf(3), LocalSet(3), \
    LocalGet(3), LocalSet(5)] }, \
    LocalGet(5), LocalSet(3), \
    LocalGet(2), LocalGet(3), Num(I32Add), LocalSet(2), \
    LocalGet(2), LocalSet(1), \
    LocalGet(0), LocalSet(2), \
    Const(I32(1)), LocalSet(3), \
    LocalGet(2), LocalGet(3), Num(I32Sub), LocalSet(2), \
    LocalGet(2), LocalSet(0), \
    LocalGet(2), BrIf(0)] }, \
    LocalGet(1), LocalSet(2), LocalGet(2), LocalSet(4)] }, \
    LocalGet(4), Return]";

#[test]
fn the_first_test_restores_the_frame(rt: HostRuntime) -> Result<(), Fail> {
    let alloc = rt.alloc();
    let none = Slots { low: 0, count: 0 };
    let rows = [
        ([0, 2, 3].as_slice(), FOUR_CALLS_RESTORED),
        ([2].as_slice(), ONE_CALL_RESTORED),
    ];
    for (numbers, wanted) in rows {
        let written = guard_slim(alloc, &mut four_calls(alloc)?, numbers, 7, none, restoring(alloc)?)?;
        assert_eq!(rt; shown(alloc, &written)?.as_str(), wanted);
    }
    let mut flat = flattened(alloc, COUNTDOWN, &[false, true])?;
    let written = guard_slim(alloc, &mut flat.funcs[0], &[0], 0, none, restoring(alloc)?)?;
    assert_eq!(rt; shown(alloc, &written)?.as_str(), COUNTDOWN_RESTORED);
    Ok(())
}

/// A function of these statements, without locals.
fn bare_func(alloc: Global, body: Vec<Stmt>) -> FlatFunc {
    FlatFunc {
        func: 9,
        sort: 4,
        locals: Vec::new(alloc),
        result: None,
        body,
    }
}

/// Two calls in one loop, of which the first is noted too.
const CALLS_IN_ONE_LOOP: &str = "[\
    Block { result: None, body: [\
    GlobalGet(7), If { result: None, then_arm: [GlobalGet(8), LocalSet(5)], else_arm: [] }, \
    Loop { result: None, body: [\
    Block { result: None, body: [\
    GlobalGet(7), If { result: None, then_arm: [LocalGet(0), Const(I32(0)), Num(I32Ne), BrIf(1)], else_arm: [] }, \
    Call(0), Const(I32(0)), LocalSet(0), GlobalGet(7), BrIf(3)] }, \
    Call(0), Const(I32(1)), LocalSet(0), GlobalGet(7), BrIf(2)] }] }, \
    Return]";

/// The first alone in a loop, which then isn't noted.
const FIRST_ALONE_IN_A_LOOP: &str = "[\
    Block { result: None, body: [\
    GlobalGet(7), If { result: None, then_arm: [GlobalGet(8), LocalSet(5)], else_arm: [] }, \
    Loop { result: None, body: [\
    Block { result: None, body: [\
    GlobalGet(7), If { result: None, then_arm: [LocalGet(0), Const(I32(0)), Num(I32Ne), BrIf(1)], else_arm: [] }, \
    Call(0), GlobalGet(7), BrIf(3)] }] }, \
    Call(0), Const(I32(1)), LocalSet(0), GlobalGet(7), BrIf(1)] }, \
    Return]";

#[test]
fn the_first_call_is_noted_in_a_loop_with_another(rt: HostRuntime) -> Result<(), Fail> {
    let alloc = rt.alloc();
    let none = Slots { low: 0, count: 0 };
    let both = Stmt::Loop(vec![in alloc; bare_call(alloc, 0), bare_call(alloc, 0)]?);
    let mut func = bare_func(alloc, vec![in alloc; both]?);
    let written = guard_slim(alloc, &mut func, &[0, 1], 7, none, restoring(alloc)?)?;
    assert_eq!(rt; shown(alloc, &written)?.as_str(), CALLS_IN_ONE_LOOP);
    let alone = Stmt::Loop(vec![in alloc; bare_call(alloc, 0)]?);
    let mut func = bare_func(alloc, vec![in alloc; alone, bare_call(alloc, 0)]?);
    let written = guard_slim(alloc, &mut func, &[0, 1], 7, none, restoring(alloc)?)?;
    assert_eq!(rt; shown(alloc, &written)?.as_str(), FIRST_ALONE_IN_A_LOOP);
    Ok(())
}
