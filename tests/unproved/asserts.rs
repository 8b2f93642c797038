//! Functions with asserts, whole, against instructions written out by hand.

use crate::showing::shown;
use assert_rewrite::{assert_free, assert_plain};
use std::alloc::{AllocError, Global};
use std::test::Fail;
use wa_types::{Func, Instr};

/// `call 0; if call 1; br 0; call 2 end; call_indirect 5; return; call 3`
fn body(alloc: Global) -> Result<Vec<Instr>, AllocError> {
    let mut arm = Vec::new(alloc);
    arm.push(Instr::Call(1))?;
    arm.push(Instr::Br(0))?;
    arm.push(Instr::Call(2))?;
    let mut body = Vec::new(alloc);
    body.push(Instr::Call(0))?;
    body.push(Instr::If {
        result: None,
        then_arm: arm,
        else_arm: Vec::new(alloc),
    })?;
    body.push(Instr::CallIndirect(5))?;
    body.push(Instr::Return)?;
    body.push(Instr::Call(3))?;
    Ok(body)
}

/// A function that can't pause: each call that can be reached has a test behind it.
const PLAIN: &str = "\
    [Call(0), GlobalGet(7), Const(I32(1)), Num(I32Eq), If { result: None, then_arm: [Unreachable], else_arm: [] }, \
    If { result: None, then_arm: [\
    Call(1), GlobalGet(7), Const(I32(1)), Num(I32Eq), If { result: None, then_arm: [Unreachable], else_arm: [] }, \
    Br(0), Call(2)], else_arm: [] }, \
    CallIndirect(5), GlobalGet(7), Const(I32(1)), Num(I32Eq), If { result: None, then_arm: [Unreachable], else_arm: [] }, \
    Return, Call(3)]";

/// A written body, where function 0 is a listed import and function 1 may pause: a test stands behind the calls of the others alone,
/// wherever they stand.
const FREE: &str = "\
    [Call(0), If { result: None, then_arm: [Call(1), Br(0), \
    Call(2), GlobalGet(7), Const(I32(1)), Num(I32Eq), If { result: None, then_arm: [Unreachable], else_arm: [] }], else_arm: [] }, \
    CallIndirect(5), Return, \
    Call(3), GlobalGet(7), Const(I32(1)), Num(I32Eq), If { result: None, then_arm: [Unreachable], else_arm: [] }]";

#[test]
fn a_function_that_stays_is_tested_where_it_is_reached(rt: HostRuntime) -> Result<(), Fail> {
    let alloc = rt.alloc();
    let func = Func {
        sort: 2,
        locals: Vec::new(alloc),
        body: body(alloc)?,
    };
    let with = assert_plain(alloc, &func, 7)?;
    assert_eq!(rt; (with.sort, with.locals.len()), (2, 0));
    assert_eq!(rt; shown(alloc, &with.body)?.as_str(), PLAIN);
    Ok(())
}

#[test]
fn a_written_body_is_tested_behind_calls_without_a_number(rt: HostRuntime) -> Result<(), Fail> {
    let alloc = rt.alloc();
    let which = [false, true, false, false];
    let listed = [true, false, false, false];
    let with = assert_free(alloc, &body(alloc)?, &which, &listed, false, 7)?;
    assert_eq!(rt; shown(alloc, &with)?.as_str(), FREE);
    Ok(())
}
