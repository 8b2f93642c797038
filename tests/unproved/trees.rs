//! Trees of instructions.

use crate::showing::shown;
use std::alloc::{AllocError, Global};
use std::test::Fail;
use wa_types::{Instr, Value, count, depth, prune};

/// An `if` of two arms, with code behind what control never goes past in each and behind it.
fn with_dead_code(alloc: Global) -> Result<Vec<Instr>, AllocError> {
    let first = vec![in alloc; Instr::Nop, Instr::Return, Instr::Const(Value::I32(7))]?;
    let table = Instr::BrTable {
        labels: vec![in alloc; 0]?,
        last: 1,
    };
    let choice = Instr::If {
        result: None,
        then_arm: first,
        else_arm: vec![in alloc; table, Instr::Drop]?,
    };
    let around = Instr::Loop {
        result: None,
        body: vec![in alloc; choice, Instr::BrIf(0)]?,
    };
    let body = vec![in alloc; around, Instr::Unreachable, Instr::Nop]?;
    Ok(body)
}

#[test]
fn each_sequence_is_pruned(rt: HostRuntime) -> Result<(), Fail> {
    let alloc = rt.alloc();
    let kept = prune(alloc, &with_dead_code(alloc)?)?;
    let text = shown(alloc, &kept)?;
    let want = "[Loop { result: None, body: [If { result: None, then_arm: [Nop, Return], \
                else_arm: [BrTable { labels: [0], last: 1 }] }, BrIf(0)] }, Unreachable]";
    assert_eq!(rt; text.as_str(), want);
    Ok(())
}

#[test]
fn instructions_and_levels_are_counted(rt: HostRuntime) -> Result<(), Fail> {
    let body = with_dead_code(rt.alloc())?;
    assert_eq!(rt; count(&body), 10);
    assert_eq!(rt; depth(&body), 2);
    assert_eq!(rt; count(&[]), 0);
    assert_eq!(rt; depth(&[Instr::Nop]), 0);
    Ok(())
}
