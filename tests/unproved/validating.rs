//! Valid modules, and the types of operands at each point of a body (standard, section 3).

use crate::modules::{EACH_SECTION, module, valid};
use crate::showing::shown;
use std::alloc::{AllocError, Global};
use std::test::Fail;
use wa_types::{Instr, ValType};
use wasm_validate::{Typing, ValidateFault, validate};

/// Adds what the walk has to the text: the types in front of each instruction, `[` .. `]` round what stands inside one.
fn walk(
    alloc: Global,
    text: &mut String,
    typing: &mut Typing<'_>,
    body: &[Instr],
) -> Result<(), AllocError> {
    for instr in body {
        show(text, typing.types())?;
        match instr {
            Instr::Block { body, .. } => inside(alloc, text, typing, instr, body)?,
            Instr::Loop { body, .. } => inside(alloc, text, typing, instr, body)?,
            Instr::If {
                then_arm,
                else_arm,
                ..
            } => {
                inside(alloc, text, typing, instr, then_arm)?;
                inside(alloc, text, typing, instr, else_arm)?;
            }
            _ => {}
        }
        if instr.is_last() {
            return Ok(());
        }
        typing.advance(instr)?;
    }
    show(text, typing.types())
}

fn inside(
    alloc: Global,
    text: &mut String,
    typing: &Typing<'_>,
    instr: &Instr,
    body: &[Instr],
) -> Result<(), AllocError> {
    text.push_str("[ ")?;
    walk(alloc, text, &mut typing.inside(instr)?, body)?;
    text.push_str("] ")
}

/// One letter a type, the deepest operand first.
fn show(text: &mut String, types: &[ValType]) -> Result<(), AllocError> {
    for ty in types {
        text.push(match ty {
            ValType::I32 => 'i',
            ValType::I64 => 'l',
        })?;
    }
    text.push_str(". ")
}

#[test]
fn a_walk_tells_the_types_at_each_point(rt: HostRuntime) -> Result<(), Fail> {
    let alloc = rt.alloc();
    // local.get 0; local.get 0; (block i64.const 1; i64.const 2; i64.lt_s); (if else unreachable); i32.add; return; drop
    let bytes = b"\0asm\x01\0\0\0\x01\x06\x01\x60\x01\x7f\x01\x7f\x03\x02\x01\0\
        \x0a\x18\x01\x16\0\x20\0\x20\0\x02\x7f\x42\x01\x42\x02\x53\x0b\x04\x40\x05\0\x0b\x6a\x0f\x1a\x0b";
    let module = valid(alloc, bytes)?;
    let mut text = String::new(alloc);
    let mut typing = Typing::start(alloc, &module, 0)?;
    walk(
        alloc,
        &mut text,
        &mut typing,
        &module.module().funcs[0].body,
    )?;
    assert_eq!(rt;
        text.as_str(),
        ". i. ii. [ ii. iil. iill. iii. ] iii. [ ii. ] [ ii. ] ii. i. "
    );
    Ok(())
}

#[test]
fn a_valid_module_is_given_back(rt: HostRuntime) -> Result<(), Fail> {
    let alloc = rt.alloc();
    // it imports a table and has one: rule 12
    let own = module(alloc, EACH_SECTION)?;
    assert!(rt;
        matches!(
            validate(alloc, own),
            Err(ValidateFault::Invalid {
                func: None,
                rule: 12,
                at: 0
            })
        )
    );
    let mut own = module(alloc, EACH_SECTION)?;
    own.tables.clear();
    own.memories.clear();
    own.start = None;
    own.funcs[1].body.clear();
    own.funcs[1].body.push(Instr::Unreachable)?;
    let text = shown(alloc, &own)?;
    let given = validate(alloc, own)?.into_module();
    assert_eq!(rt; shown(alloc, &given)?.as_str(), text.as_str());
    Ok(())
}
