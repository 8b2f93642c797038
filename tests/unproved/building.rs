//! The modules that bytes spell, whole (standard, section 5).

use crate::modules::{EACH_SECTION, FUNC, module};
use crate::showing::shown;
use wa_types::{Instr, copy_module};
use std::alloc::Global;
use std::mem;
use std::test::Fail;
use wasm_reader::ReadFault;

/// What those sections hold.
const EACH_SECTION_READ: &str = "\
    Module { types: [FuncType { params: [], results: [] }, FuncType { params: [I32, I64], results: [I64] }], \
    imports: [Import { module: Name { text: \"m\" }, base: Name { text: \"f\" }, kind: Func(1) }, Import { module: \
    Name { text: \"m\" }, base: Name { text: \"t\" }, kind: Table(Limits { min: 1, max: Some(5) }) }, Import { \
    module: Name { text: \"m\" }, base: Name { text: \"y\" }, kind: Memory(Limits { min: 2, max: None }) }, Import \
    { module: Name { text: \"m\" }, base: Name { text: \"g\" }, kind: Global(I32, true) }], funcs: [Func { sort: \
    0, locals: [], body: [] }, Func { sort: 1, locals: [Run { count: 1, ty: I32 }, Run { count: 2, ty: I64 }], \
    body: [Nop] }], tables: [Limits { min: 3, max: None }], memories: [Limits { min: 1, max: Some(2) }], globals: \
    [GlobalDef { ty: I64, mutable: false, init: [Const(I64(18446744073709551615))] }], exports: [Export { name: \
    Name { text: \"f\" }, space: Func, index: 0 }, Export { name: Name { text: \"t\" }, space: Table, index: 0 }, \
    Export { name: Name { text: \"y\" }, space: Memory, index: 0 }, Export { name: Name { text: \"g\" }, space: \
    Global, index: 1 }], start: Some(2), elems: [Elem { table: 0, offset: [Const(I32(0))], funcs: [0, 1] }], \
    segments: [Segment { memory: 0, offset: [Const(I32(8))], bytes: [120, 121, 122] }], customs: [Custom { after: \
    0, name: Name { text: \"a\" }, bytes: [1] }, Custom { after: 1, name: Name { text: \"bb\" }, bytes: [2, 3] }, \
    Custom { after: 11, name: Name { text: \"c\" }, bytes: [] }] }";

/// The body of the one function whose code these bytes are.
fn code_of(alloc: Global, code: &[u8]) -> Result<Vec<Instr>, ReadFault> {
    let mut bytes = Vec::from_slice(alloc, FUNC)?;
    let size = code.len() as u8 + 1;
    bytes.extend_from_slice(&[0x0A, size + 2, 0x01, size, 0x00])?;
    bytes.extend_from_slice(code)?;
    let mut module = module(alloc, &bytes)?;
    match module.funcs.pop() {
        Some(mut func) => Ok(mem::replace(&mut func.body, Vec::new(alloc))),
        None => Ok(Vec::new(alloc)),
    }
}

/// Instructions that hold no other, with each kind of operands.
const PLAIN: &[u8] =
    b"\x00\x01\x0c\x01\x0d\x80\x80\x80\x80\x00\x0e\x02\x00\x81\x00\x02\x0f\x10\xac\x02\x11\x02\x00\
    \x1a\x1b\x20\x01\x21\x02\x22\x03\x23\x04\x24\x05\x28\x02\x08\x35\x02\x80\x80\x04\x36\x02\x04\x3e\x02\x04\
    \x3f\x00\x40\x00\xfc\x8a\x00\x00\x00\xfc\x0b\x00\x41\x7f\x41\xc0\x00\x42\x80\x80\x80\x80\x80\x80\x80\x80\x80\x7f\x45\x5a\x67\x8a\xa7\xac\xad\x0b";

/// What they are.
const PLAIN_READ: &str = "\
    [Unreachable, Nop, Br(1), BrIf(0), BrTable { labels: [0, 1], last: 2 }, Return, Call(300), CallIndirect(2), \
    Drop, Select, LocalGet(1), LocalSet(2), LocalTee(3), GlobalGet(4), GlobalSet(5), Load { op: 40, align: 2, \
    offset: 8 }, Load { op: 53, align: 2, offset: 65536 }, Store { op: 54, align: 2, offset: 4 }, Store { op: 62, \
    align: 2, offset: 4 }, MemorySize, MemoryGrow, MemoryCopy, MemoryFill, Const(I32(4294967295)), Const(I32(64)), \
    Const(I64(9223372036854775808)), Num(I32Eqz), Num(I64GeU), Num(I32Clz), Num(I64Rotr), Num(I32WrapI64), \
    Num(I64ExtendI32S), Num(I64ExtendI32U)]";

/// Blocks, loops and ifs with one arm, the other or both.
const CONSTRUCTS: &[u8] =
    b"\x02\x40\x41\x07\x0b\x03\x7e\x41\x08\x0b\x04\x7f\x41\x01\x05\x41\x02\x0b\x04\x40\x41\x03\x0b\x04\x40\x05\x41\x04\x0b\x0b";

/// What they are.
const CONSTRUCTS_READ: &str = "\
    [Block { result: None, body: [Const(I32(7))] }, Loop { result: Some(I64), body: [Const(I32(8))] }, If { \
    result: Some(I32), then_arm: [Const(I32(1))], else_arm: [Const(I32(2))] }, If { result: None, then_arm: \
    [Const(I32(3))], else_arm: [] }, If { result: None, then_arm: [], else_arm: [Const(I32(4))] }]";

#[test]
fn each_section_is_read_and_copied(rt: HostRuntime) -> Result<(), Fail> {
    let alloc = rt.alloc();
    let module = module(alloc, EACH_SECTION)?;
    assert_eq!(rt; shown(alloc, &module)?.as_str(), EACH_SECTION_READ);
    let copy = copy_module(alloc, &module)?;
    assert_eq!(rt; shown(alloc, &copy)?.as_str(), EACH_SECTION_READ);
    Ok(())
}

#[test]
fn each_kind_of_instruction_is_read(rt: HostRuntime) -> Result<(), Fail> {
    let alloc = rt.alloc();
    for (bytes, wanted) in [(PLAIN, PLAIN_READ), (CONSTRUCTS, CONSTRUCTS_READ)] {
        let code = code_of(alloc, bytes)?;
        assert_eq!(rt; shown(alloc, &code)?.as_str(), wanted);
    }
    Ok(())
}
