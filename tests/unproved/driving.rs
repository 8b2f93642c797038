//! Written modules, driven through the interpreter as a host does (`docs/HOSTING.md`), in turns with their originals: each
//! construct around a call, and a pause at each call. At each call of an import, at each pause and at the end both have made
//! the same calls and have the same globals, memory outside the area, results and traps.

use crate::modules::valid;
use crate::running::{Runner, asks, is_returned, is_trapped};
use call_graph::{Choice, ImportList, Policy, Settings};
use interp::{MakeFault, Turn};
use module_rewrite::asyncify_module;
use std::alloc::{AllocError, Global};
use std::test::Fail;
use wa_model::Call;
use wa_types::{Trap, Value};
use wasm_validate::Valid;

/// The preamble and all sections before the code. Imports `ask` of type `[i32] -> [i32]`, `tell` of `[i32] -> []` and `wide`
/// of `[i64 i32] -> [i64]`; functions 3 to 6 of the first type, of which 3 is `run`, and 7 of `[] -> [i32]`; a memory of one
/// page and at most three, two globals of 10 and 20, i32 and i64, and a table of functions 0, 4, 6 and 7 and no fifth.
const HEAD: &[u8] = b"\
    \x00\x61\x73\x6d\x01\x00\x00\x00\x01\x14\x04\x60\x01\x7f\x01\x7f\x60\x01\x7f\x00\x60\x02\x7e\x7f\
    \x01\x7e\x60\x00\x01\x7f\x02\x21\x03\x03\x65\x6e\x76\x03\x61\x73\x6b\x00\x00\x03\x65\x6e\x76\x04\
    \x74\x65\x6c\x6c\x00\x01\x03\x65\x6e\x76\x04\x77\x69\x64\x65\x00\x02\x03\x06\x05\x00\x00\x00\x00\
    \x03\x04\x04\x01\x70\x00\x05\x05\x04\x01\x01\x01\x03\x06\x0b\x02\x7f\x01\x41\x0a\x0b\x7e\x01\x42\
    \x14\x0b\x07\x07\x01\x03\x72\x75\x6e\x00\x03\x09\x0a\x01\x00\x41\x00\x0b\x04\x00\x04\x06\x07";

/// The bodies of functions 4 to 7. Function 4 adds its argument to the global, asks, and stores the answer and loads it again;
/// 5 asks, calls itself with one less, and asks again; 6 gives five times its argument, and 7 gives 7.
const REST: &[u8] = b"\
    \x1c\x00\x23\x00\x20\x00\x6a\x24\x00\x41\xc0\x00\x20\x00\x10\x00\x36\x02\x00\x41\xc0\x00\x28\x02\
    \x00\x41\x03\x6a\x0b\x1b\x00\x20\x00\x10\x00\x20\x00\x04\x7f\x20\x00\x41\x01\x6b\x10\x05\x05\x41\
    \x04\x0b\x6a\x20\x00\x10\x00\x73\x0b\x07\x00\x20\x00\x41\x05\x6c\x0b\x04\x00\x41\x07\x0b";

/// The declared locals of `run`, which are its locals 1 and 2: an i32 and an i64.
const LOCALS: &[u8] = b"\x02\x01\x7f\x01\x7e";

/// Bodies of `run`, and arguments that it is called with.
const CASES: [(&str, &[u8], &[u32]); 37] = [
    // i32.const 7; local.get 0; call 0; i32.sub
    (
        "a call above an operand",
        b"\x41\x07\x20\x00\x10\x00\x6b",
        &[0, 5],
    ),
    // local.get 0; call 0; local.get 0; i32.const 1; i32.add; call 0; i32.sub; i32.const 3; call 0; i32.xor
    (
        "calls in a row",
        b"\x20\x00\x10\x00\x20\x00\x41\x01\x6a\x10\x00\x6b\x41\x03\x10\x00\x73",
        &[0, 5],
    ),
    // i32.const 2; local.get 0; call 0; call 0; call 0; i32.mul
    (
        "arguments that are calls",
        b"\x41\x02\x20\x00\x10\x00\x10\x00\x10\x00\x6c",
        &[1],
    ),
    // local.get 0; call 1; global.get 0; i32.const 1; i32.add; global.set 0; i32.const 5; call 1; global.get 0; call
    // 1; global.get 0
    (
        "calls without result",
        b"\x20\x00\x10\x01\x23\x00\x41\x01\x6a\x24\x00\x41\x05\x10\x01\x23\x00\x10\x01\x23\x00",
        &[3],
    ),
    // local.get 0; i64.extend_u; i64.const 5000000000; local.get 0; call 2; i64.sub; local.tee 2; local.get 2;
    // i64.const 3; i64.mul; i32.const 1; call 2; i64.xor; global.set 1; i32.const 8; global.get 1; i64.store 0;
    // global.get 1; i32.wrap
    (
        "calls of i64",
        b"\
        \x20\x00\xad\x42\x80\xe4\x97\xd0\x12\x20\x00\x10\x02\x7d\x22\x02\x20\x02\x42\x03\x7e\x41\x01\x10\
        \x02\x85\x24\x01\x41\x08\x23\x01\x37\x03\x00\x23\x01\xa7",
        &[0, 77],
    ),
    // local.get 0; i32.const 3; i32.mul; local.set 1; i32.const 4; call 0; local.get 1; i32.add; local.tee 1;
    // i64.extend_u; local.set 2; local.get 1; call 0; drop; local.get 2; i32.wrap; local.get 1; local.get 0; call 0;
    // i32.sub; i32.add
    (
        "locals that change between calls",
        b"\
        \x20\x00\x41\x03\x6c\x21\x01\x41\x04\x10\x00\x20\x01\x6a\x22\x01\xad\x21\x02\x20\x01\x10\x00\x1a\
        \x20\x02\xa7\x20\x01\x20\x00\x10\x00\x6b\x6a",
        &[0, 6],
    ),
    // i32.const 5; block i32; local.get 0; call 0; local.get 0; br_if 0; drop; i32.const 9; end; i32.add
    (
        "a call in a block",
        b"\x41\x05\x02\x7f\x20\x00\x10\x00\x20\x00\x0d\x00\x1a\x41\x09\x0b\x6a",
        &[0, 1],
    ),
    // i32.const 1; call 0; block; local.get 0; br_if 0; i32.const 2; call 1; end; i32.const 3; call 0; i32.sub
    (
        "calls before, in and behind a block",
        b"\x41\x01\x10\x00\x02\x40\x20\x00\x0d\x00\x41\x02\x10\x01\x0b\x41\x03\x10\x00\x6b",
        &[0, 1],
    ),
    // i32.const 40; block i32; i32.const 30; block i32; i32.const 20; local.get 0; call 0; i32.const 1; i32.and; br_if
    // 1; i32.const 6; call 0; br_if 0; drop; i32.const 8; call 0; end; i32.add; end; i32.sub
    (
        "branches over two blocks",
        b"\
        \x41\x28\x02\x7f\x41\x1e\x02\x7f\x41\x14\x20\x00\x10\x00\x41\x01\x71\x0d\x01\x41\x06\x10\x00\x0d\
        \x00\x1a\x41\x08\x10\x00\x0b\x6a\x0b\x6b",
        &[0, 1, 2],
    ),
    // loop; local.get 1; local.get 0; call 0; i32.add; local.set 1; local.get 0; i32.const 1; i32.sub; local.tee 0;
    // br_if 0; end; local.get 1
    (
        "a call in a loop",
        b"\x03\x40\x20\x01\x20\x00\x10\x00\x6a\x21\x01\x20\x00\x41\x01\x6b\x22\x00\x0d\x00\x0b\x20\x01",
        &[1, 4],
    ),
    // i32.const 11; loop i32; local.get 0; local.get 1; i32.const 1; i32.add; local.tee 1; call 0; i32.add; local.get
    // 1; i32.const 3; i32.lt_u; if; i32.const 2; local.set 0; br 1; end; end; i32.mul
    (
        "a loop with a result above operands",
        b"\
        \x41\x0b\x03\x7f\x20\x00\x20\x01\x41\x01\x6a\x22\x01\x10\x00\x6a\x20\x01\x41\x03\x49\x04\x40\x41\
        \x02\x21\x00\x0c\x01\x0b\x0b\x6c",
        &[5],
    ),
    // loop; i32.const 2; local.set 1; loop; local.get 0; call 1; local.get 1; i32.const 1; i32.sub; local.tee 1; br_if
    // 0; end; local.get 1; call 0; drop; local.get 0; i32.const 1; i32.sub; local.tee 0; br_if 0; end; local.get 1
    (
        "a loop in a loop",
        b"\
        \x03\x40\x41\x02\x21\x01\x03\x40\x20\x00\x10\x01\x20\x01\x41\x01\x6b\x22\x01\x0d\x00\x0b\x20\x01\
        \x10\x00\x1a\x20\x00\x41\x01\x6b\x22\x00\x0d\x00\x0b\x20\x01",
        &[2],
    ),
    // i32.const 3; local.get 0; if i32; i32.const 4; local.get 0; call 0; i32.add; else; i32.const 2; end; i32.sub
    (
        "a call in the first arm",
        b"\x41\x03\x20\x00\x04\x7f\x41\x04\x20\x00\x10\x00\x6a\x05\x41\x02\x0b\x6b",
        &[0, 1],
    ),
    // i32.const 3; local.get 0; if i32; i32.const 2; else; i32.const 4; local.get 0; call 0; i32.add; end; i32.sub
    (
        "a call in the other arm",
        b"\x41\x03\x20\x00\x04\x7f\x41\x02\x05\x41\x04\x20\x00\x10\x00\x6a\x0b\x6b",
        &[0, 1],
    ),
    // i32.const 3; local.get 0; if i32; i32.const 4; call 0; i32.const 5; call 0; i32.add; else; i32.const 6; call 0;
    // i32.const 7; call 0; i32.sub; end; i32.sub; call 0
    (
        "calls in both arms",
        b"\
        \x41\x03\x20\x00\x04\x7f\x41\x04\x10\x00\x41\x05\x10\x00\x6a\x05\x41\x06\x10\x00\x41\x07\x10\x00\
        \x6b\x0b\x6b\x10\x00",
        &[0, 1],
    ),
    // local.get 0; call 0; local.set 1; local.get 0; if; local.get 1; call 0; local.set 1; end; local.get 1; call 0
    (
        "an if with no other arm",
        b"\x20\x00\x10\x00\x21\x01\x20\x00\x04\x40\x20\x01\x10\x00\x21\x01\x0b\x20\x01\x10\x00",
        &[0, 1],
    ),
    // global.get 0; i32.const 10; i32.eq; if i32; i32.const 0; global.set 0; i32.const 1; call 0; i32.const 9;
    // global.set 0; else; i32.const 2; call 0; end; global.get 0; i32.const 9; i32.eq; if; i32.const 0; global.set 0;
    // i32.const 5; call 1; end
    (
        "a condition that the arm changes",
        b"\
        \x23\x00\x41\x0a\x46\x04\x7f\x41\x00\x24\x00\x41\x01\x10\x00\x41\x09\x24\x00\x05\x41\x02\x10\x00\
        \x0b\x23\x00\x41\x09\x46\x04\x40\x41\x00\x24\x00\x41\x05\x10\x01\x0b",
        &[0],
    ),
    // local.get 0; call 0; i32.const 1; i32.and; if i32; i32.const 4; call 0; else; i32.const 5; call 0; end;
    // i32.const 6; call 0; i32.add
    (
        "a condition that is a call",
        b"\x20\x00\x10\x00\x41\x01\x71\x04\x7f\x41\x04\x10\x00\x05\x41\x05\x10\x00\x0b\x41\x06\x10\x00\x6a",
        &[0, 1, 2, 3],
    ),
    // local.get 0; i32.const 1; i32.and; if i32; local.get 0; i32.const 2; i32.and; if i32; i32.const 1; call 0; else;
    // i32.const 2; call 0; i32.const 3; call 0; i32.add; end; else; local.get 0; i32.const 2; i32.and; if i32;
    // i32.const 4; else; i32.const 5; call 0; end; i32.const 6; call 0; i32.sub; end; i32.const 7; call 0; i32.add
    (
        "ifs in ifs",
        b"\
        \x20\x00\x41\x01\x71\x04\x7f\x20\x00\x41\x02\x71\x04\x7f\x41\x01\x10\x00\x05\x41\x02\x10\x00\x41\
        \x03\x10\x00\x6a\x0b\x05\x20\x00\x41\x02\x71\x04\x7f\x41\x04\x05\x41\x05\x10\x00\x0b\x41\x06\x10\
        \x00\x6b\x0b\x41\x07\x10\x00\x6a",
        &[0, 1, 2, 3],
    ),
    // loop; local.get 0; i32.const 1; i32.and; if; local.get 0; call 1; else; local.get 1; local.get 0; call 0;
    // i32.add; local.set 1; end; local.get 0; i32.const 1; i32.sub; local.tee 0; br_if 0; end; local.get 1
    (
        "an if in a loop",
        b"\
        \x03\x40\x20\x00\x41\x01\x71\x04\x40\x20\x00\x10\x01\x05\x20\x01\x20\x00\x10\x00\x6a\x21\x01\x0b\
        \x20\x00\x41\x01\x6b\x22\x00\x0d\x00\x0b\x20\x01",
        &[1, 4],
    ),
    // local.get 0; if; loop; local.get 1; local.get 0; call 0; i32.add; local.set 1; local.get 0; i32.const 1;
    // i32.sub; local.tee 0; br_if 0; end; else; i32.const 9; call 0; local.set 1; end; local.get 1; call 0
    (
        "a loop in an arm",
        b"\
        \x20\x00\x04\x40\x03\x40\x20\x01\x20\x00\x10\x00\x6a\x21\x01\x20\x00\x41\x01\x6b\x22\x00\x0d\x00\
        \x0b\x05\x41\x09\x10\x00\x21\x01\x0b\x20\x01\x10\x00",
        &[0, 3],
    ),
    // block i32; i32.const 50; local.get 0; if; i32.const 1; call 0; local.get 0; i32.const 1; i32.eq; br_if 1; drop;
    // end; i32.const 2; call 0; i32.add; end
    (
        "branches out of an arm",
        b"\
        \x02\x7f\x41\x32\x20\x00\x04\x40\x41\x01\x10\x00\x20\x00\x41\x01\x46\x0d\x01\x1a\x0b\x41\x02\x10\
        \x00\x6a\x0b",
        &[0, 1, 2],
    ),
    // block; block; block; local.get 0; br_table 0 1 2; end; local.get 1; i32.const 10; call 0; i32.add; local.set 1;
    // end; local.get 1; i32.const 20; call 0; i32.add; local.set 1; end; local.get 1; i32.const 30; call 0; i32.add
    (
        "a table of branches between calls",
        b"\
        \x02\x40\x02\x40\x02\x40\x20\x00\x0e\x02\x00\x01\x02\x0b\x20\x01\x41\x0a\x10\x00\x6a\x21\x01\x0b\
        \x20\x01\x41\x14\x10\x00\x6a\x21\x01\x0b\x20\x01\x41\x1e\x10\x00\x6a",
        &[0, 1, 2, 9],
    ),
    // i32.const 100; block i32; i32.const 200; block i32; i32.const 300; local.get 0; call 0; local.get 0; br_table 0
    // 1 0 1; end; i32.sub; i32.const 4; call 0; i32.add; end; i32.sub
    (
        "a table of branches with a value",
        b"\
        \x41\xe4\x00\x02\x7f\x41\xc8\x01\x02\x7f\x41\xac\x02\x20\x00\x10\x00\x20\x00\x0e\x03\x00\x01\x00\
        \x01\x0b\x6b\x41\x04\x10\x00\x6a\x0b\x6b",
        &[0, 1, 2, 3],
    ),
    // block; block; local.get 0; call 0; i32.const 3; i32.rem_u; br_table 0 1 0; end; i32.const 5; call 1; i32.const
    // 6; call 0; return; end; i32.const 7; call 0
    (
        "a table of branches by an answer",
        b"\
        \x02\x40\x02\x40\x20\x00\x10\x00\x41\x03\x70\x0e\x02\x00\x01\x00\x0b\x41\x05\x10\x01\x41\x06\x10\
        \x00\x0f\x0b\x41\x07\x10\x00",
        &[0, 1, 2],
    ),
    // loop; local.get 1; i32.const 1; i32.add; local.tee 1; call 0; i32.const 3; i32.and; local.get 1; i32.const 4;
    // i32.gt_u; if i32; i32.const 1; else; i32.const 0; end; i32.or; drop; block; local.get 1; i32.const 3; i32.lt_u;
    // br_table 0 1; end; end; local.get 1
    (
        "a table of branches to a loop",
        b"\
        \x03\x40\x20\x01\x41\x01\x6a\x22\x01\x10\x00\x41\x03\x71\x20\x01\x41\x04\x4b\x04\x7f\x41\x01\x05\
        \x41\x00\x0b\x72\x1a\x02\x40\x20\x01\x41\x03\x49\x0e\x01\x00\x01\x0b\x0b\x20\x01",
        &[0],
    ),
    // i32.const 5; local.get 0; call 0; local.set 1; local.get 0; if; i32.const 6; local.get 1; return; end; local.get
    // 1; call 0; i32.add
    (
        "a return above operands",
        b"\x41\x05\x20\x00\x10\x00\x21\x01\x20\x00\x04\x40\x41\x06\x20\x01\x0f\x0b\x20\x01\x10\x00\x6a",
        &[0, 1],
    ),
    // i32.const 1; call 0; return; call 0; drop; i32.const 2; call 0
    (
        "code behind a return",
        b"\x41\x01\x10\x00\x0f\x10\x00\x1a\x41\x02\x10\x00",
        &[0],
    ),
    // i32.const 100; local.get 0; call 0; i32.const 1; call 1; unreachable
    (
        "a trap behind a call",
        b"\x41\xe4\x00\x20\x00\x10\x00\x41\x01\x10\x01\x00",
        &[0],
    ),
    // i32.const 1000; local.get 0; call 0; i32.const 4; i32.rem_u; i32.div_u; i32.const 3; call 0; i32.add
    (
        "a division by an answer",
        b"\x41\xe8\x07\x20\x00\x10\x00\x41\x04\x70\x6e\x41\x03\x10\x00\x6a",
        &[0, 1, 2, 3],
    ),
    // i32.const 1; local.get 0; call 4; i32.add; i32.const 2; call 4; local.get 0; call 6; i32.sub; i32.xor
    (
        "a function of its own",
        b"\x41\x01\x20\x00\x10\x04\x6a\x41\x02\x10\x04\x20\x00\x10\x06\x6b\x73",
        &[0, 5],
    ),
    // i32.const 1; local.get 0; call 5; i32.add; call 0
    (
        "a recursion",
        b"\x41\x01\x20\x00\x10\x05\x6a\x10\x00",
        &[0, 3],
    ),
    // i32.const 8; i32.const 21; local.get 0; call_indirect 0; i32.add; i32.const 4; i32.const 1; call_indirect 0;
    // i32.sub; call 0
    (
        "calls through the table",
        b"\x41\x08\x41\x15\x20\x00\x11\x00\x00\x6a\x41\x04\x41\x01\x11\x00\x00\x6b\x10\x00",
        &[0, 1, 2, 3, 4, 5],
    ),
    // i32.const 7; local.get 0; if i32; i32.const 5; local.get 0; call_indirect 0; else; i32.const 3; call_indirect 3;
    // end; i32.add
    (
        "calls through the table in an arm",
        b"\x41\x07\x20\x00\x04\x7f\x41\x05\x20\x00\x11\x00\x00\x05\x41\x03\x11\x03\x00\x0b\x6a",
        &[0, 1, 2, 3],
    ),
    // i32.const 128; local.get 0; call 0; i32.store 0; i32.const 1; call 1; i32.const 128; i32.load 0; i32.const 132;
    // i32.const 128; i32.load 0; i32.store 0; call 0; i32.const 132; i32.load 0; i32.add
    (
        "memory between calls",
        b"\
        \x41\x80\x01\x20\x00\x10\x00\x36\x02\x00\x41\x01\x10\x01\x41\x80\x01\x28\x02\x00\x41\x84\x01\x41\
        \x80\x01\x28\x02\x00\x36\x02\x00\x10\x00\x41\x84\x01\x28\x02\x00\x6a",
        &[0, 3],
    ),
    // i32.const 1; call 0; i32.const 1; memory.grow; i32.add; i32.const 2; call 0; memory.size; i32.add; i32.add;
    // i32.const 1; memory.grow; call 0; i32.const 1; memory.grow; i32.add; i32.add
    (
        "a memory that grows between calls",
        b"\
        \x41\x01\x10\x00\x41\x01\x40\x00\x6a\x41\x02\x10\x00\x3f\x00\x6a\x6a\x41\x01\x40\x00\x10\x00\x41\
        \x01\x40\x00\x6a\x6a",
        &[0],
    ),
    // i32.const 6; local.get 0; call 0; local.tee 1; local.get 1; i32.const 5; call 0; select; i32.const 3; call 0;
    // i32.eqz; drop; i32.add; local.get 1; i32.add
    (
        "operands that are chosen and copied",
        b"\
        \x41\x06\x20\x00\x10\x00\x22\x01\x20\x01\x41\x05\x10\x00\x1b\x41\x03\x10\x00\x45\x1a\x6a\x20\x01\
        \x6a",
        &[0, 1],
    ),
];

/// The function that is entered.
const RUN: u32 = 3;

/// The first of the functions that rewriting appends, which are the exports of a host in their order.
const START_UNWIND: u32 = 8;

const STOP_UNWIND: u32 = 9;

const START_REWIND: u32 = 10;

const STOP_REWIND: u32 = 11;

const GET_STATE: u32 = 12;

/// Where the area begins, and how long it is where all frames have room.
const AREA: usize = 256;

const LONG: usize = 768;

/// What is told where frames have no room, and nothing else differs.
const NO_ROOM: &str = "no room";

/// A number in three bytes of LEB128.
fn push_number(out: &mut Vec<u8>, number: usize) -> Result<(), AllocError> {
    out.push((number % 128) as u8 | 128)?;
    out.push((number / 128 % 128) as u8 | 128)?;
    out.push((number / 16_384) as u8)?;
    Ok(())
}

/// The module with this body of `run`.
fn assembled(alloc: Global, code: &[u8]) -> Result<Vec<u8>, AllocError> {
    let mut bytes = Vec::from_slice(alloc, HEAD)?;
    let size = LOCALS.len() + code.len() + 1;
    bytes.push(10)?;
    push_number(&mut bytes, 1 + 3 + size + REST.len())?;
    bytes.push(5)?;
    push_number(&mut bytes, size)?;
    bytes.extend_from_slice(LOCALS)?;
    bytes.extend_from_slice(code)?;
    bytes.push(0x0B)?;
    bytes.extend_from_slice(REST)?;
    Ok(bytes)
}

/// At which calls of imports the host pauses, by their numbers from 0.
#[derive(Clone, Copy, Debug, PartialEq, Eq)]
enum Pauses {
    Only(u32),
    Even,
    Always,
    Never,
}

impl Pauses {
    /// Every choice of one call among so many, and three more.
    fn choice(number: u32, calls: u32) -> Pauses {
        if number < calls {
            return Pauses::Only(number);
        }
        match number - calls {
            0 => Pauses::Even,
            1 => Pauses::Always,
            _ => Pauses::Never,
        }
    }

    fn at(self, number: u32) -> bool {
        match self {
            Pauses::Only(one) => number == one,
            Pauses::Even => number % 2 == 0,
            Pauses::Always => true,
            Pauses::Never => false,
        }
    }
}

/// The last argument of a call, where it is an i32.
fn told(call: &Call) -> u32 {
    match call.args.last() {
        Some(Value::I32(number)) => *number,
        _ => 0,
    }
}

/// What an import answers to its call of this number.
fn answer(call: &Call, number: u32) -> Option<Value> {
    let mixed = told(call).wrapping_mul(3).wrapping_add(number * 5 + 1);
    match call.import {
        0 => Some(Value::I32(mixed)),
        1 => None,
        _ => Some(Value::I64(7_000_000_000 + mixed as u64)),
    }
}

/// What an import gives while the stack unwinds.
fn nothing(call: &Call) -> Option<Value> {
    match call.import {
        0 => Some(Value::I32(0)),
        1 => None,
        _ => Some(Value::I64(0)),
    }
}

/// What differed first, or "", and how many calls were made.
#[derive(Clone, Copy, Debug, PartialEq, Eq)]
struct Outcome {
    found: &'static str,
    calls: u32,
}

/// An original and what was written of it, entered with the same argument, and the length of the area.
#[derive(Drop)]
struct Pair<'m> {
    original: Runner<'m>,
    written: Runner<'m>,
    argument: u32,
    length: usize,
    /// The most bytes of the area that a pause used.
    used: usize,
    /// Whether only calls of `ask` pause.
    asks_alone: bool,
}

impl<'m> Pair<'m> {
    fn new(
        alloc: Global,
        original: &'m Valid,
        written: &'m Valid,
        argument: u32,
        length: usize,
    ) -> Result<Pair<'m>, MakeFault> {
        Ok(Pair {
            original: Runner::new(alloc, original, 100_000)?,
            written: Runner::new(alloc, written, 10_000_000)?,
            argument,
            length,
            used: 0,
            asks_alone: false,
        })
    }

    /// Whether the original's globals, the memory's size and its bytes outside the area are the same in both, up to this place.
    fn same_up_to(&self, end: usize) -> bool {
        let globals = self.original.instance.globals();
        let Some(own) = self.written.instance.globals().get(..globals.len()) else {
            return false;
        };
        match (
            self.original.instance.memory(),
            self.written.instance.memory(),
        ) {
            (Some(here), Some(there)) => {
                let behind = AREA + self.length;
                own == globals
                    && here.len() == there.len()
                    && here.get(..AREA) == there.get(..AREA)
                    && here.get(behind..end) == there.get(behind..end)
            }
            _ => false,
        }
    }

    /// The same, where the memory is looked at near the area alone.
    fn same_stores(&self) -> bool {
        self.same_up_to(AREA + LONG + 256)
    }

    /// How many bytes the memory has.
    fn size(&self) -> usize {
        match self.original.instance.memory() {
            Some(memory) => memory.len(),
            None => 0,
        }
    }

    /// The location, from the beginning of the area.
    fn location(&self) -> usize {
        match self.written.instance.memory() {
            Some(memory) => {
                u32::from_le_bytes([
                    memory[AREA],
                    memory[AREA + 1],
                    memory[AREA + 2],
                    memory[AREA + 3],
                ]) as usize
                    - AREA
            }
            None => 0,
        }
    }

    /// Whether a call of one of the five exports gives this.
    fn host_gets(
        &mut self,
        export: u32,
        args: &[Value],
        wanted: Option<Value>,
    ) -> Result<bool, AllocError> {
        let turn = self.written.aside(export, args)?;
        Ok(is_returned(&turn, wanted))
    }

    /// Unwinds the written module from a call of an import, and says what goes otherwise than a host expects.
    fn unwind(&mut self, call: &Call) -> Result<&'static str, AllocError> {
        let at = Value::I32(AREA as u32);
        let first = (AREA as u32 + 8).to_le_bytes();
        let end = (AREA as u32 + self.length as u32).to_le_bytes();
        if !self.written.instance.poke(AREA as u64, &first)
            || !self.written.instance.poke(AREA as u64 + 4, &end)
            || !self.host_gets(START_UNWIND, &[at], None)?
        {
            return Ok("the unwind doesn't begin");
        }
        let turn = self.written.resume(nothing(call))?;
        if is_trapped(&turn, Trap::Unreachable) && self.same_stores() {
            return Ok(NO_ROOM);
        }
        if !matches!(turn, Turn::Returned(_)) {
            return Ok("the unwind doesn't return");
        }
        if !self.host_gets(GET_STATE, &[], Some(Value::I32(1)))?
            || !self.host_gets(STOP_UNWIND, &[], None)?
        {
            return Ok("the unwind doesn't stop");
        }
        if !self.same_stores() {
            return Ok("the stores differ at the pause");
        }
        self.used = self.used.max(self.location());
        Ok("")
    }

    /// Rewinds to the same call, and says what goes otherwise than a host expects.
    fn rewind(&mut self, call: &Call) -> Result<&'static str, AllocError> {
        let at = Value::I32(AREA as u32);
        if !self.host_gets(START_REWIND, &[at], None)? {
            return Ok("the rewind doesn't begin");
        }
        let turn = self.written.begin(RUN, &[Value::I32(self.argument)])?;
        if !asks(&turn, call.import, call.args.as_slice()) {
            return Ok("the rewind comes to another call");
        }
        if !self.host_gets(GET_STATE, &[], Some(Value::I32(2)))?
            || !self.host_gets(STOP_REWIND, &[], None)?
        {
            return Ok("the rewind doesn't stop");
        }
        if self.location() != 8 {
            return Ok("the frames aren't taken");
        }
        if !self.same_stores() {
            return Ok("the stores differ behind the rewind");
        }
        Ok("")
    }

    /// What differs between the two at a call, where the host pauses or not.
    fn at_call(&mut self, call: &Call, pauses: bool) -> Result<&'static str, AllocError> {
        if !self.same_stores() {
            return Ok("the stores differ at a call");
        }
        if self.written.steps.used < self.original.steps.used {
            return Ok("the written module is the cheaper one");
        }
        if !pauses || self.asks_alone && call.import != 0 {
            return Ok("");
        }
        let found = self.unwind(call)?;
        if found != "" {
            return Ok(found);
        }
        self.rewind(call)
    }

    /// What differs between the two at the end.
    fn at_end(&self, here: &Turn, there: &Turn) -> &'static str {
        let same = match here {
            Turn::Returned(value) => is_returned(there, *value),
            Turn::Trapped(trap) => is_trapped(there, *trap),
            _ => false,
        };
        if !same {
            return "the ends differ";
        }
        if !self.same_stores() {
            return "the stores differ at the end";
        }
        ""
    }

    /// Runs both, and gives what differs and how many calls they made.
    fn play(&mut self, pauses: Pauses) -> Result<(&'static str, u32), AllocError> {
        let entry = [Value::I32(self.argument)];
        let mut here = self.original.begin(RUN, &entry)?;
        let mut there = self.written.begin(RUN, &entry)?;
        for number in 0..100 {
            let Turn::Waiting(call) = &here else {
                return Ok((self.at_end(&here, &there), number));
            };
            if !asks(&there, call.import, call.args.as_slice()) {
                return Ok(("the calls differ", number));
            }
            let found = self.at_call(call, pauses.at(number))?;
            if found != "" {
                return Ok((found, number));
            }
            let value = answer(call, number);
            here = self.original.resume(value)?;
            there = self.written.resume(value)?;
        }
        Ok(("they make no end", 100))
    }
}

/// The settings that list these imports.
fn listing(choice: Choice) -> Settings {
    Settings {
        choice,
        ignore_indirect: false,
        policy: Policy::All,
        asserts: false,
    }
}

/// Plays one choice of pauses, and says what goes otherwise than it should, and where.
fn played(
    alloc: Global,
    original: &Valid,
    written: &Valid,
    argument: u32,
    length: usize,
    pauses: Pauses,
) -> Result<(Outcome, usize), MakeFault> {
    let mut pair = Pair::new(alloc, original, written, argument, length)?;
    let (found, calls) = pair.play(pauses)?;
    Ok((Outcome { found, calls }, pair.used))
}

/// What differs first where both are called with this argument: with each choice of pauses, and where the area is exactly as
/// long as the frames of one pause, or a byte shorter.
fn first_failure(
    alloc: Global,
    original: &Valid,
    written: &Valid,
    argument: u32,
) -> Result<Option<(Pauses, usize, Outcome)>, MakeFault> {
    let (plain, _) = played(alloc, original, written, argument, LONG, Pauses::Never)?;
    let calls = plain.calls;
    let wanted = Outcome { found: "", calls };
    for number in 0..calls + 3 {
        let pauses = Pauses::choice(number, calls);
        let (found, room) = played(alloc, original, written, argument, LONG, pauses)?;
        if found != wanted {
            return Ok(Some((pauses, LONG, found)));
        }
        if number >= calls {
            continue;
        }
        let (tight, _) = played(alloc, original, written, argument, room, pauses)?;
        if tight != wanted {
            return Ok(Some((pauses, room, tight)));
        }
        let (short, _) = played(alloc, original, written, argument, room - 1, pauses)?;
        if short
            != (Outcome {
                found: NO_ROOM,
                calls: number,
            })
        {
            return Ok(Some((pauses, room - 1, short)));
        }
    }
    Ok(None)
}

/// What goes otherwise than it should in these cases, or nothing.
fn failure_in(alloc: Global, cases: &[(&str, &[u8], &[u32])]) -> Result<String, Fail> {
    for (name, code, arguments) in cases {
        let original = valid(alloc, &assembled(alloc, code)?)?;
        let written = asyncify_module(alloc, &original, &listing(Choice::Every))?;
        for argument in *arguments {
            let failure = first_failure(alloc, &original, &written.module, *argument)?;
            if let Some(failure) = failure {
                return Ok(format!(in alloc; "{name}, argument {argument}: {failure:?}")?);
            }
        }
    }
    Ok(String::new(alloc))
}

#[test]
fn calls_in_a_row_and_in_blocks(rt: HostRuntime) -> Result<(), Fail> {
    assert_eq!(rt; failure_in(rt.alloc(), &CASES[..9])?.as_str(), "");
    Ok(())
}

#[test]
fn calls_in_loops_and_arms(rt: HostRuntime) -> Result<(), Fail> {
    assert_eq!(rt; failure_in(rt.alloc(), &CASES[9..18])?.as_str(), "");
    Ok(())
}

#[test]
fn calls_in_nested_arms_and_behind_tables(rt: HostRuntime) -> Result<(), Fail> {
    assert_eq!(rt; failure_in(rt.alloc(), &CASES[18..26])?.as_str(), "");
    Ok(())
}

#[test]
fn calls_of_functions_that_pause(rt: HostRuntime) -> Result<(), Fail> {
    assert_eq!(rt; failure_in(rt.alloc(), &CASES[26..])?.as_str(), "");
    Ok(())
}

/// Only calls of `ask` pause; those of the other imports stand in pieces. Here all of the memory is looked at.
#[test]
fn calls_that_are_not_listed_stand_in_pieces(rt: HostRuntime) -> Result<(), Fail> {
    let alloc = rt.alloc();
    for (name, code, arguments) in CASES {
        let original = valid(alloc, &assembled(alloc, code)?)?;
        let list = ImportList::parse(alloc, "env.ask")?;
        let written = asyncify_module(alloc, &original, &listing(Choice::Listed(list)))?;
        for argument in arguments {
            let mut pair = Pair::new(alloc, &original, &written.module, *argument, LONG)?;
            pair.asks_alone = true;
            let (found, _) = pair.play(Pauses::Always)?;
            assert_eq!(rt; found, "", "{name}, argument {argument}");
            assert!(rt; pair.same_up_to(pair.size()), "{name}, argument {argument}");
        }
    }
    Ok(())
}
