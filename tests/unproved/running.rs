//! Runs of small modules, from their bytes through `validate` and `Instance::make` (standard, section 4).

use crate::modules::{LoadFault, valid};
use interp::{Instance, MakeFault, Steps, Turn};
use std::alloc::{AllocError, Global};
use std::test::Fail;
use wa_types::{Trap, Value};
use wasm_validate::Valid;

/// An instance of a module without imported globals, with the steps that it may pay.
#[derive(Drop)]
pub struct Runner<'m> {
    pub instance: Instance<'m>,
    pub steps: Steps,
}

impl<'m> Runner<'m> {
    /// An instance that may pay so many steps.
    pub fn new(alloc: Global, valid: &'m Valid, left: u64) -> Result<Runner<'m>, MakeFault> {
        let instance = Instance::make(alloc, valid, &[])?;
        let steps = Steps { left, used: 0 };
        Ok(Runner { instance, steps })
    }

    /// Calls a function in place of what waits.
    pub fn begin(&mut self, func: u32, args: &[Value]) -> Result<Turn, AllocError> {
        self.instance.begin(func, args, &mut self.steps)
    }

    /// Calls a function and leaves what waits as it is.
    pub fn aside(&mut self, func: u32, args: &[Value]) -> Result<Turn, AllocError> {
        self.instance.aside(func, args, &mut self.steps)
    }

    /// Gives what waits its answer.
    pub fn resume(&mut self, value: Option<Value>) -> Result<Turn, AllocError> {
        self.instance.resume(value, &mut self.steps)
    }
}

/// `run`, function 0: returns 7.
const SEVEN: &[u8] =
    b"\0asm\x01\0\0\0\x01\x05\x01\x60\x00\x01\x7f\x03\x02\x01\x00\x07\x07\x01\x03run\x00\x00\x0a\x06\x01\x04\x00\x41\x07\x0b";

/// `run`, function 1, calls itself as often as its argument says, and then import 0 with 0.
const RECURSION: &[u8] = b"\
    \x00asm\x01\x00\x00\x00\x01\x06\x01\x60\x01\x7f\x01\x7f\x02\x0d\x01\x03env\x05pause\x00\x00\x03\x02\
    \x01\x00\x05\x03\x01\x00\x02\x07\x07\x01\x03run\x00\x01\x0a\x16\x01\x14\x00\x20\x00\x45\x04\x7f\x41\
    \x00\x10\x00\x05\x20\x00\x41\x01\x6b\x10\x01\x0b\x0b";

/// `run`, function 1, grows the memory by a page, calls import 0 with 2 and divides 5,000,000,000 by its answer.
const DIVISION: &[u8] = b"\
    \x00asm\x01\x00\x00\x00\x01\x0a\x02\x60\x01\x7f\x01\x7f\x60\x00\x01\x7e\x02\x0d\x01\x03env\x05pause\
    \x00\x00\x03\x02\x01\x01\x05\x03\x01\x00\x01\x07\x07\x01\x03run\x00\x01\x0a\x1b\x01\x19\x01\x01\x7e\
    \x41\x01\x40\x00\x1a\x42\x80\xe4\x97\xd0\x12\x21\x00\x20\x00\x41\x02\x10\x00\xad\x80\x0b";

/// `run`, function 1, calls import 0 with 65,532 and then loads the i32 that lies there.
const POKED_READ: &[u8] = b"\
    \x00asm\x01\x00\x00\x00\x01\x0a\x02\x60\x01\x7f\x01\x7f\x60\x00\x01\x7f\x02\x0c\x01\x03env\x04read\
    \x00\x00\x03\x02\x01\x01\x05\x03\x01\x00\x01\x07\x07\x01\x03run\x00\x01\x0a\x12\x01\x10\x00\x41\xfc\
    \xff\x03\x10\x00\x1a\x41\xfc\xff\x03\x28\x02\x00\x0b";

/// The same with a memory of no page.
const POKED_READ_NO_PAGE: &[u8] = b"\
    \x00asm\x01\x00\x00\x00\x01\x0a\x02\x60\x01\x7f\x01\x7f\x60\x00\x01\x7f\x02\x0c\x01\x03env\x04read\
    \x00\x00\x03\x02\x01\x01\x05\x03\x01\x00\x00\x07\x07\x01\x03run\x00\x01\x0a\x12\x01\x10\x00\x41\xfc\
    \xff\x03\x10\x00\x1a\x41\xfc\xff\x03\x28\x02\x00\x0b";

/// Function 1 takes so many bytes from a heap, and `run`, function 3, keeps the answers of import 0 there and adds them up.
const COMPILED: &[u8] = b"\
    \x00asm\x01\x00\x00\x00\x01\x06\x01\x60\x01\x7f\x01\x7f\x02\x1b\x02\x03env\x06memory\x02\x00\x02\x03\
    env\x05sleep\x00\x00\x03\x04\x03\x00\x00\x00\x04\x05\x01\x70\x01\x02\x02\x06\x08\x01\x7f\x01\x41\x80\
    \x88\x04\x0b\x07\x07\x01\x03run\x00\x03\x09\x07\x01\x00\x41\x01\x0b\x01\x02\x0a\x46\x03\x0b\x00\x23\
    \x00\x23\x00\x20\x00\x6a\x24\x00\x0b\x16\x01\x01\x7f\x41\x10\x10\x01\x22\x01\x20\x00\x10\x00\x36\x02\
    \x00\x20\x01\x28\x02\x00\x0b\x21\x01\x02\x7f\x03\x40\x20\x02\x20\x01\x41\x01\x11\x00\x00\x6a\x21\x02\
    \x20\x01\x41\x01\x6a\x22\x01\x20\x00\x49\x0d\x00\x0b\x20\x02\x0b\x0b\x0c\x01\x00\x41\x80\x08\x0b\x05\
    hello\x00\x09\x04\x6e\x61\x6d\x65\x00\x02\x01\x6d\x00\x0b\x09\x70\x72\x6f\x64\x75\x63\x65\x72\x73\
    \x00";

/// Function 0 calls the element of a table of three; the first is itself, of another type, and the others aren't there.
const THROUGH_TABLE: &[u8] = b"\
    \x00asm\x01\x00\x00\x00\x01\x08\x02\x60\x01\x7f\x00\x60\x00\x00\x03\x02\x01\x00\x04\x04\x01\x70\x00\
    \x03\x09\x07\x01\x00\x41\x00\x0b\x01\x00\x0a\x09\x01\x07\x00\x20\x00\x11\x01\x00\x0b";

/// A memory of 1,025 pages.
const LARGE: &[u8] = b"\
    \x00asm\x01\x00\x00\x00\x05\x04\x01\x00\x81\x08";

/// A table of one element; the first element segment fits it, and the second lies at 1.
const ELEMENTS_OUT: &[u8] = b"\
    \x00asm\x01\x00\x00\x00\x01\x04\x01\x60\x00\x00\x03\x02\x01\x00\x04\x04\x01\x70\x00\x01\x09\x0d\x02\x00\
    \x41\x00\x0b\x01\x00\x00\x41\x01\x0b\x01\x00\x0a\x04\x01\x02\x00\x0b";

/// A memory of one page; the first data segment is its last byte, and the second has a byte more.
const BYTES_OUT: &[u8] = b"\
    \x00asm\x01\x00\x00\x00\x05\x03\x01\x00\x01\x0b\x12\x02\x00\x41\xff\xff\x03\x0b\x01\x2a\x00\x41\xff\xff\
    \x03\x0b\x02\x2a\x2a";

/// An element segment behind a table of one element, and a data segment behind a memory of one page.
const BOTH_OUT: &[u8] = b"\
    \x00asm\x01\x00\x00\x00\x01\x04\x01\x60\x00\x00\x03\x02\x01\x00\x04\x04\x01\x70\x00\x01\x05\x03\x01\x00\
    \x01\x09\x07\x01\x00\x41\x01\x0b\x01\x00\x0a\x04\x01\x02\x00\x0b\x0b\x09\x01\x00\x41\x80\x80\x04\x0b\x01\
    \x2a";

/// A table of 100,001 elements.
const LONG_TABLE: &[u8] = b"\
    \x00asm\x01\x00\x00\x00\x04\x06\x01\x70\x00\xa1\x8d\x06";

/// The same with a memory of 1,025 pages.
const BOTH_LARGE: &[u8] = b"\
    \x00asm\x01\x00\x00\x00\x04\x06\x01\x70\x00\xa1\x8d\x06\x05\x04\x01\x00\x81\x08";

/// Why no instance of this module is made.
fn fault_of(alloc: Global, bytes: &[u8]) -> Result<Option<MakeFault>, LoadFault> {
    let module = valid(alloc, bytes)?;
    Ok(Runner::new(alloc, &module, 100).err())
}

pub fn is_returned(turn: &Turn, value: Option<Value>) -> bool {
    match turn {
        Turn::Returned(v) => *v == value,
        _ => false,
    }
}

pub fn is_trapped(turn: &Turn, trap: Trap) -> bool {
    match turn {
        Turn::Trapped(t) => *t == trap,
        _ => false,
    }
}

pub fn asks(turn: &Turn, import: u32, args: &[Value]) -> bool {
    match turn {
        Turn::Waiting(call) => call.import == import && call.args.as_slice() == args,
        _ => false,
    }
}

/// Whether these bytes lie in the memory from a place on.
fn holds(runner: &Runner, from: usize, bytes: &[u8]) -> bool {
    match runner.instance.memory() {
        Some(memory) => match memory.get(from..) {
            Some(rest) => rest.starts_with(bytes),
            None => false,
        },
        None => false,
    }
}

#[test]
fn returns_seven_in_three_steps(rt: HostRuntime) -> Result<(), Fail> {
    let module = valid(rt.alloc(), SEVEN)?;
    let mut runner = Runner::new(rt.alloc(), &module, 3)?;
    assert!(rt; is_returned(&runner.begin(0, &[])?, Some(Value::I32(7))));
    assert_eq!(rt; runner.steps.used, 3);
    let mut runner = Runner::new(rt.alloc(), &module, 2)?;
    assert!(rt; matches!(runner.begin(0, &[])?, Turn::StepsSpent));
    assert_eq!(rt; runner.steps.used, 2);
    Ok(())
}

#[test]
fn has_4096_activations(rt: HostRuntime) -> Result<(), Fail> {
    let module = valid(rt.alloc(), RECURSION)?;
    let mut runner = Runner::new(rt.alloc(), &module, 1_000_000)?;
    let turn = runner.begin(1, &[Value::I32(4_095)])?;
    assert!(rt; asks(&turn, 0, &[Value::I32(0)]));
    let turn = runner.begin(1, &[Value::I32(4_096)])?;
    assert!(rt; is_trapped(&turn, Trap::StackExhausted));
    Ok(())
}

#[test]
fn divides_by_an_answer(rt: HostRuntime) -> Result<(), Fail> {
    let module = valid(rt.alloc(), DIVISION)?;
    let mut runner = Runner::new(rt.alloc(), &module, 1_000)?;
    assert!(rt; asks(&runner.begin(1, &[])?, 0, &[Value::I32(2)]));
    assert!(rt; holds(&runner, 131_071, b"\0"));
    assert!(rt; !holds(&runner, 131_072, b"\0"));
    let turn = runner.resume(Some(Value::I32(5)))?;
    assert!(rt; is_returned(&turn, Some(Value::I64(1_000_000_000))));
    assert!(rt; asks(&runner.begin(1, &[])?, 0, &[Value::I32(2)]));
    let turn = runner.resume(Some(Value::I32(0)))?;
    assert!(rt; is_trapped(&turn, Trap::DivideByZero));
    assert!(rt; !runner.instance.is_waiting());
    Ok(())
}

#[test]
fn traps_through_a_table(rt: HostRuntime) -> Result<(), Fail> {
    let module = valid(rt.alloc(), THROUGH_TABLE)?;
    let mut runner = Runner::new(rt.alloc(), &module, 100)?;
    let turn = runner.begin(0, &[Value::I32(3)])?;
    assert!(rt; is_trapped(&turn, Trap::UndefinedElement));
    let turn = runner.begin(0, &[Value::I32(1)])?;
    assert!(rt; is_trapped(&turn, Trap::UninitializedElement));
    let turn = runner.begin(0, &[Value::I32(0)])?;
    assert!(rt; is_trapped(&turn, Trap::TypeMismatch));
    Ok(())
}

#[test]
fn goes_on_behind_a_call_aside(rt: HostRuntime) -> Result<(), Fail> {
    let module = valid(rt.alloc(), COMPILED)?;
    let mut runner = Runner::new(rt.alloc(), &module, 10_000)?;
    assert!(rt; runner.instance.globals() == [Value::I32(66_560)].as_slice());
    let turn = runner.begin(3, &[Value::I32(2)])?;
    assert!(rt; asks(&turn, 0, &[Value::I32(0)]));
    let turn = runner.aside(1, &[Value::I32(16)])?;
    assert!(rt; is_returned(&turn, Some(Value::I32(66_576))));
    let turn = runner.resume(Some(Value::I32(40)))?;
    assert!(rt; asks(&turn, 0, &[Value::I32(1)]));
    assert!(rt; runner.instance.globals() == [Value::I32(66_608)].as_slice());
    let turn = runner.resume(Some(Value::I32(2)))?;
    assert!(rt; is_returned(&turn, Some(Value::I32(42))));
    assert!(rt; holds(&runner, 1_024, b"hello"));
    assert!(rt; holds(&runner, 66_560, b"\x28\0\0\0"));
    assert!(rt; holds(&runner, 66_592, b"\x02\0\0\0"));
    Ok(())
}

#[test]
fn reads_what_was_poked(rt: HostRuntime) -> Result<(), Fail> {
    let module = valid(rt.alloc(), POKED_READ)?;
    let mut runner = Runner::new(rt.alloc(), &module, 100)?;
    assert!(rt; asks(&runner.begin(1, &[])?, 0, &[Value::I32(65_532)]));
    assert!(rt; runner.instance.poke(65_532, b"\x01\x02\x03\x04"));
    assert!(rt; !runner.instance.poke(65_533, b"\x05\x06\x07\x08"));
    let turn = runner.resume(Some(Value::I32(4)))?;
    assert!(rt; is_returned(&turn, Some(Value::I32(67_305_985))));
    Ok(())
}

#[test]
fn traps_without_a_page(rt: HostRuntime) -> Result<(), Fail> {
    let module = valid(rt.alloc(), POKED_READ_NO_PAGE)?;
    let mut runner = Runner::new(rt.alloc(), &module, 100)?;
    assert!(rt; asks(&runner.begin(1, &[])?, 0, &[Value::I32(65_532)]));
    assert!(rt; !runner.instance.poke(65_532, b"\x01\x02\x03\x04"));
    let turn = runner.resume(Some(Value::I32(4)))?;
    assert!(rt; is_trapped(&turn, Trap::OutOfBounds));
    Ok(())
}

#[test]
fn makes_no_instance_past_the_pages(rt: HostRuntime) -> Result<(), Fail> {
    let entries = false;
    let found = 1_025;
    let limit = Some(MakeFault::HostLimit { entries, found });
    assert!(rt; fault_of(rt.alloc(), LARGE)? == limit);
    assert!(rt; fault_of(rt.alloc(), BOTH_LARGE)? == limit);
    Ok(())
}

#[test]
fn makes_no_instance_past_the_entries(rt: HostRuntime) -> Result<(), Fail> {
    let entries = true;
    let found = 100_001;
    let limit = Some(MakeFault::HostLimit { entries, found });
    assert!(rt; fault_of(rt.alloc(), LONG_TABLE)? == limit);
    Ok(())
}

#[test]
fn makes_no_instance_with_segments_out(rt: HostRuntime) -> Result<(), Fail> {
    let elements = fault_of(rt.alloc(), ELEMENTS_OUT)?;
    assert!(rt; elements == Some(MakeFault::ElementsOut(1)));
    let bytes = fault_of(rt.alloc(), BYTES_OUT)?;
    assert!(rt; bytes == Some(MakeFault::BytesOut(1)));
    let both = fault_of(rt.alloc(), BOTH_OUT)?;
    assert!(rt; both == Some(MakeFault::ElementsOut(0)));
    Ok(())
}
