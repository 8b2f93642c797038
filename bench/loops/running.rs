//! Runs of a module's exported function `run`.

ghost use Rattle.std.specs.Prelude.{◌+◌, ◌<◌, ◌^◌};

use interp::{Instance, Steps, Turn};
use std::alloc::Global;
use thiserror::Error;
use wa_types::{Bounds, Module, Space};
use wasm_reader::{ReadFault, read};
use wasm_validate::{Valid, ValidateFault, validate};

/// More steps than any run of the benchmark uses.
const MANY: u64 = 1 << 60;

/// Why bytes aren't run.
#[derive(Debug, Drop, Error)]
pub enum RunFault {
    #[error("the file spells no module within the bounds")]
    Read(ReadFault),
    #[error("the module is invalid")]
    Validate(ValidateFault),
    #[error("no function run")]
    Nothing,
}

/// The module that these bytes spell, where it is valid.
fn load(alloc: Global, bytes: &[u8]) -> Result<Valid, RunFault> {
    let module = match read(alloc, bytes, &Bounds::prepared()) {
        Ok(module) => module,
        Err(fault) => return Err(RunFault::Read(fault)),
    };
    validate(alloc, module).map_err(RunFault::Validate)
}

/// The index of the exported function `run`.
fn exported(module: &Module) -> Option<u32> {
    module
        .exports
        .iter()
        .find(|export| export.space == Space::Func && export.name.as_str() == "run")
        .map(|export| export.index)
}

/// Calls the function `run` of the module that these bytes spell, with no arguments. Its end, and the steps that it used.
pub fn run(alloc: Global, bytes: &[u8]) -> anyhow::Result<(Turn, u64)> {
    let valid = load(alloc, bytes)?;
    let Some(func) = exported(valid.module()) else {
        return Err(RunFault::Nothing.into());
    };
    let mut steps = Steps {
        left: MANY,
        used: 0,
    };
    let mut instance = Instance::make(alloc, &valid, &[])?;
    let turn = instance.begin(func, &[], &mut steps)?;
    Ok((turn, steps.used))
}
