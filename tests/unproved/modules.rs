//! Modules from their bytes, for the tests.

use std::alloc::Global;
use thiserror::Error;
use wa_types::{Bounds, Module};
use wasm_reader::{ReadFault, read};
use wasm_validate::{Valid, ValidateFault, validate};

/// Why bytes are no valid module.
#[derive(Debug, Drop, Error)]
pub enum LoadFault {
    #[error("the bytes spell no module within the bounds")]
    Read(ReadFault),
    #[error("the module is invalid")]
    Validate(ValidateFault),
}

/// The module that these bytes spell, within the bounds of prepared modules.
pub fn module(alloc: Global, bytes: &[u8]) -> Result<Module, ReadFault> {
    read(alloc, bytes, &Bounds::prepared())
}

/// The same, where it is valid.
pub fn valid(alloc: Global, bytes: &[u8]) -> Result<Valid, LoadFault> {
    match module(alloc, bytes) {
        Ok(module) => validate(alloc, module).map_err(LoadFault::Validate),
        Err(fault) => Err(LoadFault::Read(fault)),
    }
}

/// A module with a section of each kind, with custom sections before, between and behind them, and padded numbers.
pub const EACH_SECTION: &[u8] = b"\0asm\x01\0\0\0\
    \x00\x03\x01a\x01\
    \x01\x8b\x80\x00\x82\x00\x60\x00\x00\x60\x02\x7f\x7e\x01\x7e\
    \x00\x05\x02bb\x02\x03\
    \x02\x1e\x04\x01m\x01f\x00\x01\x01m\x01t\x01\x70\x01\x01\x05\x01m\x01y\x02\x00\x02\x01m\x01g\x03\x7f\x01\
    \x03\x05\x02\x00\x81\x80\x00\
    \x04\x04\x01\x70\x00\x03\
    \x05\x04\x01\x01\x01\x02\
    \x06\x06\x01\x7e\x00\x42\x7f\x0b\
    \x07\x11\x04\x01f\x00\x00\x01t\x01\x00\x01y\x02\x00\x01g\x03\x01\
    \x08\x01\x02\
    \x09\x08\x01\x00\x41\x00\x0b\x02\x00\x01\
    \x0a\x0f\x02\x02\x00\x0b\x87\x80\x80\x00\x02\x01\x7f\x02\x7e\x01\x0b\
    \x0b\x09\x01\x00\x41\x08\x0b\x03xyz\
    \x00\x02\x01c";

/// The preamble, the type `[] -> []` and a function of it; its code section follows.
pub const FUNC: &[u8] = b"\0asm\x01\0\0\0\x01\x04\x01\x60\0\0\x03\x02\x01\0";
