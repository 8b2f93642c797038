//! Modules' files that are fetched in pieces.

use crate::pieces::alike;
use crate::worked::WORKED;
use memory_vaults::{MemVault, NamedFile, SureVault};
use wasm_reader::{ModuleFault, ReadFault, read, read_file};
use std::alloc::{AllocError, Global};
use std::test::Fail;
use vault_port::{Vault, VaultFail};
use wa_types::{Bounds, LimitKind, Module, Name};

/// A vault of one file, of which each fetch answers one byte.
#[derive(Drop)]
struct ByteByByte(Vec<u8>);

impl Vault for ByteByByte {
    ghost use Rattle.std.specs.Prelude.{None};

    ghost files = { λ _. None };

    ghost fetch_faults = { λ _. 0 };

    ghost save_faults = { λ _. 0 };

    fn fetch(&mut self, _name: &str, from: u64, buf: &mut [u8]) -> Result<usize, VaultFail> {
        match self.0.get(from as usize) {
            Some(byte) if !buf.is_empty() => {
                buf[0] = *byte;
                Ok(1)
            }
            _ => Ok(0),
        }
    }

    fn save(&mut self, _name: &str, _from: u64, _piece: &[u8]) -> Result<usize, VaultFail> {
        Err(VaultFail::Failed)
    }
}

/// What is read of a file of which each fetch answers one byte.
fn one_by_one(alloc: Global, file: &[u8]) -> Result<Module, ModuleFault> {
    let mut vault = ByteByByte(Vec::from_slice(alloc, file)?);
    read_file(alloc, &mut vault, "in", Bounds::source())
}

/// The answer for a file as that for its bytes, where it could be read.
fn of_bytes(told: Result<Module, ModuleFault>) -> Result<Module, ReadFault> {
    match told {
        Ok(module) => Ok(module),
        Err(ModuleFault::Refused(fault)) => Err(fault),
        Err(_) => Err(ReadFault::Memory),
    }
}

#[test]
fn fetches_may_answer_one_byte_each(rt: HostRuntime) -> Result<(), Fail> {
    let alloc = rt.alloc();
    for (name, file) in WORKED {
        let whole = read(alloc, file, &Bounds::source());
        assert!(rt; alike(alloc, of_bytes(one_by_one(alloc, file)), whole), "{name}");
        let end = file.len() - 1;
        let cut = read(alloc, &file[..end], &Bounds::source());
        assert!(rt; alike(alloc, of_bytes(one_by_one(alloc, &file[..end])), cut), "{name}");
    }
    Ok(())
}

/// A module of so many bytes, at least 20, nearly all of them in a custom section.
fn long_module(alloc: Global, size: usize) -> Result<Vec<u8>, AllocError> {
    let length = size - 13;
    let mut bytes = Vec::from_slice(alloc, b"\0asm\x01\0\0\0\0")?;
    for place in 0..4 {
        let more = if place < 3 { 128 } else { 0 };
        bytes.push((length >> (7 * place) & 127) as u8 | more)?;
    }
    bytes.extend_from_slice(b"\x01a")?;
    bytes.resize(size, 7u8)?;
    Ok(bytes)
}

fn named(alloc: Global, bytes: Vec<u8>) -> Result<Vec<NamedFile>, AllocError> {
    let mut files = Vec::new(alloc);
    files.push(NamedFile {
        name: Name::new(alloc, "in")?,
        bytes,
    })?;
    Ok(files)
}

/// What is read of a file in memory, where the fetches of these numbers fail.
fn failing(alloc: Global, file: Vec<u8>, fail: Vec<u64>) -> Result<Module, ModuleFault> {
    let mut vault = MemVault::new(alloc, named(alloc, file)?, fail);
    read_file(alloc, &mut vault, "in", Bounds::source())
}

#[test]
fn each_fetch_of_a_long_file_may_fail(rt: HostRuntime) -> Result<(), Fail> {
    let alloc = rt.alloc();
    // 150,000 bytes come in three pieces; a fourth fetch finds the end
    for number in 1..=4 {
        let told = failing(alloc, long_module(alloc, 150_000)?, vec![in alloc; number]?);
        assert_eq!(rt; told.err(), Some(ModuleFault::Read), "{number}");
    }
    let told = failing(alloc, long_module(alloc, 150_000)?, vec![in alloc; 5]?);
    assert!(rt; told.is_ok());
    Ok(())
}

#[test]
fn a_fault_of_fetching_comes_before_malformed_bytes(rt: HostRuntime) -> Result<(), Fail> {
    let alloc = rt.alloc();
    let mut bytes = long_module(alloc, 150_000)?;
    bytes[3] = 0;
    for number in 1..=4 {
        let told = failing(alloc, bytes.clone()?, vec![in alloc; number]?);
        assert_eq!(rt; told.err(), Some(ModuleFault::Read), "{number}");
    }
    let told = failing(alloc, bytes, vec![in alloc; 5]?);
    let fault = ReadFault::Malformed { at: 4 };
    assert_eq!(rt; told.err(), Some(ModuleFault::Refused(fault)));
    Ok(())
}

#[test]
fn the_limit_of_a_file_comes_before_malformed_bytes(rt: HostRuntime) -> Result<(), Fail> {
    let alloc = rt.alloc();
    let mut zeros = vec![in alloc; 0u8; 8_388_609]?;
    // 8,388,609 bytes come in 128 pieces, and one byte behind them
    let told = failing(alloc, zeros.clone()?, vec![in alloc; 129]?);
    assert_eq!(rt; told.err(), Some(ModuleFault::Read));
    let told = failing(alloc, zeros.clone()?, vec![in alloc; 130]?);
    let fault = ReadFault::Limit {
        what: LimitKind::File,
        found: 8_388_609,
    };
    assert_eq!(rt; told.err(), Some(ModuleFault::Refused(fault)));
    zeros.truncate(8_388_608);
    let mut vault = SureVault::new(alloc, named(alloc, zeros)?);
    let told = read_file(alloc, &mut vault, "in", Bounds::source());
    let fault = ReadFault::Malformed { at: 2 };
    assert_eq!(rt; told.err(), Some(ModuleFault::Refused(fault)));
    assert_eq!(rt;
        read_file(alloc, &mut vault, "no", Bounds::source()).err(),
        Some(ModuleFault::Read)
    );
    Ok(())
}
